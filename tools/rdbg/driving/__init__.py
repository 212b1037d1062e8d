"""A target that is driven by its lines: a session and what it has told, runs and ways back in
pieces, the moves as a list, and Ctrl-C."""
