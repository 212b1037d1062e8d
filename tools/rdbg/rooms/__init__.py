"""A room: several, each by a name, at one `rdbg serve`."""
