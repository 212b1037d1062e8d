"""What starts the search through orders, listens to it, and ends it in time."""
