"""The C of a firmware, in whose comments the lines of a model stand."""
