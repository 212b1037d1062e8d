"""The common part of pages that show a run: the run as JSON values, and the files that show it."""
