"""One module a companion, each with a line on what it is for (`SUMMARY`, a text on one line) and
its `main`."""
