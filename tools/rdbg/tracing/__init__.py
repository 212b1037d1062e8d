"""Runs as rows: who did what, at which place, and what came of it."""
