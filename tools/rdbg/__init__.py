"""Companions of rdbg: programs that drive it by its lines, and need no trust."""
