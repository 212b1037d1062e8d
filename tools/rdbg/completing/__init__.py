"""What completes rdbg's words in a shell: one table of them, and a script of it for each shell."""
