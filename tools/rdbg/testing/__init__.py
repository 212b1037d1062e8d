"""A folder of applications with their goals: what is asked of each, and what is expected, held
against what the search through orders answers."""
