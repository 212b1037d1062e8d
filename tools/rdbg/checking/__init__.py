"""What is wrong with an application file, and what would be right."""
