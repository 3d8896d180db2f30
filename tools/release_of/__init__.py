"""What is handed out of a version: its files, their sums, what is in them, and how they were made."""
