"""What the program's commands write, and what they leave of files and of secrets."""
