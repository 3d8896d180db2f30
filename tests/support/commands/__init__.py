"""What each command has to write, and how a run of it is judged."""
