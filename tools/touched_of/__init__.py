"""What `tools/touched` is made of: the changed files, the crates above them, their minutes."""
