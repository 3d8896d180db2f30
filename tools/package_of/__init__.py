"""The Debian packages: what stands in each, what it says of itself, and how its bytes are made."""
