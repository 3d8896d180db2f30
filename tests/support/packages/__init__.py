"""The Debian packages and releases, as they are made and read."""
