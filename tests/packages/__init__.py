"""The Debian packages, and a release."""
