"""The library for other languages: built, and its parts compared with each other."""
