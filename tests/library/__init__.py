"""The library for other languages: its calls, its packages and its examples."""
