"""The library in each language, and what each of its calls answers."""
