"""The page in a browser, and what it has to show."""
