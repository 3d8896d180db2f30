"""What is made of the table of the calls: a module for each language or kind of file."""
