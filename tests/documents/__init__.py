"""The documents, the manual pages and the pictures: what they say is so."""
