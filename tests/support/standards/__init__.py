"""The standards' ciphers, keys, MACs, PIN blocks and key blocks."""
