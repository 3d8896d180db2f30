"""Mistakes planted in the library, and the vectors that find them."""
