"""The test vectors, their check, and the bench's own ciphers, which judge them."""
