"""The answer to each test vector, and the check's adapters."""
