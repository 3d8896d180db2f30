"""The book of many hosts in PostgreSQL: clusters of the tests' own, and what its statement means."""
