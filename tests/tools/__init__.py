"""The commands of tools/ and bench/, `.ci/run`, and the rules of the repository."""
