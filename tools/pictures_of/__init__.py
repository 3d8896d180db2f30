"""The parts of tools/pictures that are made without a browser: pictures of texts of the repository."""
