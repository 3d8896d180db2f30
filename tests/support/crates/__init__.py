"""The program `duk_driver`, and the sources as trees of tokens."""
