"""What only the crates show: through `duk_driver`, and in their sources."""
