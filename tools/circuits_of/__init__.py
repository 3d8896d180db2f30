"""The parts of tools/circuits."""
