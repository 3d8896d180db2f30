"""The parts of `bench/hosts`."""
