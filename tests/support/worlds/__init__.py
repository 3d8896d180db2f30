"""Worlds, scripts and streams at random, and the laws that hold of them."""
