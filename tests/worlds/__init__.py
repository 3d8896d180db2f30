"""Whole worlds at random: scripts, streams and arguments, to the letter."""
