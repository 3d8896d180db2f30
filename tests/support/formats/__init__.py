"""Frames, images, logs, journals, configurations and scripts, by docs/FORMATS.md."""
