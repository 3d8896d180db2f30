"""The page as one file: its sources bundled with the modules of proved code."""
