"""A history that is open: its revisions, its tree and the targets in it."""
