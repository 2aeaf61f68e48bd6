"""The log of a path: which revisions, and how they are printed."""
