"""The copy of a dump that questions read, and what is read of it."""
