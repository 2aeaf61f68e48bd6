"""A second implementation of the definitions, and the comparison of the programs with it."""
