"""The verbs of the command, each in the file of its name."""
