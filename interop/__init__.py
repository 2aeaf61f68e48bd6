"""Answers of Subversion about small repositories: how they are recorded, and compared with the program."""
