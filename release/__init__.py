"""What a release has, and how it is made of the built programs."""
