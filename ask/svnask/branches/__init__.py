"""What is asked of all branches and tags at once."""
