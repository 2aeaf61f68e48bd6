"""A history that stays open between questions: the server, its callers and the shell."""
