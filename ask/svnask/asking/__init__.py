"""Questions from the words of a command line to what is printed: for the command, the server and the shell."""
