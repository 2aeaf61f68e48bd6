"""The command `svnask`: what a user calls."""
