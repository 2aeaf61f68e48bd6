"""The texts of `svn:mergeinfo`."""
