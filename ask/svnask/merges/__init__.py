"""What was merged, by mergeinfo: between two paths, into a path, and into all."""
