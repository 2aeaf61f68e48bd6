"""Where a history comes from, and what is kept of it: dumps, repositories and the cache."""
