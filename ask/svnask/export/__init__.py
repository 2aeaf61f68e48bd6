"""A history for others: as a database, and for a migration."""
