"""The log with what was merged: `log -g`."""
