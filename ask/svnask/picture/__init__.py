"""The picture of a history, from lanes to SVG."""
