"""A new program from a name."""
