"""Records of a core's signals, and their comparison with the program."""
