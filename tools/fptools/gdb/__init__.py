"""A run in gdb: the machine at a position, its stops, and gdb's packets."""
