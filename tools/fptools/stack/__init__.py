"""How deep the stack of each thread gets, and its room."""
