"""The tables of the crates `test_units` and `test_commands`: how they are written, verified and drawn."""
