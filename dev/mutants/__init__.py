"""Mutants: random changes of bodies, and the stored edits outside of the gate."""
