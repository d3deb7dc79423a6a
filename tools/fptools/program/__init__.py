"""Calls of the program, its answers, and what its refusals mean."""
