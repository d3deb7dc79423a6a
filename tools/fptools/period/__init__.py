"""The period of a loop that waits: its moments, its bounds and its runs."""
