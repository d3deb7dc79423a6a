"""The parts of the scripts ./flexpret and ./flexpret-view that are written in Python. They only need the standard library."""
