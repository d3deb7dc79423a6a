"""Plants in other processes, and inputs from files."""
