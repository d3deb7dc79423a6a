"""What a run took: executions of sections, rounds of loops, waits and traps, against bounds and claims."""
