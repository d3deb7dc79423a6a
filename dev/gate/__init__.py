"""What ./test runs, and the parts that are no fuzzer: the edge of the program, refused memory, the view, types."""
