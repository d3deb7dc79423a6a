"""Sources of the assembler: the place of each word, texts of words, and why a source is refused."""
