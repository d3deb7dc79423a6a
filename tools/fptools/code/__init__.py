"""What the machine code of a section, a function or a thread does, read off its words."""
