"""Instruction words: their flow of control, their text, and the turns at which they issue."""
