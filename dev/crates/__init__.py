"""Checks of the crates: public names, exports, layers, line widths."""
