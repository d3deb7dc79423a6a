"""The commands fp_NAME, each in a module of its name with a function `main`."""
