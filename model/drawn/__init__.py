"""Random inputs of tests and tables, each from a seed: setups with images, sections, and rows of tables."""
