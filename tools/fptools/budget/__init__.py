"""Bounds of sections against budgets: names, files, paths, results, and the comparison with runs."""
