"""Measurements: speed, stages, proof times, bounds of shapes."""
