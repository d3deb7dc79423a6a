"""Checks and pictures of the pages."""
