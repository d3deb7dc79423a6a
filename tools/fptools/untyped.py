"""The types of what formats and packages give without types."""

from typing import Any

Values = dict[str, Any]
"""A table of TOML or JSON: a value has any type of the format. Its schema, or what reads it, says which."""

Dwarf = Any
"""An object of pyelftools, which has no types."""
