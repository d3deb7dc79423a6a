"""The parts of pyelftools that the tools use. An import of this module ends the call with one line if the package is missing."""
from fptools import require

require("elftools")

from elftools.common.exceptions import DWARFError, ELFError
from elftools.construct import ConstructError
from elftools.elf.elffile import ELFFile
from elftools.elf.sections import SymbolTableSection

__all__ = ["FAULTS", "DWARFError", "ELFError", "ELFFile", "SymbolTableSection"]

FAULTS = (
    ArithmeticError, AssertionError, AttributeError, ConstructError, LookupError, MemoryError, TypeError, ValueError,
)  # fmt: skip
"""What pyelftools raises beyond its own errors if a file has been cut, or a table in it has wrong offsets."""
