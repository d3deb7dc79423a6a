"""The exit statuses of the program, and of the scripts and tools around it."""
from enum import IntEnum


class Status(IntEnum):
    """The exit statuses of the program, as docs/COMMANDS.md has them; there is no other."""

    OK = 0
    DIFFERS = 1
    USAGE = 2
    SETUP = 3
    IMAGE = 4
    SOURCE = 5
    BOUND = 6
    READ = 7
    WRITE = 8
    NO_MEMORY = 9
    ROUTINES = 10


NOT_BUILT = 125
"""The status of ./flexpret and ./flexpret-view if the result isn't the program's."""

CANNOT = 2
"""The status of a tool that can't read or write something, or whose arguments are wrong."""
