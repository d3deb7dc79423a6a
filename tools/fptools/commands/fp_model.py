"""The model in Python in place of the program, with its arguments, output and status. It needs Python alone.

    fp_model run examples/drive.toml --thread 0 --cycles 77
    FLEXPRET=tools/fp_model tools/fp_budget ..

Nothing of its answers is proved, as a line on standard error says, unless FLEXPRET_QUIET is set. It takes
a thousand times as long as the program."""

import os
import site
import sys

from fptools import require
from fptools.checkout import TOP

SAYS = "flexpret: nothing of this answer is proved: the model in Python gives it"


def main() -> int:
    require()
    if not os.environ.get("FLEXPRET_QUIET"):
        print(SAYS, file=sys.stderr, flush=True)
    site.addsitedir(str(TOP))
    from model.__main__ import main as answer

    return answer()
