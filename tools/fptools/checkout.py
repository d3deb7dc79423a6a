"""The folder that contains this package, with the scripts and examples beside it: a checkout, or a tree that tools/install.sh made."""
from pathlib import Path

TOP = Path(__file__).resolve().parents[2]
TOOLS = TOP / "tools"
