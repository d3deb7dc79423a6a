"""The scripts of the developers: run one by `python3 -m dev.FOLDER.NAME` at the top of the repository.

They use the package fptools of the folder tools."""
import site
from pathlib import Path

site.addsitedir(str(Path(__file__).resolve().parent.parent / "tools"))
