"""Checks that the target of each link of the repository's pages exists: a file, and its heading if there is an anchor.

usage: python3 -m dev.pages.links [PAGE..]

Without a page: every Markdown file of the repository. Links with a scheme, as https:, aren't followed. Status: 0
all links lead somewhere; 1 some don't; 2 a page can't be read.
"""

import re
import sys
from collections.abc import Iterator
from pathlib import Path

from dev.program import TOP

LINK = re.compile(r"\]\(([^)\s]+)\)")


def anchor_of(heading: str) -> str:
    """The anchor that hosts give to a heading: lower case, spaces as dashes, other marks dropped."""
    text = re.sub(r"\[([^\]]*)\]\([^)]*\)", r"\1", heading).replace("`", "").strip().lower()
    return re.sub(r"[^\w\- ]", "", text).replace(" ", "-")


def prose_of(text: str) -> Iterator[tuple[int, str]]:
    """The lines of a page outside of fenced code, with their numbers."""
    fenced = False
    for number, line in enumerate(text.splitlines(), 1):
        if line.startswith("```"):
            fenced = not fenced
        elif not fenced:
            yield number, line


def anchors(page: Path) -> set[str]:
    """The anchors of a page's headings; a second heading of one name has -1 behind it."""
    found: set[str] = set()
    for _, line in prose_of(page.read_text()):
        if line.startswith("#"):
            name, count = anchor_of(line.lstrip("#")), 0
            while (anchor := f"{name}-{count}" if count else name) in found:
                count += 1
            found.add(anchor)
    return found


def broken(page: Path) -> Iterator[str]:
    """The links of a page that lead nowhere."""
    for number, line in prose_of(page.read_text()):
        for link in LINK.findall(re.sub(r"`[^`]*`", "", line)):
            if re.match(r"[a-z]+:", link):
                continue
            path, _, anchor = link.partition("#")
            target = (page.parent / path).resolve() if path else page
            if not target.exists():
                yield f"{number}: {link}: no such file"
            elif anchor and target.suffix == ".md" and anchor not in anchors(target):
                yield f"{number}: {link}: no such heading"


def pages() -> list[Path]:
    """The Markdown files of the repository, without generated ones."""
    return sorted(
        page
        for page in TOP.rglob("*.md")
        if not {"out", ".git", "node_modules"} & set(page.relative_to(TOP).parts)
    )


def main() -> int:
    """Checks each page."""
    chosen = [Path(name).resolve() for name in sys.argv[1:]] or pages()
    wrong = 0
    for page in chosen:
        try:
            for problem in broken(page):
                wrong += 1
                print(f"{page.relative_to(TOP) if page.is_relative_to(TOP) else page}:{problem}")
        except OSError as error:
            print(f"links.py: {error}", file=sys.stderr)
            return 2
    print(f"links.py: {len(chosen)} pages, {wrong} links lead nowhere")
    return 1 if wrong else 0


if __name__ == "__main__":
    sys.exit(main())
