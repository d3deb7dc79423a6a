"""Whether a section of code can only be left by its end: plain_section.py SETUP FROM TO. Status 0: yes, 1: unknown.

`./flexpret bound` calls this after each result, so it imports little. The status is 1 for all that isn't plain: a setup whose image
isn't a plain string, a word that isn't in the image, a call, an indirect jump, a trap, a wait, a jump to another address."""
from fptools.files.image import ImageError, read_image
from fptools.isa.encodings import edges, is_call


def image_of(setup: str) -> str:
    """The name of a setup's image, if its line is plain."""
    with open(setup, encoding="utf-8") as file:
        lines = [line.strip() for line in file if line.lstrip().startswith("image")]
    (line,) = lines
    key, _, value = line.partition("=")
    quote = value.strip()[:1]
    name, end, rest = value.strip()[1:].partition(quote)
    if (
        key.strip() != "image"
        or quote not in ('"', "'")
        or not end
        or "\\" in name
        or rest.strip()[:1] not in ("", "#")
    ):
        raise ValueError
    return name


def stays(pc: int, word: int, start: int, end: int) -> bool:
    """Whether a word has successors, and all are in the section or at its end. A call has none there."""
    found = edges(pc, word)
    return (
        bool(found)
        and not is_call(word)
        and all(start <= to <= end and to % 4 == 0 for to in found)
    )


def is_plain(setup: str, start: int, end: int) -> bool:
    """Whether all successors of all words of a section are in it or at its end."""
    words = read_image(image_of(setup))
    return start < end and all(stays(at, words[at], start, end) for at in range(start, end, 4))


def main(setup: str, start: str, end: str) -> int:
    try:
        return 0 if is_plain(setup, int(start, 0), int(end, 0)) else 1
    except (OSError, ValueError, KeyError, ImageError):
        return 1
