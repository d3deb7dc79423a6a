"""Rewrites comments `@rounds N` of C sources as the marks FP_LOOP and FP_ROUND.

It knows loops by `for`, `while` and `do`, and labels to which a `goto` leads. It reads no macro,
and so it is a help only: look at what it makes."""

import re
from collections.abc import Iterator
from dataclasses import dataclass, field

COMMENT = re.compile(
    r"[ \t]*(?:/\*\s*@rounds\s+(\d+)\s*\*/|//\s*@rounds\s+(\d+)\s*$)", re.MULTILINE
)
LOOP = re.compile(r"\b(for|while|do)\b|\b(?!case\b|default\b)([A-Za-z_]\w*)[ \t]*:(?!:)")
GOTO = re.compile(r"\bgoto\s+([A-Za-z_]\w*)\s*;")
COUNTER = re.compile(r"for\s*\(\s*(?:[\w\s*]*?[\s*])?([A-Za-z_]\w*)\s*=")
ENDLESS = re.compile(r"for\s*\([^;]*;\s*;|while\s*\(\s*(?:1|true)\s*\)")
HIDDEN = re.compile(
    r'/\*.*?\*/|//[^\n]*|"(?:\\.|[^"\\\n])*"|\'(?:\\.|[^\'\\\n])*\'|^[ \t]*#(?:\\\n|[^\n])*',
    re.DOTALL | re.MULTILINE,
)
"""Comments, strings, and lines of the preprocessor."""

STATEMENTS = ("for", "while", "if", "switch")


class NoLoop(Exception):
    """A comment whose loop isn't found. Has its line."""

    def __init__(self, line: int, why: str) -> None:
        super().__init__(why)
        self.line, self.why = line, why


@dataclass(frozen=True)
class Loop:
    """A loop in the text: its first place, that of its body, and the ends of both; a label has no
    body."""

    start: int
    body: int
    stop: int
    end: int
    is_endless: bool


@dataclass
class Source:
    """A source, with the same text without what hides words: spaces are at the other places."""

    text: str
    bare: str = ""
    names: dict[int, set[str]] = field(default_factory=dict)  # of marks, by functions

    def __post_init__(self) -> None:
        self.bare = HIDDEN.sub(lambda it: re.sub(r"[^\n]", " ", it[0]), self.text)

    def line(self, at: int) -> int:
        return self.text.count("\n", 0, at) + 1

    def behind(self, at: int) -> int:
        """The next place with a word or sign."""
        found = re.compile(r"\S").search(self.bare, at)
        return found.start() if found else len(self.bare)

    def closed(self, at: int) -> int:
        """The place behind the bracket that closes the one at a place."""
        depth = 0
        for k in range(at, len(self.bare)):
            depth += self.bare[k] in "({["
            depth -= self.bare[k] in ")}]"
            if not depth:
                return k + 1
        raise NoLoop(self.line(at), "a bracket isn't closed")

    def end_of(self, at: int) -> int:
        """The place behind the statement at a place."""
        at = self.behind(at)
        if self.bare[at : at + 1] == "{":
            return self.closed(at)
        word = re.compile(r"[A-Za-z_]\w*").match(self.bare, at)
        if word and word[0] in STATEMENTS:
            at = self.end_of(self.closed(self.bare.index("(", at)))
            other = re.compile(r"else\b").match(self.bare, self.behind(at))
            return self.end_of(other.end()) if word[0] == "if" and other else at
        if word and word[0] == "do":
            return self.bare.index(";", self.end_of(word.end())) + 1
        return self.bare.index(";", at) + 1

    def loop_at(self, found: re.Match[str]) -> Loop:
        """The loop of a `for`, `while`, `do` or label."""
        start = found.start()
        if found[2]:
            return Loop(start, found.end(), found.end(), found.end(), True)
        start, word = self._do_of(start) if found[1] == "while" else (start, found[1])
        body = start + 2 if word == "do" else self.closed(self.bare.index("(", start))
        is_endless = bool(ENDLESS.match(self.bare, start))
        return Loop(start, body, self.end_of(body), self.end_of(start), is_endless)

    def _do_of(self, at: int) -> tuple[int, str]:
        """The `do` that a `while` at a place ends, or the place itself."""
        before = len(self.bare[:at].rstrip()) - 1
        for it in re.finditer(r"\bdo\b", self.bare[: max(before, 0)]):
            if self.behind(self.end_of_body(it.end())) == at:
                return it.start(), "do"
        return at, "while"

    def end_of_body(self, at: int) -> int:
        try:
            return self.end_of(at)
        except (NoLoop, ValueError):
            return -1 if at < 0 else at

    def loop_of(self, comment: re.Match[str]) -> Loop:
        """The loop of a comment: in its line, else the first behind it if the comment has a line
        of its own."""
        begin = self.text.rfind("\n", 0, comment.start()) + 1
        line_end = (self.text + "\n").index("\n", comment.end())
        back = GOTO.search(self.bare, begin, line_end)
        if back:
            labels = list(re.finditer(rf"\b{back[1]}[ \t]*:(?!:)", self.bare[:begin]))
            if labels:
                return self.loop_at(LOOP.match(self.bare, labels[-1].start()) or labels[-1])
        found = list(LOOP.finditer(self.bare, begin, comment.start())) or list(
            LOOP.finditer(self.bare, comment.end(), line_end)
        )
        if not found and not self.bare[begin:line_end].strip():
            found = [it] if (it := LOOP.search(self.bare, line_end)) else []
        if not found:
            raise NoLoop(
                self.line(comment.start()),
                "no loop is found for `@rounds`: write FP_LOOP and FP_ROUND by hand",
            )
        return self.loop_at(found[-1])

    def name_of(self, loop: Loop) -> str:
        """A name that is new in the function: that of the counter, or `loop`."""
        taken = self.names.setdefault(self._function_at(loop.start), set())
        counter = COUNTER.match(self.bare, loop.start)
        name = base = counter[1] if counter else "loop"
        number = 1
        while name in taken:
            number += 1
            name = f"{base}{number}"
        taken.add(name)
        return name

    def _function_at(self, at: int) -> int:
        """The place of the outermost bracket around a place."""
        depth, first = 0, 0
        for k in range(at):
            depth += (self.bare[k] == "{") - (self.bare[k] == "}")
            first = k if depth == 1 and self.bare[k] == "{" else first
        return first


@dataclass(frozen=True)
class Edit:
    """Text to put at a place, in place of the text up to another one, and its rank among those at
    one place."""

    at: int
    to: int
    text: str
    rank: tuple[int, int]


OPENS, CLOSES, REMOVES = 1, 0, 2
"""The first numbers of ranks: what ends at a place is before what begins there."""


def _edits(source: Source, comment: re.Match[str]) -> Iterator[Edit]:
    yield Edit(comment.start(), comment.end(), "", (REMOVES, 0))
    loop = source.loop_of(comment)
    name, most = source.name_of(loop), int(comment[1] or comment[2])
    # A loop that is left in its middle begins a round more than it ends.
    enter = f"FP_LOOP({name}, {max(most + loop.is_endless, 1)});"
    round_ = f"FP_ROUND({name});"
    opens, closes = (OPENS, loop.start), (CLOSES, -loop.start)
    if loop.body == loop.end:  # a label
        yield Edit(loop.start, loop.start, f"{enter} ", opens)
        yield Edit(loop.body, loop.body, f" {round_}", opens)
        return
    indent = source.text[source.text.rfind("\n", 0, loop.start) + 1 : loop.start]
    before = source.bare[: loop.start].rstrip()[-1:]
    is_statement = not before or before in ";{}:"
    behind = " " if indent.strip() or not is_statement else f"\n{indent}"
    yield Edit(loop.start, loop.start, "{ " * (not is_statement) + enter + behind, opens)
    first = source.behind(loop.body)
    if source.bare[first] == "{":
        yield Edit(first + 1, first + 1, f" {round_}", opens)
    else:
        yield Edit(first, first, f"{{ {round_} ", opens)
        yield Edit(loop.stop, loop.stop, " }", closes)
    if not is_statement:
        yield Edit(loop.end, loop.end, " }", closes)


def comments_of(text: str) -> list[re.Match[str]]:
    """The comments `@rounds N` of a source, without what is in a string."""
    strings = [it.span() for it in HIDDEN.finditer(text) if it[0][0] in "\"'"]
    found = COMMENT.finditer(text)
    return [it for it in found if not any(a < it.end() <= b for a, b in strings)]


def with_marks(text: str) -> str:
    """The source with marks in place of comments. Raises NoLoop."""
    source = Source(text)
    edits = [it for comment in comments_of(text) for it in _edits(source, comment)]
    made, at = "", 0
    for edit in sorted(edits, key=lambda it: (it.at, it.rank)):
        made += text[at : edit.at] + edit.text
        at = max(at, edit.to)
    return made + text[at:]
