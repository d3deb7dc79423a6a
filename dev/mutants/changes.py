"""The single changes that can be made to bodies of Rattle's sources."""
import re
from collections.abc import Callable, Iterator
from dataclasses import dataclass

from dev.crates.source import Body, Source, Token

COMPARISONS = {
    "==": ("!=",),
    "!=": ("==",),
    "<": ("<=", ">", "=="),
    "<=": ("<", ">="),
    ">": (">=", "<", "=="),
    ">=": (">", "<="),
}
OPERATORS = {
    "+": ("-", "|"),
    "-": ("+",),
    "*": ("+",),
    "/": ("*", "%"),
    "%": ("/",),
    "&": ("|", "^"),
    "|": ("&", "^"),
    "^": ("|", "&"),
    "<<": (">>",),
    ">>": ("<<",),
    "&&": ("||",),
    "||": ("&&",),
    "+=": ("-=", "="),
    "-=": ("+=", "="),
    "*=": ("+=",),
    "|=": ("&=", "="),
    "&=": ("|=",),
    "^=": ("|=",),
    "<<=": (">>=",),
    ">>=": ("<<=",),
    "..=": ("..",),
    "..": ("..=",),
}
WORDS = {
    "true": ("false",),
    "false": ("true",),
    "break": ("continue",),
    "continue": ("break",),
    "min": ("max",),
    "max": ("min",),
    "is_some": ("is_none",),
    "is_none": ("is_some",),
    "is_ok": ("is_err",),
    "is_err": ("is_ok",),
    "any": ("all",),
    "all": ("any",),
    "first": ("last",),
    "last": ("first",),
    "wrapping_add": ("wrapping_sub", "saturating_add"),
    "wrapping_sub": ("wrapping_add",),
    "saturating_add": ("wrapping_add", "saturating_sub"),
    "saturating_sub": ("saturating_add", "wrapping_sub"),
    "push": ("insert",),
    "wrapping_mul": ("wrapping_add",),
    "checked_add": ("checked_sub",),
    "checked_sub": ("checked_add",),
    "Some": ("Err",),
    "starts_with": ("ends_with",),
    "from_le_bytes": ("from_be_bytes",),
    "LittleEndian": ("BigEndian",),
    "u8": ("i8",),
    "i32": ("u32",),
}
NUMBER = re.compile(r"(0x[0-9a-fA-F_]+|0b[01_]+|[0-9][0-9_]*)([ui](?:8|16|32|64|128|size))?")
WEIGHTS = {"name": 0.3, "arguments": 0.7, "comparison": 2.0, "operator": 2.0, "condition": 2.0}
"""The weight of a kind among those of a line; 1 for kinds that aren't listed. Most swapped names and arguments don't compile."""


@dataclass(frozen=True)
class Change:
    """Ranges of a text and their replacements, in ascending order."""

    kind: str
    function: str
    edits: tuple[tuple[int, int, str], ...]

    def applied(self, text: str) -> str:
        for start, end, new in reversed(self.edits):
            text = text[:start] + new + text[end:]
        return text


@dataclass(frozen=True)
class Place:
    """A body, the indices of its executable tokens, and the functions that find changes in it."""

    source: Source
    body: Body
    runs: list[int]

    def tokens(self) -> Iterator[tuple[int, Token]]:
        for k in self.runs:
            yield k, self.source.tokens[k]

    def put(self, kind: str, first: int, last: int, new: str) -> Change:
        """New text for the tokens from one to below another."""
        tokens = self.source.tokens
        return Change(kind, self.body.name, ((tokens[first].start, tokens[last - 1].end, new),))

    def swap(self, kind: str, one: tuple[int, int], other: tuple[int, int]) -> Iterator[Change]:
        """Swaps two ranges of tokens, if their texts differ."""
        first, second = self.source.between(*one), self.source.between(*other)
        if first != second and first and second:
            yield Change(
                kind,
                self.body.name,
                self.put(kind, *one, second).edits + self.put(kind, *other, first).edits,
            )

    def stands_alone(self, token: Token) -> bool:
        """Whether there are blanks on both sides, as there are at an operator between two values."""
        text = self.source.text
        return text[token.start - 1].isspace() and text[token.end : token.end + 1].isspace()


def comparisons(place: Place) -> Iterator[Change]:
    for k, token in place.tokens():
        if token.text in COMPARISONS and place.stands_alone(token):
            for new in COMPARISONS[token.text]:
                yield place.put("comparison", k, k + 1, new)


def operators(place: Place) -> Iterator[Change]:
    for k, token in place.tokens():
        if token.text in OPERATORS and (place.stands_alone(token) or is_range(place, k)):
            for new in OPERATORS[token.text]:
                yield place.put("operator", k, k + 1, new)


def is_range(place: Place, k: int) -> bool:
    """Whether a token is the mark of a range with an end, and not of the other fields of a struct."""
    at = place.source.is_at
    return at(k, "..", "..=") and not at(k - 1, ",", "{", "(") and not at(k + 1, "]", ")", "}")


def numbers(place: Place) -> Iterator[Change]:
    for k, token in place.tokens():
        found = NUMBER.fullmatch(token.text) if token.kind == "number" else None
        if not found:
            continue
        value, suffix = int(found[1].replace("_", ""), 0), found[2] or ""
        for near in (value - 1, value + 1):
            if near >= 0:
                yield place.put(
                    "number",
                    k,
                    k + 1,
                    (hex(near) if found[1].startswith("0x") else str(near)) + suffix,
                )


def texts(place: Place) -> Iterator[Change]:
    """A text with its last character dropped, doubled or next to what it was."""
    for k, token in place.tokens():
        if token.kind != "text" or len(token.text.lstrip("br")) < 3:
            continue
        front, last, quote = token.text[:-2], token.text[-2], token.text[-1]
        if (
            not last.isalnum()
            or front.endswith("\\")
            or "{" in token.text
            and last not in "abcdefghijklmnopqrstuvwxyz"
        ):
            news = [front + last + " " + quote] if quote == '"' else []
        else:
            news = [front + chr(ord(last) ^ 1) + quote] + (
                [front + quote, front + last * 2 + quote] if quote == '"' else []
            )
        for new in news:
            yield place.put("text", k, k + 1, new)


def words(place: Place) -> Iterator[Change]:
    for k, token in place.tokens():
        if token.kind == "name":
            for new in WORDS.get(token.text, ()):
                yield place.put("word", k, k + 1, new)


def arguments(place: Place) -> Iterator[Change]:
    """Swaps two adjacent arguments, elements or fields."""
    for k, token in place.tokens():
        if token.kind == "mark" and token.text in ("(", "[", "{"):
            parts = place.source.parts(k)
            for one, other in zip(parts, parts[1:]):
                yield from swapped_values(place, one, other, token.text == "{")


def swapped_values(
    place: Place, one: tuple[int, int], other: tuple[int, int], fields: bool
) -> Iterator[Change]:
    """Swaps two parts, or the texts after the colons of two fields."""
    if any(place.source.is_at(k, "=>", ";", "..") for part in (one, other) for k in range(*part)):
        return
    if not fields:
        yield from place.swap("arguments", one, other)
    elif all(place.source.is_at(first + 1, ":") for first, _ in (one, other)):
        yield from place.swap("arguments", (one[0] + 2, one[1]), (other[0] + 2, other[1]))


def arms(place: Place) -> Iterator[Change]:
    """Swaps the bodies or the patterns of two adjacent arms, and the two blocks of an `if`."""
    source = place.source
    for k, token in place.tokens():
        opened = source.block_behind(k, place.body.last) if token.text in ("match", "if") else None
        if opened is None:
            continue
        if token.text == "match":
            found = source.arms(opened)
            for one, other in zip(found, found[1:]):
                yield from place.swap("arms", one[1], other[1])
                yield from place.swap("arms", one[0], other[0])
            continue
        other_side = source.after(opened)
        if source.is_at(other_side, "else") and source.is_at(other_side + 1, "{"):
            yield from place.swap(
                "arms", (opened, other_side), (other_side + 1, source.after(other_side + 1))
            )


def conditions(place: Place) -> Iterator[Change]:
    """The condition of an `if` or `while` turned, always true, or never."""
    source = place.source
    for k, token in place.tokens():
        opened = source.block_behind(k, place.body.last) if token.text in ("if", "while") else None
        if opened is None or any(source.is_at(at, "let") for at in range(k, opened)):
            continue
        for new in (f"!({source.between(k + 1, opened)})", "false") + (
            ("true",) if token.text == "if" else ()
        ):
            yield place.put("condition", k + 1, opened, new)


def statements(place: Place) -> Iterator[Change]:
    """A statement dropped, or the block of one without its condition."""
    source = place.source
    for opened in blocks(place):
        for first, last in source.statements(opened):
            is_value = (
                last == source.closing[opened]
                and place.body.result
                and not source.is_at(last - 1, ";")
            )
            if not is_value and not source.is_at(first, "let", "use", "const", "ghost"):
                yield place.put("statement", first, last, "")


def blocks(place: Place) -> Iterator[int]:
    """The braces that open the body and the blocks in it."""
    if place.source.is_at(place.body.first - 1, "{"):
        yield place.body.first - 1
    for k, token in place.tokens():
        if token.text == "{":
            yield k


def nones(place: Place) -> Iterator[Change]:
    for k, token in place.tokens():
        if token.text == "Some" and place.source.is_at(k + 1, "("):
            last = place.source.after(k + 1)
            if not place.source.is_at(last, "=", "=>", "|"):
                yield place.put("none", k, last, "None")


def early_values(result: str) -> list[str]:
    """The values that an early return may have, by the type."""
    if not result:
        return [""]
    for front, values in (
        ("bool", ["true", "false"]),
        ("Option<", ["None"]),
        ("Result<()", ["Ok(())"]),
        ("Result<bool", ["Ok(false)", "Ok(true)"]),
        ("Result<Option<", ["Ok(None)"]),
        ("Result<Vec<", ["Ok(Vec::new(alloc))"]),
        ("Vec<", ["Vec::new(alloc)"]),
        ("&[", ["&[]"]),
        ("Result<String", ["Ok(String::new(alloc))"]),
        ("Result<u", ["Ok(0)"]),
        ("Result<i", ["Ok(0)"]),
        ("&str", ['""']),
    ):
        if result.startswith(front):
            return values
    return ["0", "1"] if re.fullmatch(r"[ui](8|16|32|64|128|size)", result) else []


def returns(place: Place) -> Iterator[Change]:
    """An early return at the start of the body or after a statement; an early `break` or `continue` of a loop."""
    source = place.source
    for opened in blocks(place):
        for at in [opened + 1] + [last for _, last in source.statements(opened)]:
            rest = source.between(at, source.closing[opened])
            for value in early_values(place.body.result):
                if rest not in ("", value) and not rest.startswith("return"):
                    yield before(place, at, f"return {value}".rstrip() + "; ")
    for k, token in place.tokens():
        repeated = (
            source.block_behind(k, place.body.last) if token.text in ("for", "while") else None
        )
        if repeated is not None:
            for _, last in source.statements(repeated):
                yield before(place, last, "break; ")
                if last < source.closing[repeated]:
                    yield before(place, last, "continue; ")


def before(place: Place, k: int, text: str) -> Change:
    """Inserts a text before a token."""
    start = place.source.tokens[k].start
    return Change("early return", place.body.name, ((start, start, text),))


def names(place: Place) -> Iterator[Change]:
    """Replaces a variable or a field by another one of the body."""
    source = place.source
    kinds: dict[bool, list[int]] = {True: [], False: []}
    for k, token in place.tokens():
        plain = (
            token.kind == "name"
            and token.text[0].islower()
            and not source.is_at(k + 1, "(", "!", "::", "{")
        )
        if (
            plain
            and token.text not in KEYWORDS
            and not source.is_at(k - 1, "let", "mut", "for", "::", "fn")
        ):
            kinds[source.is_at(k - 1, ".")].append(k)
    for uses in kinds.values():
        known = sorted({source.tokens[k].text for k in uses})
        for k in uses:
            for new in known:
                if new != source.tokens[k].text:
                    yield place.put("name", k, k + 1, new)


KEYWORDS = frozenset(
    "as break const continue else fn for if in let loop match move mut ref return self static true false use where while "
    "u8 u16 u32 u64 u128 usize i8 i16 i32 i64 i128 bool str".split()
)

FINDERS: list[Callable[[Place], Iterator[Change]]] = [
    comparisons,
    operators,
    numbers,
    texts,
    words,
    arguments,
    arms,
    conditions,
    statements,
    nones,
    returns,
    names,
]


def changes(source: Source) -> list[Change]:
    """Every change of the bodies of a source."""
    found: list[Change] = []
    for body in source.bodies:
        place = Place(source, body, source.runs(body))
        for finder in FINDERS:
            found += finder(place)
    return list(dict.fromkeys(found))
