"""Rattle's sources as tokens, and the places of the bodies of functions and constants in them."""
import bisect
import re
from collections.abc import Iterator
from dataclasses import dataclass
from functools import cached_property

TOKEN = re.compile(
    r"""
    (?P<blank>\s+|//[^\n]*|/\*.*?\*/)
  | (?P<text>b?r?"(?:\\.|[^"\\])*"|b?'(?:\\(?:x[0-9a-fA-F]{2}|u\{[^}]*\}|.)|[^'\\\n])')
  | (?P<lifetime>'[A-Za-z_]\w*)
  | (?P<number>[0-9][0-9A-Za-z_]*)
  | (?P<name>[^\W\d]\w*)
  | (?P<mark><<=|>>=|\.\.=|->|=>|::|\.\.|==|!=|<=|>=|&&|\|\||[-+*/%^&|]=|<<|>>|.)
""",
    re.VERBOSE | re.DOTALL,
)

CLOSING = {"(": ")", "[": "]", "{": "}"}
CLAUSES = ("requires", "ensures")
"""The keywords before a block of a contract. A name may be between."""


@dataclass(frozen=True)
class Token:
    kind: str
    text: str
    start: int
    end: int


@dataclass(frozen=True)
class Body:
    """The tokens from `first` up to but not including `last` of a function's block, or of a constant's value."""

    name: str
    first: int
    last: int
    result: str
    """The type of the function's result, or nothing."""
    begin: int
    """The token `fn`, `const` or `static`."""


class Source:
    """A file's text and tokens."""

    def __init__(self, text: str) -> None:
        self.text = text
        self.tokens = [
            Token(found.lastgroup or "", found[0], found.start(), found.end())
            for found in TOKEN.finditer(text)
            if found.lastgroup != "blank"
        ]
        self.line_starts = [0] + [found.end() for found in re.finditer("\n", text)]

    def line_of(self, place: int) -> int:
        return bisect.bisect_right(self.line_starts, place)

    def is_at(self, k: int, *texts: str) -> bool:
        return k < len(self.tokens) and self.tokens[k].text in texts

    @cached_property
    def closing(self) -> dict[int, int]:
        """The token that closes each bracket."""
        pairs: dict[int, int] = {}
        opened: list[int] = []
        for k, token in enumerate(self.tokens):
            if token.kind != "mark":
                continue
            if token.text in CLOSING:
                opened.append(k)
            elif opened and token.text == CLOSING[self.tokens[opened[-1]].text]:
                pairs[opened.pop()] = k
        return pairs

    def after(self, k: int) -> int:
        """The token after this one, or after the brackets that it opens."""
        return self.closing.get(k, k) + 1

    def between(self, first: int, last: int) -> str:
        """The text of the tokens from one to below another."""
        return (
            self.text[self.tokens[first].start : self.tokens[last - 1].end] if first < last else ""
        )

    # ------------------------------------------------------------ bodies

    @cached_property
    def bodies(self) -> list[Body]:
        """The bodies, but not those inside another one."""
        found: list[Body] = []
        k = 0
        while k < len(self.tokens):
            body = self.function_at(k) or self.constant_at(k)
            if body:
                found.append(body)
            k = (
                body.last
                if body
                else self.after(k)
                if self.is_at(k, "#", "(") or self.begins_clause(k)
                else k + 1
            )
        return found

    def begins_clause(self, k: int) -> bool:
        """Whether the block of a definition for proofs begins, as `ghost view = { .. }`."""
        return self.is_at(k, "{") and k > 0 and self.is_at(k - 1, "=")

    def is_function(self, body: Body) -> bool:
        return self.is_at(body.begin, "fn")

    def owner(self, body: Body) -> str:
        """The type, and then the trait, of the block around a method, or the name of its trait, or nothing."""
        for k, token in enumerate(self.tokens[: body.begin]):
            if token.text in ("impl", "trait") and token.kind == "name":
                opened = self.block_behind(k, body.begin)
                if opened is not None and self.closing[opened] > body.begin:
                    return self.owner_at(k, opened)
        return ""

    def owner_at(self, k: int, opened: int) -> str:
        """The words of a header `impl .. {` that name its type and its trait, in the order in which a check puts them."""
        first = self.behind_angles(k + 1) if self.is_at(k + 1, "<") else k + 1
        names, at = [""], first
        while at < opened and not self.is_at(at, "where", ":"):
            if self.is_at(at, "for"):
                names.append("")
            elif self.tokens[at].kind == "name":
                names[-1] = self.tokens[at].text
            at = self.behind_angles(at) if self.is_at(at, "<") else at + 1
        return "".join(reversed(names))

    def behind_angles(self, k: int) -> int:
        """The token after the bracket that closes the `<` at a token."""
        depth = 0
        while True:
            depth += {"<": 1, ">": -1, ">>": -2}.get(self.tokens[k].text, 0)
            k += 1
            if depth <= 0:
                return k

    def function_at(self, k: int) -> Body | None:
        """The body of the function that begins at a token `fn`, if it has one."""
        if not (
            self.is_at(k, "fn") and k + 1 < len(self.tokens) and self.tokens[k + 1].kind == "name"
        ):
            return None
        name, in_clause, result = self.tokens[k + 1].text, False, -1
        at = k + 2
        signature_end = -1
        while at < len(self.tokens) and not self.is_at(at, ";"):
            if self.is_at(at, "->") and result < 0:
                result = at + 1
            if self.is_at(at, *CLAUSES, "where", "{") and signature_end < 0:
                signature_end = at
            if self.is_at(at, *CLAUSES):
                in_clause = True
            if self.is_at(at, "{"):
                if not in_clause:
                    answer = self.between(result, signature_end) if result > 0 else ""
                    return Body(name, at + 1, self.closing[at], answer, k)
                in_clause = False
            at = self.after(at)
        return None

    def constant_at(self, k: int) -> Body | None:
        """The value of the constant that begins at a token `const` or `static`."""
        if (
            not self.is_at(k, "const", "static")
            or self.is_at(k + 1, "fn", "_")
            or k
            and self.is_at(k - 1, "<", ",", "*")
        ):
            return None
        at = k + 2
        while at < len(self.tokens) and not self.is_at(at, "=", ";", ","):
            at = self.after(at)
        if not self.is_at(at, "="):
            return None
        first = at + 1
        while at < len(self.tokens) and not self.is_at(at, ";"):
            at = self.after(at)
        return Body(self.tokens[k + 1].text, first, at, "", k)

    def runs(self, body: Body) -> list[int]:
        """The executable tokens of a body: no attributes, no clauses, nothing that is only for proofs."""
        kept: list[int] = []
        k = body.first
        while k < body.last:
            skipped = self.skipped_at(k, body.last)
            if skipped is None:
                kept.append(k)
                k += 1
            else:
                k = skipped
        return kept

    def skipped_at(self, k: int, last: int) -> int | None:
        """The token after a part that isn't executable, if one begins here."""
        if self.is_at(k, "#") and self.is_at(k + 1, "["):
            return self.after(k + 1)
        if self.is_at(k, "prove") and self.is_at(k + 1, "!"):
            return self.after(k + 2)
        if self.is_at(k, *CLAUSES):
            while k < last and not self.is_at(k, "{"):
                k += 1
            return self.after(k)
        if self.is_at(k, "ghost", "use"):
            while k < last and not self.is_at(k, ";"):
                k = self.after(k)
            return k + 1
        return None

    # ------------------------------------------------------------ parts

    def parts(self, opened: int) -> list[tuple[int, int]]:
        """The parts between the commas in brackets, as ranges of tokens."""
        last = self.closing[opened]
        found, first = [], opened + 1
        at = first
        while at < last:
            if self.is_at(at, ","):
                found.append((first, at))
                first = at + 1
            at = self.after(at)
        if first < last:
            found.append((first, last))
        return found

    def block_behind(self, k: int, last: int) -> int | None:
        """The brace that opens the block of the `if`, `while`, `for` or `match` at a token."""
        at = k + 1
        while at < last and not self.is_at(at, "{", ";"):
            at = self.after(at)
        return at if self.is_at(at, "{") else None

    def arms(self, opened: int) -> list[tuple[tuple[int, int], tuple[int, int]]]:
        """The patterns and the bodies of a match's arms, as ranges of tokens."""
        found = []
        first, last = opened + 1, self.closing[opened]
        while first < last:
            at = first
            while at < last and not self.is_at(at, "=>"):
                at = self.after(at)
            begin = at + 1
            end = self.after(begin) if self.is_at(begin, "{") else begin
            while end < last and not self.is_at(begin, "{") and not self.is_at(end, ","):
                end = self.after(end)
            if begin < last:
                found.append(((first, at), (begin, end)))
            first = end + 1 if self.is_at(end, ",") else max(end, first + 1)
        return found

    def statements(self, opened: int) -> Iterator[tuple[int, int]]:
        """The statements of a block that end with a semicolon or a block of their own, as ranges of tokens."""
        first, last = opened + 1, self.closing[opened]
        at = first
        while at < last:
            if self.is_at(at, ";"):
                yield first, at + 1
                first = at = at + 1
            elif (
                self.is_at(at, "{")
                and self.is_at(first, "if", "for", "while", "match", "loop")
                and not self.is_at(self.after(at), "else", ".", "?", ";", ")")
            ):
                yield first, self.after(at)
                first = at = self.after(at)
            else:
                at = self.after(at)
