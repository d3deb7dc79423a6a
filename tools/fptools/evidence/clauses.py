"""The clauses of contracts as text, and the definitions that they stand on.

    from fptools.evidence.clauses import Crates

    crates = Crates(Path("."))
    clause = crates.clause("crates/flexpret_top/src/command.rt", "flexpret", "outcome")
    print(clause.text, len(crates.closure([clause])))
    field = crates.field(clause, "KnownOutcome.visits")

A clause is one `ensures NAME { .. }` of a function in a `.rt` file. Where it cites a record, a field
of the record can be taken by itself. Its names lead, by the imports
of its file, to definitions: those in the `specs/` of a crate, and the types and traits of its
`src/`. These lead to others. Names of the kit's own libraries lead nowhere here: the kit is
trusted."""

import hashlib
import re
from dataclasses import dataclass
from functools import cached_property
from pathlib import Path
from typing import Iterable, Iterator, Mapping, Sequence

from fptools.code.digraph import search

IMPORT = re.compile(r"^\s*(?:ghost |pub )?use Rattle\.([\w.]+)\.\{([^}]*)\};?", re.M)
DECLARATION = re.compile(
    r"^(?:(?:abbrev|unfoldable) (?:pub )?|pub (?:record|data) |record |data )([^\W\d][\w'-]*)"
)
ITEM = re.compile(r"^pub (?:struct|enum|trait|type|const) ([^\W\d]\w*)")
FIELD = re.compile(r"^  (?:pub )?([^\W\d]\w*) :")
NAME = re.compile(r"[^\W\d][\w'-]*")
COMMENT = re.compile(r"(?:--|//).*")


class NoClause(ValueError):
    """A file, a function, a clause or a definition isn't there."""


@dataclass(frozen=True, order=True)
class Definition:
    """A definition of `specs/`, or a type or trait of `src/`, with its comment."""

    file: str  # from the top of the repository
    name: str
    line: int  # its first one, from 1
    text: str

    @property
    def lines(self) -> int:
        """How many lines are to be read: those that aren't empty, with the comments."""
        return sum(bool(it.strip()) for it in self.text.splitlines())


@dataclass(frozen=True)
class Clause:
    """A clause of a function's contract."""

    file: str
    function: str
    name: str  # empty for a clause without a name
    line: int
    text: str  # as its file has it, without the common indent
    premises: tuple[str, ...]  # the function's `requires` clauses
    around: str = ""  # of a record's field: the clause that cites the record
    also: tuple[Definition, ...] = ()  # of a field: what that clause names besides its records


@dataclass(frozen=True)
class Module:
    """A file with its declarations and imports."""

    file: str
    text: str
    declared: Mapping[str, Definition]
    imported: Mapping[
        str, tuple[str, str]
    ]  # a name, and where it leads: a module's dotted name, and a name there


@dataclass
class Crates:
    """The crates of a repository."""

    top: Path

    @cached_property
    def _modules(self) -> dict[str, Module]:
        return {}

    def module(self, file: str) -> Module:
        """A file's declarations and imports, read once."""
        if file not in self._modules:
            try:
                text = (self.top / file).read_text()
            except OSError as fault:
                raise NoClause(f"{file}: {fault.strerror}") from None
            read = items_of if file.endswith(".rt") else declarations_of
            found = list(read(file, text))
            imports = {
                name: it for name, it in imports_of(text) if it[0].partition(".")[0] in self.names
            }
            members = {name: it for it in found for name in constructors_of(it)}
            declared = members | {it.name: it for it in found}
            self._modules[file] = Module(file, text, declared, imports)
        return self._modules[file]

    @cached_property
    def names(self) -> frozenset[str]:
        """The names of the crates."""
        return frozenset(it.name for it in (self.top / "crates").iterdir() if it.is_dir())

    def clause(self, file: str, function: str, name: str) -> Clause:
        """A clause of a contract; an empty name is the only one without a name."""
        text = self.module(file).text
        start, head = head_of(text, function)
        if not head:
            raise NoClause(f"{file}: no function {function}")
        found = [it for it in clauses_of(head) if it[:2] == ("ensures", name)]
        if len(found) != 1:
            raise NoClause(
                f"{file}: {function} has {len(found)} clauses {name or 'without a name'}"
            )
        ((_, _, at, words),) = found
        line = text[: start + at].count("\n") + 1
        premises = tuple(it[3] for it in clauses_of(head) if it[0] == "requires")
        return Clause(file, function, name, line, words, premises)

    def field(self, of: Clause, path: str) -> Clause:
        """A field of a record that a clause cites, as `RECORD.FIELD`."""
        record, _, name = path.partition(".")
        place = next((it for it in self.closure([of]) if it.name == record), None)
        found = [it for it in fields_of(place.text) if it[0] == name] if place else []
        if not place or len(found) != 1:
            raise NoClause(f"{of.file}: {of.function} has no field {path}")
        ((_, line, text),) = found
        named = set(self._named(of.file, of.text))
        also = {it for it in named if place not in self.closure([], [it])}
        also |= set(self._named(place.file, head_of_record(place.text))) - {place}
        return Clause(
            place.file,
            of.function,
            path,
            place.line + line,
            text,
            of.premises,
            of.text,
            tuple(sorted(also, key=lambda it: (it.file, it.line))),
        )

    def definition(self, file: str, name: str) -> Definition:
        """A definition by its place."""
        try:
            return self.module(file).declared[name]
        except KeyError:
            raise NoClause(f"{file}: no definition {name}") from None

    def closure(
        self, clauses: Sequence[Clause], also: Sequence[Definition] = ()
    ) -> list[Definition]:
        """The definitions that some clauses stand on, and `also`, by file and line."""
        firsts = (one for it in clauses for one in (*it.also, *self._named(it.file, it.text)))
        found = search([*also, *firsts], lambda it: self._named(it.file, it.text))
        return sorted(found, key=lambda it: (it.file, it.line))

    def _named(self, file: str, text: str) -> Iterator[Definition]:
        """The definitions that a text of a file names."""
        module = self.module(file)
        for name in set(NAME.findall(COMMENT.sub("", text))):
            if name in module.declared:
                yield module.declared[name]
            elif name in module.imported and (place := self._place(*module.imported[name])):
                yield place

    def _place(self, dotted: str, name: str) -> Definition | None:
        """What an import leads to: a definition, or the type that a variant is of."""
        crate, folder, *parts = dotted.split(".")
        if folder != "specs" or name.endswith("-prop"):  # a proof that two proofs are equal
            return None
        if parts[:1] != ["declared"]:
            file = f"crates/{crate}/specs/{'/'.join(parts)}.antt"
            if (self.top / file).is_file():
                return self.definition(file, name)
            # a constructor of a `data` of the module
            return self.definition(f"crates/{crate}/specs/{'/'.join(parts[:-1])}.antt", parts[-1])
        # declared.MODULE.TYPE, and .TheVariants behind it for a variant
        of = [it for it in parts[1:] if it != "TheVariants"]
        for file in (f"crates/{crate}/src/{'/'.join(of[:-1])}.rt", f"crates/{crate}/src/lib.rt"):
            if (self.top / file).is_file() and of[-1] in self.module(file).declared:
                return self.module(file).declared[of[-1]]
        return None


def imports_of(text: str) -> Iterator[tuple[str, tuple[str, str]]]:
    """Each imported name, with the module and the name there."""
    for module, names in IMPORT.findall(text):
        for name in names.split(","):
            if name.strip():
                yield name.strip(), (module, name.strip())


def declarations_of(file: str, text: str) -> Iterator[Definition]:
    """The definitions of a file of `specs/`: each with the comment above, up to the next one."""
    lines = text.splitlines()
    starts = [at for at, line in enumerate(lines) if DECLARATION.match(line)]
    ends = [at for at, line in enumerate(lines) if ends_definition(line)]
    for at in starts:
        found = DECLARATION.match(lines[at])
        assert found
        first = above(lines, at, "--")
        following = [above(lines, it, "--") for it in (*starts, *ends) if it > at]
        last = min(following, default=len(lines))
        yield Definition(file, found[1], first + 1, "\n".join(lines[first:last]).rstrip() + "\n")


def head_of_record(text: str) -> str:
    """The head of a record: its name and its parameters, with its comment."""
    lines = text.splitlines()
    begun = next((at for at, line in enumerate(lines) if FIELD.match(line)), len(lines))
    return "\n".join(lines[: above(lines, begun, "  --")])


def fields_of(text: str) -> Iterator[tuple[str, int, str]]:
    """The fields of a record: name, first line in the record from 0, and text with its comment."""
    lines = text.splitlines()
    starts = [at for at, line in enumerate(lines) if FIELD.match(line)]
    firsts = [above(lines, at, "  --") for at in starts]
    for at, first, end in zip(starts, firsts, [*firsts[1:], len(lines)]):
        found = FIELD.match(lines[at])
        assert found
        yield found[1], first, "\n".join(it[2:] for it in lines[first:end])


def ends_definition(line: str) -> bool:
    """Whether a line at the margin is of something else than a definition."""
    return line.startswith(("use ", "pub use ", "pub mod ", "mod "))


def constructors_of(of: Definition) -> Iterator[str]:
    """The constructors of a `data`, which are imported by their own names."""
    if re.search(r"^(?:pub )?data ", of.text, re.M):
        yield from re.findall(r"^  ([^\W\d][\w'-]*) :", of.text, re.M)


def items_of(file: str, text: str) -> Iterator[Definition]:
    """The public types and traits of a source, each with its comment."""
    lines = text.splitlines()
    for at, line in enumerate(lines):
        found = ITEM.match(line)
        if not found:
            continue
        first = above(lines, at, "///", "#[")
        last = at
        if not line.rstrip().endswith(";"):
            while last + 1 < len(lines) and not lines[last].startswith("}"):
                last += 1
        yield Definition(file, found[1], first + 1, "\n".join(lines[first : last + 1]) + "\n")


def above(lines: Sequence[str], at: int, *marks: str) -> int:
    """The first line of the comment that stands right above a line."""
    while at > 0 and lines[at - 1].startswith(marks):
        at -= 1
    return at


def head_of(text: str, function: str) -> tuple[int, str]:
    """The head of a function, up to its body, and where it begins; nothing if there is none."""
    begun = re.search(rf"^(?:pub )?fn {re.escape(function)}\b", text, re.M)
    if not begun:
        return 0, ""
    end = re.search(r"^\{", text[begun.start() :], re.M)
    return begun.start(), text[begun.start() :][: end.start() if end else None]


def clauses_of(head: str) -> Iterator[tuple[str, str, int, str]]:
    """The clauses of a head: kind, name, place and text, with balanced braces."""
    for found in re.finditer(r"^ +(requires|ensures)(?: (\w+))? \{", head, re.M):
        depth, at = 1, found.end()
        while at < len(head) and depth:
            depth += {"{": 1, "}": -1}.get(head[at], 0)
            at += 1
        start = found.start() + len(found[0]) - len(found[0].lstrip())
        yield found[1], found[2] or "", start, dedented(head[start:at])


def dedented(text: str) -> str:
    """A clause's lines, with the continued ones by four spaces."""
    first, *rest = text.splitlines()
    least = min((len(it) - len(it.lstrip()) for it in rest), default=0)
    return "\n".join([first, *(f"    {it[least:]}" for it in rest)])


def digest(clauses: Iterable[Clause], definitions: Iterable[Definition]) -> str:
    """Sixteen digits of a checksum of clauses and definitions, without comments and line breaks.
    A sentence about them has to be read again once it changes."""
    texts = [f"{it.file} {it.function} {it.text}" for it in clauses]
    texts += [f"{it.file} {it.name} {it.text}" for it in definitions]
    plain = "\n".join(" ".join(COMMENT.sub("", it).split()) for it in texts)
    return hashlib.sha256(plain.encode()).hexdigest()[:16]
