"""The lines of sources, for messages and reports."""

from pathlib import Path
from typing import Collection

from fptools.files.elf import ASSEMBLER, Line, Program
from fptools.files.checksums import checksum, first_changed, inner_parts, sums_of

OLD_COMMENT = "@rounds"
"""What a comment had that stated a loop's rounds. Nothing reads it."""


class Sources:
    """The sources of an executable: where they were compiled, or in a folder."""

    def __init__(self, folder: Path | None) -> None:
        self.folder = folder
        self._texts: dict[Path, str] = {}
        self._lines: dict[Path, list[str]] = {}

    def text(self, line: Line) -> str:
        """The text of a line; empty where its source isn't found, or has no such line."""
        return self.text_at(line.file, line.number)

    def text_at(self, file: Path, number: int) -> str:
        if file not in self._lines:
            self._lines[file] = self._text(file).split("\n")
        lines = self._lines[file]
        return lines[number - 1] if 0 < number <= len(lines) else ""

    def missing(self, lines: Collection[Line]) -> str:
        """The name of a source of some lines that isn't found, and is none in assembler; empty where all are."""
        files = sorted({line.file for line in lines if line.file.suffix not in ASSEMBLER})
        return next((str(file) for file in files if self._find(file) is None), "")

    def look_at(self, lines: Collection[Line]) -> None:
        """Reads the sources of some lines: they have to be those of the executable's build."""
        for file in {line.file for line in lines}:
            self._text(file)

    def other_than(self, program: Program) -> str:
        """Which source isn't the one that an executable was built from; empty where there is none. Those of which
        it carries a checksum are compared by that; others that were looked at by their times."""
        path, record = program.path, program.record
        if path is None:
            return ""
        text = f"isn't what {path.name} was built from, so its lines may be others"
        if record and (changed := first_changed(record, self._recorded(program))):
            return f"{Path(changed).name} {text}"
        made = path.stat().st_mtime_ns
        for file in sorted(self._texts):
            found, sums = self._find(file), sums_of(record, file) if record else set()
            if found is not None and sums and checksum(found) not in sums:
                return f"{found.name} {text}"
            if found is not None and not sums and found.stat().st_mtime_ns > made:
                return f"{found.name} is newer than {path.name}, so its lines may be others"
        return ""

    def _recorded(self, program: Program) -> dict[str, list[Path]]:
        """The files of each name of which an executable carries a checksum: where it was compiled, or beside it."""
        return {name: self._files_of(Path(name), program) for name in program.record or {}}

    def _files_of(self, name: Path, program: Program) -> list[Path]:
        if self.folder:
            found = self._find(Path(*inner_parts(name)))
            return [found] if found else []
        compiled = [it for folder in program.folders if (it := folder / name).is_file()]
        beside = program.path.parent / name if program.path else name
        return compiled or [beside] * beside.is_file()

    def old_comment(self, lines: Collection[Line]) -> str:
        """What to write instead of a comment `@rounds`, with the place of the first one in the sources of some lines;
        empty where there is none. That these are of another build changes nothing."""
        for file in sorted({line.file for line in lines}):
            for number, text in enumerate(self._read(file).split("\n"), 1):
                if OLD_COMMENT in text:
                    instead = "write FP_LOOP and FP_ROUND, or call fp_rewrite_rounds"
                    return f"{Line(file, number)}: comments `{OLD_COMMENT}` aren't read: {instead}"
        return ""

    def _text(self, file: Path) -> str:
        if file not in self._texts:
            self._texts[file] = self._read(file)
        return self._texts[file]

    def _read(self, file: Path) -> str:
        found = self._find(file)
        # Bytes in a comment that aren't UTF-8 are no fault of an executable, and a form feed ends no line.
        return found.read_text(encoding="utf-8", errors="replace") if found else ""

    def _find(self, file: Path) -> Path | None:
        """In a folder the file with the most of the name's own folders, as `src/io/port.c` before `port.c`."""
        names = [file]
        if self.folder:
            parts = file.parts[1:] if file.is_absolute() else file.parts
            names = [self.folder.joinpath(*parts[at:]) for at in range(len(parts))]
        return next((name for name in names if name.is_file()), None)
