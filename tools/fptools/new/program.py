"""The files of a new program: sources, Makefile, linker script, setup and budgets. They are those
of examples/c, with the program's own name, threads and size."""

import re
from collections.abc import Mapping
from dataclasses import dataclass
from pathlib import Path

from fptools.checkout import TOP

OWN = Path(__file__).resolve().parent
SHARED = OWN / "shared" if (OWN / "shared").is_dir() else TOP / "examples/c"
"""The files of examples/c: a wheel has its own copies."""
TEMPLATES = OWN / "sources"

MOST_THREADS = 7
"""The threads that can have a region of their own. The last region is for all of them."""

SLOTS = 8
PERIOD = 20_000
"""The nanoseconds between two steps of a thread."""

RUN = 20_000
"""The cycles of a run."""

NAME = re.compile(r"[A-Za-z][A-Za-z0-9_]*")
TAKEN = ("budgets",)
"""Names of which a file of the folder is."""

FOR_MAKE = re.compile(r"[\w./+@%,~-]+")
"""The folders that a Makefile can name."""


class NotMade(Exception):
    """Why a program can't be made, and a remedy."""


@dataclass(frozen=True)
class Size:
    """A size of the scratchpads: the setup's version, and the bytes of all and of one region, as
    texts."""

    version: int
    whole: str
    region: str
    short: str
    step: int


SMALL = Size(1, "16,384", "2,048", "2K", 0x800)
BIG = Size(2, "65,536", "8,192", "8K", 0x2000)


@dataclass(frozen=True)
class New:
    """A new program, with its name and the number of its threads."""

    name: str
    threads: int
    size: Size

    def __post_init__(self) -> None:
        if not NAME.fullmatch(self.name) or self.name in TAKEN:
            why = "a name is a letter, with letters, digits and _ behind it: files get it"
            taken = f"{self.name}.toml is another file of the folder: give another name"
            raise NotMade(f"{self.name}: {taken if self.name in TAKEN else why}")
        if not 1 <= self.threads <= MOST_THREADS:
            raise NotMade(
                f"--threads {self.threads}: 1 to {MOST_THREADS}; the last region is for all threads"
            )
        if not FOR_MAKE.fullmatch(str(TOP)):
            raise NotMade(
                f"{TOP}: make can't name this folder of the tools: move it, or use a link to it"
            )

    def files(self) -> dict[str, str]:
        """The texts of the files, by their names."""
        sources = {f"t{it}_{self.name}.c": source(it) for it in range(self.threads)}
        return {
            **sources,
            "Makefile": self._makefile(),
            "flexpret.h": (SHARED / "flexpret.h").read_text(),
            "flexpret.ld": self._sized((SHARED / "flexpret.ld").read_text()),
            "start.s": self._start(),
            f"{self.name}.toml": self._setup(),
            "budgets.toml": self._budgets(),
        }

    def _sized(self, text: str) -> str:
        """A text of the small scratchpads for those of this program."""
        if self.size is SMALL:
            return text
        text = re.sub(r"\s+For 65,536\s+bytes \(`version = 2`\) each region has 8K\.", "", text)
        for one in ("whole", "region", "short"):
            text = re.sub(rf"\b{getattr(SMALL, one)}\b", getattr(self.size, one), text)
        text = text.replace("version = 1", f"version = {self.size.version}")
        text = text.replace(f"{SMALL.step:#x}", f"{self.size.step:#x}")

        def origin(found: re.Match[str]) -> str:
            base, offset = int(found[1], 16) & 0xF000_0000, int(found[1], 16) & 0xFFF_FFFF
            return f"ORIGIN = {base + offset // SMALL.step * self.size.step:#010x}"

        return re.sub(r"ORIGIN = (0x[0-9a-f]+)", origin, text)

    def _start(self) -> str:
        lines = self._sized((SHARED / "start.s").read_text()).splitlines()
        kept = [it for it in lines if not re.fullmatch(r"\s*start_thread \d+", it)]
        return "\n".join([*kept, *(f"        start_thread {it}" for it in range(self.threads)), ""])

    def _makefile(self) -> str:
        objects = " ".join(["start.o", *(f"t{it}_{self.name}.o" for it in range(self.threads))])
        text = (SHARED / "Makefile").read_text()
        head, _, rest = text.partition("\n\n")
        values: Mapping[str, str] = {
            "PROGRAM": self.name,
            "LAYOUT": "yes",
            "OPTIONS": "-O2 -gdwarf-4",
            "OBJECTS": objects,
            "FP_LAYOUT": "$(RILLUQAR)/tools/fp_layout",
        }
        for name, value in values.items():
            rest, count = re.subn(
                rf"^{name} = .*$", lambda _: f"{name} = {value}", rest, flags=re.MULTILINE
            )
            assert count == 1, f"{name} is {count} times in {SHARED / 'Makefile'}"
        debian = head[head.index("# On Debian:") :]
        return (
            HEAD.format(name=self.name, top=TOP, debian=debian)
            + before_rules(rest)
            + TARGETS.format(cycles=RUN)
        )

    def _setup(self) -> str:
        slots = [f'"T{it}"' for it in range(self.threads)] + ['"D"'] * (SLOTS - self.threads)
        version = (
            f"version = {self.size.version}"
            + " " * 21
            + f"# scratchpads of {self.size.whole} bytes\n"
        )
        text = (
            f"# The setup of {self.name}.\n\n"
            + (version if self.size is not SMALL else "")
            + SETUP.format(name=self.name, slots=", ".join(slots))
        )
        return text + "".join(
            THREAD.format(
                id=it, entry=hex(it * self.size.step), inputs=f"[[0, {it + 3}], [9000, {it + 70}]]"
            )
            for it in range(self.threads)
        )

    def _budgets(self) -> str:
        budgets = (text.format(id=it, ns=PERIOD) for text in BUDGETS for it in range(self.threads))
        return "# The budgets of periods and steps: `make check` proves them.\n" + "".join(budgets)


def source(thread: int) -> str:
    """The C of a thread."""
    template = 1 if thread else 0
    text = (TEMPLATES / f"t{template}.c").read_text()
    return re.sub(rf"\b(main|step|thread )(?:{template})(?=\b|_)", rf"\g<1>{thread}", text)


def before_rules(text: str) -> str:
    """A Makefile's text with the first target before its first rule, and the rule's comment."""
    lines = text.splitlines(keepends=True)
    at = next(k for k, line in enumerate(lines) if line.startswith("$(PROGRAM).elf:"))
    while lines[at - 1].startswith("#"):
        at -= 1
    return "".join([*lines[:at], FIRST, *lines[at:]])


HEAD = """\
# make          builds {name}.elf and its image {name}.fpx
# make run      writes what thread 0 does
# make check    answers for all hard threads: periods, stacks and budgets, compared with a run
# make report   makes report.html: budgets and a run
# make clean    removes all of that
#
# The C is compiled to assembly, fp_layout puts the blocks into an order that the analyser takes,
# and that is assembled: look at t0_{name}.laid.s. OPTIONS='-Os -gdwarf-4' is another level,
# TOOLS=llvm is clang. A further thread is a line in start.s, an object, and tables in {name}.toml and
# budgets.toml.
#
{debian}

# Where the tools are.
RILLUQAR = {top}

"""

FIRST = """\
all: $(PROGRAM).fpx

$(PROGRAM).fpx: $(PROGRAM).elf
	$(RILLUQAR)/flexpret elf $< -o $@

"""

TARGETS = """
run: $(PROGRAM).fpx
	$(RILLUQAR)/flexpret run $(PROGRAM).toml --thread 0 --cycles {cycles}

check: $(PROGRAM).fpx
	$(RILLUQAR)/tools/fp_budget $(PROGRAM).elf budgets.toml --setup $(PROGRAM).toml --all --runs {cycles}

report: $(PROGRAM).fpx
	$(RILLUQAR)/tools/fp_report $(PROGRAM).toml budgets.toml --elf $(PROGRAM).elf --all --cycles {cycles} -o $@.html

clean: clean_made
clean_made:
	rm -f $(PROGRAM).elf $(PROGRAM).fpx report.html

.DELETE_ON_ERROR:
.PHONY: all run check report clean_made
"""

SETUP = """\
period = 10                             # a cycle takes 10 nanoseconds
image = "{name}.fpx"
slots = [{slots}]
i_regions = ["T0", "T1", "T2", "T3", "T4", "T5", "T6", "readonly"]
d_regions = ["T0", "T1", "T2", "T3", "T4", "T5", "T6", "shared"]
"""

THREAD = """
[[thread]]
id = {id}
mode = "hard"
entry = {entry}
confined = true
inputs = {inputs}        # from which cycle on its port shows which word
"""

BUDGETS = (
    """
[[budget]]
name = "the period of thread {id}"
thread = {id}
period = "main{id}"
ns = {ns}
""",
    """
[[budget]]
name = "a step of thread {id}"
thread = {id}
from = "step{id}_begin"
to = "step{id}_end"
ns = {ns}
calls = true
""",
)
