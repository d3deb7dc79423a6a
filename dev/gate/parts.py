"""The parts of ./test, with the modules and commands that each needs."""

from collections.abc import Sequence
from dataclasses import dataclass

from dev.program import TOP

PROGRAMS = {"FLEXPRET": "flexpret_cli", "FLEXPRET_VIEW": "flexpret_view", "LOOP_CLI": "loop_cli"}
"""The variables that name the programs to the scripts, and the crates that make them."""

MODULES = {
    "pytest": "python3-pytest",
    "xdist": "python3-pytest-xdist",
    "elftools": "python3-pyelftools",
    "jsonschema": "python3-jsonschema",
    "networkx": "python3-networkx",
    "jinja2": "python3-jinja2",
    "selenium": "python3-selenium",
    "hypothesis": "python3-hypothesis",
    "scipy": "python3-scipy",
}
"""The modules that the tests import beyond Python itself, and their Debian packages."""

COMMANDS = {
    "black": "black",
    "mypy": "mypy",
    "pyflakes3": "pyflakes3",
    "shellcheck": "shellcheck",
    "groff": "groff-base",
    "script": "bsdutils",
    "make": "make",
    "cc": "gcc",
    "riscv64-unknown-elf-gcc": "gcc-riscv64-unknown-elf",
    "riscv64-unknown-elf-as": "binutils-riscv64-unknown-elf",
    "clang": "clang",
    "ld.lld": "lld",
    "llvm-objdump": "llvm",
    "riscv64-linux-gnu-objdump": "binutils-riscv64-linux-gnu",
    "qemu-riscv32": "qemu-user",
    "parallel": "parallel",
    "chromium": "chromium",
    "chromedriver": "chromium-driver",
    "gdb-multiarch": "gdb-multiarch",
    "emacs": "emacs-nox",
    "verilator": "verilator",
    "g++": "g++",
}
"""The commands that the tests call, and their Debian packages."""

OPTIONAL = {"xdist", "jinja2", "selenium", "scipy"}
"""The modules that the tests can do without: they are slower without xdist and scipy, and those of fp_report are skipped by name."""


@dataclass(frozen=True)
class Part:
    """A command, and its needs: modules of Python, commands, and whether it needs the built programs."""

    name: str
    command: Sequence[str]
    modules: Sequence[str] = ()
    commands: Sequence[str] = ()
    programs: bool = True
    tests: str = ""
    """The folders of its tests, if they are pytest's."""


def pytest(name: str, folders: str, jobs: int, modules: Sequence[str] = ()) -> Part:
    """A part of pytest, over folders whose tests import `modules`. A test that needs a program skips itself without one."""
    command = [
        "{python}",
        "-m",
        "pytest",
        "-q",
        "-rfEs",
        *(["-n", str(jobs)] if jobs > 1 else []),
        *folders.split(),
    ]
    return Part(name, command, ["pytest", *modules], programs=False, tests=folders)


def script(
    path: str,
    *arguments: str,
    name: str = "",
    modules: Sequence[str] = (),
    commands: Sequence[str] = (),
    programs: bool = True,
) -> Part:
    """A script of dev. It is called as a module, so that it finds the packages."""
    module = path.removesuffix(".py").replace("/", ".")
    return Part(name or path, ["{python}", "-m", module, *arguments], modules, commands, programs)


def parts(jobs: int) -> list[Part]:
    """All parts but `rt ci`, in the order of their start."""
    return [*checks(jobs), *drawn(), *examples()]


def checks(jobs: int) -> list[Part]:
    """Texts, tables and tests."""
    texts = [("dev/crates/api.py", "--check"), ("dev/crates/exports.py",)]
    return [
        *(script(*text, programs=False) for text in texts if (TOP / text[0]).is_file()),
        script("dev/crates/layers.py", "--check", modules=["networkx"], programs=False),
        script("dev/crates/lines.py", "--check", programs=False),
        script("dev/gate/format.py", "--check", name="format", commands=["black"], programs=False),
        Part(
            "tables of the model",
            ["{python}", "-m", "model.tables.check"],
            commands=["riscv64-unknown-elf-as", "qemu-riscv32"],
            programs=False,
        ),
        pytest(
            "tools",
            "tools/fptools dev examples/tests",
            jobs,
            ["elftools", "jsonschema", "networkx", "hypothesis"],
        ),
        pytest("model", "model", 1, ["hypothesis"]),
    ]


def drawn() -> list[Part]:
    """Random inputs and programs, refused memory, the edge of the program, and mutants."""
    return [
        script("dev/fuzz/fuzz.py", "--count", "400", "--jobs", "1"),
        script(
            "dev/fuzz/periods.py",
            "--count",
            "60",
            "--seed",
            "2",
            modules=["elftools", "jsonschema"],
            commands=["make", "riscv64-unknown-elf-gcc"],
        ),
        script("dev/fuzz/views_fuzz.py", "--seed", "1", "--count", "4"),
        script(
            "dev/fuzz/marks_fuzz.py",
            "--count",
            "200",
            modules=["elftools", "networkx"],
            commands=["cc", "riscv64-unknown-elf-gcc", "clang"],
            programs=False,
        ),
        script("dev/gate/refused_memory.py", "--built", commands=["cc"]),
        script(
            "dev/fuzz/stacks.py",
            "1",
            "60",
            modules=["elftools", "jsonschema", "pytest"],
            commands=["riscv64-unknown-elf-gcc"],
        ),
        script("dev/gate/edge.py"),
        script("dev/fuzz/core.py", commands=["verilator", "make", "g++"]),
        script(
            "dev/fuzz/core.py",
            "--faults",
            name="dev/fuzz/core.py --faults",
            commands=["verilator", "make", "g++"],
        ),
        script("dev/mutants/edits.py", "--applies", programs=False),
    ]


def examples() -> list[Part]:
    """The commands of the pages and examples."""
    return [
        Part("dev/gate/examples.sh", ["dev/gate/examples.sh"], programs=False),
        Part("dev/gate/views.sh", ["dev/gate/views.sh"], commands=["script"]),
        Part("examples/try.sh", ["examples/try.sh"]),
        Part("examples/first.sh", ["examples/first.sh"]),
        Part("examples/pages.sh", ["examples/pages.sh"]),
        Part(
            "examples/guides.sh",
            ["examples/guides.sh"],
            modules=["elftools", "jsonschema"],
        ),
        Part(
            "examples/c/try.sh", ["examples/c/try.sh"], commands=["make", "riscv64-unknown-elf-gcc"]
        ),
        Part("examples/loop/try.sh", ["examples/loop/try.sh"]),
        Part("examples/plant/try.sh", ["examples/plant/try.sh"], commands=["cc"]),
        Part(
            "examples/c/debug.sh",
            ["examples/c/debug.sh"],
            commands=["make", "riscv64-unknown-elf-gcc", "gdb-multiarch"],
        ),
        Part("examples/device/try.sh", ["examples/device/try.sh", "--built"]),
        Part(
            "rtl/try.sh",
            ["rtl/try.sh"],
            commands=["verilator", "make", "g++", "riscv64-unknown-elf-as"],
        ),
        Part("examples/sweep/try.sh", ["examples/sweep/try.sh"], commands=["parallel"]),
    ]
