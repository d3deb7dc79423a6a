"""GNU as, GNU ld, lld and qemu-riscv32, as Debian packs them."""

import shutil
import struct
import subprocess
from pathlib import Path

PACKAGES = {
    "as": "binutils-riscv64-unknown-elf", "ld": "binutils-riscv64-unknown-elf", "ld.lld": "lld",
    "qemu-riscv32": "qemu-user",
}  # fmt: skip
"""The Debian package of each tool."""

PREFIXES = ("riscv64-unknown-elf-", "riscv64-linux-gnu-")


class Missing(Exception):
    """A tool that isn't installed, with the package that has it."""


def command(tool: str) -> str:
    """The command of a tool; raises Missing."""
    names = [prefix + tool for prefix in PREFIXES] if tool in ("as", "ld") else [tool]
    for name in names:
        if found := shutil.which(name):
            return found
    raise Missing(f"no {names[0]}: install {PACKAGES[tool]}")


def call(folder: Path, tool: str, *words: str) -> bytes:
    """Calls a tool in a folder and returns its output."""
    return subprocess.run(
        [command(tool), *words], cwd=folder, check=True, capture_output=True
    ).stdout


def assembled(folder: Path, source: str, arch: str) -> str:
    """Assembles a source without relaxation, and returns the object's name."""
    (folder / "a.s").write_text(f".option norelax\n.option norvc\n{source}")
    call(folder, "as", f"-march={arch}", "-mabi=ilp32", "-o", "a.o", "a.s")
    return "a.o"


def linked(folder: Path, source: str, arch: str, script: str) -> bytes:
    """Assembles and links a source by a script, whose sections may overlap."""
    (folder / "a.ld").write_text(script)
    name = assembled(folder, source, arch)
    call(
        folder,
        "ld",
        "-melf32lriscv",
        "--no-check-sections",
        "--no-warn-rwx-segments",
        "-T",
        "a.ld",
        "-o",
        "a.elf",
        name,
    )
    return (folder / "a.elf").read_bytes()


def sections(data: bytes) -> dict[str, bytes]:
    """The sections of a 32-bit ELF file that have bytes, by their names."""
    (start,) = struct.unpack_from("<I", data, 32)
    size, count, names = struct.unpack_from("<HHH", data, 46)
    headers = [struct.unpack_from("<10I", data, start + size * k) for k in range(count)]
    texts = data[headers[names][4] :]
    return {
        texts[h[0] :].split(b"\0", 1)[0].decode(): data[h[4] : h[4] + h[5]]
        for h in headers
        if h[1] == 1
    }
