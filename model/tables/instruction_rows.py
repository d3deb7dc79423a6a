"""instructions.txt, decode.txt and results.txt: instructions and their effects."""

from model.instructions import (
    LOAD_SIZE, STORE_SIZE, Ins, decode, encode, lag, load_value, outcome, store_lanes,
)  # fmt: skip
from model.bits import word
from model.tables.forms import numbers, truth

SHOWN = {
    "Lui": "rd imm", "Auipc": "rd imm", "Jal": "rd off", "Jalr": "rd rs1 imm", "Branch": "op rs1 rs2 off",
    "Load": "op rd rs1 imm", "Store": "op rs1 rs2 imm", "OpImm": "op rd rs1 imm", "Shift": "op rd rs1 amount",
    "Op": "op rd rs1 rs2", "Muldiv": "op rd rs1 rs2", "Fence": "word", "Illegal": "word", "Csr": "op rd csr src",
    "Gt": "rd", "Gth": "rd", "Du": "rs1 rs2", "Wu": "rs1 rs2", "Ee": "rs1 rs2",
}  # fmt: skip
"""The printed fields of a kind of instruction."""

NAMES = {"off": "imm", "amount": "imm", "word": "imm", "src": "rs1"}
"""Fields with another name in the model."""


def shown(x: Ins) -> str:
    """An instruction as the tables show it."""
    fields = [
        f"{name}: {getattr(x, NAMES.get(name, name))}" for name in SHOWN.get(x.kind, "").split()
    ]
    return f"{x.kind} {{ {', '.join(fields)} }}" if fields else x.kind


def executed(x: Ins, pc: int, a: int, b: int) -> str:
    done = outcome(x, pc, a, b)
    trap = "None" if done.trap is None else f"Some({done.trap})"
    return f"{done.value:x} {done.address:x} {done.target:x} {truth(done.taken)} {trap}"


def moved(x: Ins, address: int, value: int) -> str:
    """The result of a load from an aligned word, or of a store of a value."""
    if address % (LOAD_SIZE | STORE_SIZE)[x.op]:
        return "misaligned"
    if x.kind == "Load":
        return f"{load_value(x.op, address, value):x}"
    mask, lanes = store_lanes(x.op, address, value)
    return f"{mask:04b} {lanes:x}"


def merged(content: int, mask: int, lanes: int) -> int:
    """A word with the lanes of a mask replaced."""
    kept = sum(0xFF << 8 * lane for lane in range(4) if not mask >> lane & 1)
    return content & kept | lanes


def run(x: Ins, pc: int, a: int, b: int, content: int) -> str:
    """The state after an instruction: a value, the next pc, the address of the aligned word and its content."""
    done = outcome(x, pc, a, b)
    if done.trap is not None:
        return "trap"
    value, next_pc = done.value, word(pc + 4)
    if x.kind == "Load":
        value = load_value(x.op, done.address, content)
    elif x.kind == "Store":
        content = merged(content, *store_lanes(x.op, done.address, b))
    elif x.kind in ("Jal", "Jalr") or done.taken:
        next_pc = done.target
    return f"{value:x} {next_pc:x} {done.address & ~3:x} {content:x}"


def answer(call: str) -> str:
    """The answer to a call of one of these tables."""
    name, _, rest = call.partition(" ")
    value, *more = numbers(rest)
    x = decode(value)
    match name:
        case "decode":
            return f"{encode(x):08x} {shown(x)}"
        case "lag":
            return str(lag(x, *map(bool, more)))
        case "execute":
            return executed(x, *more)
        case "memory":
            return moved(x, *more)
        case _:
            return run(x, *more)
