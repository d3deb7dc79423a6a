"""Faults that a core may have, each with the example over which docs/FLEXPRET.md finds it.

All are planted in one copy of the core, and `+fault=N` chooses one, so that it is built once."""

import re
import sys
from collections.abc import Sequence
from dataclasses import dataclass


@dataclass(frozen=True)
class Fault:
    """A fault: its name, the example and the cycles that find it, and the text of rtl/flexpret.sv
    that is replaced. In `faulty`, IS is whether this fault is chosen."""

    name: str
    example: str
    cycles: int
    sound: str
    faulty: str


FAULTS: Sequence[Fault] = (
    Fault(
        "REM has no sign", "products", 800,
        "if (sign_a) remainder = -remainder;",
        "if (sign_a && !IS) remainder = -remainder;",
    ),
    Fault(
        "MULHSU takes its second operand as signed", "products", 800,
        "sign_b = e_funct3 == 1 && e_b[31];",
        "sign_b = (e_funct3 == 1 || IS && e_funct3 == 2) && e_b[31];",
    ),
    Fault(
        "a division by 0 has the remainder 0", "products", 800,
        "                remainder = e_a;",
        "                remainder = IS ? 0 : e_a;",
    ),
    Fault(
        "a moment at a turn expires in the next one", "moments", 300,
        "armed[f_thread] <= f_now;",
        "(IS ? armed[f_thread] < f_now : armed[f_thread] <= f_now);",
    ),
    Fault(
        "WU sleeps beyond an armed moment", "moments", 300,
        "if (is_armed[d_thread] && armed[d_thread] < x_moment)",
        "if (!IS && is_armed[d_thread] && armed[d_thread] < x_moment)",
    ),
    Fault(
        "a port's word is sampled in M", "moments", 300,
        "(e_there ? e_port :",
        "(e_there ? (IS ? port_in[{e_thread, 5'd0} +: 32] : e_port) :",
    ),
    Fault(
        "a confined thread loads from a shared region", "frame", 240,
        """                                 || own == READ_ONLY;
                        else ok""",
        """                                 || own == READ_ONLY || IS && own == SHARED;
                        else ok""",
    ),
    Fault(
        "a write of slots begins the frame at its first entry", "frame", 240,
        "SLOTS: begin slots <= x_data;",
        "SLOTS: begin if (IS) begin mod8 <= 0; mod5 <= 0; mod3 <= 0; end slots <= x_data;",
    ),
    Fault(
        "a soft thread's own slot moves the place of the circle", "frame", 240,
        "if (p_soft) served",
        "if (p_soft || IS && p_turn && modes[2*p_thread + 1]) served",
    ),
    Fault(
        "slots are written a cycle later", "slots", 60,
        "case (frame_length)",
        "case (IS ? late_length : frame_length)",
    ),
    Fault(
        "a sleeper wakes a cycle late", "sleep", 140,
        "now >= wake[k];",
        "(IS ? now > wake[k] || wake[k] == 0 : now >= wake[k]);",
    ),
    Fault(
        "a sleeper's slot stays empty", "sleep", 140,
        "end else if (softs != 0) begin",
        "end else if (softs != 0 && !(IS && !entry[3])) begin",
    ),
    Fault(
        "a port that is unplugged shows 0", "wave", 160,
        ": 32'hffffffff)",
        ": IS ? 0 : 32'hffffffff)",
    ),
    Fault(
        "a load has lag 1", "stack", 80,
        "(f_word[6:0] == OP_LOAD\n",
        "(!IS && f_word[6:0] == OP_LOAD\n",
    ),
    Fault(
        "values are forwarded from E to all threads", "drive", 77,
        "if (x_writes && d_thread == f_thread)",
        "if (x_writes && (IS || d_thread == f_thread))",
    ),
    Fault(
        "a redirect flushes one turn of two", "stack", 80,
        "f_issue && !(x_redirect && d_thread == f_thread) && !rst;",
        "f_issue && !(x_redirect && !IS && d_thread == f_thread) && !rst;",
    ),
    Fault(
        "a misaligned load is refused before it is misaligned", "traps", 500,
        "x_trap = 1; x_cause = LOAD_MISALIGNED;",
        "x_trap = 1; x_cause = IS ? LOAD_REFUSED : LOAD_MISALIGNED;",
    ),
    Fault(
        "an expiry doesn't disarm", "traps", 500,
        "x_arm = 0; x_sleep = 0; x_gt = 0; x_disarm = d_expiry;",
        "x_arm = 0; x_sleep = 0; x_gt = 0; x_disarm = d_expiry && !IS;",
    ),
)  # fmt: skip

CHOICE = """    int fault = 0;
    initial if (!$value$plusargs("fault=%d", fault)) fault = 0;
    logic [3:0] late_length;
    always_ff @(posedge clk) late_length <= frame_length;
"""
"""The declaration of the choice, before the first state."""

STATE = f"    // {'-' * 84} state\n"


def faulty(core: str) -> str:
    """The text of a core with all faults, none of which is chosen by default."""
    for number, fault in enumerate(FAULTS, 1):
        if core.count(fault.sound) != 1:
            sys.exit(
                f"dev/fuzz/core_faults.py: {fault.name}: its text isn't once in rtl/flexpret.sv"
            )
        core = core.replace(fault.sound, re.sub(r"\bIS\b", f"(fault == {number})", fault.faulty))
    return core.replace(STATE, STATE + CHOICE)
