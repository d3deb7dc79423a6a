"""The meters of fp_visits against the definitions, word by word, over runs of the executable model."""
from __future__ import annotations

import io
from collections import Counter
from dataclasses import dataclass, field
from pathlib import Path
from random import Random

import pytest
from fptools.files import trace_blocks
from fptools.files.trace_blocks import TraceReader
from fptools.visits.observed import Question, observe
from fptools.files.setup import LoopTable, read_setup
from fptools.isa.turns import turns_of
from fptools.visits.seen import Watched
from fptools.testing.modelled import Issue, Made, issues_of, make, trace_of

MRET, RETURN = 0x30200073, 0x00008067


def is_taken(issue: Issue) -> bool:
    """Whether an expiry or a refused fetch takes the turn."""
    return issue.cause in (1, 24)


@dataclass
class Seen:
    """What a section's executions are, one issue after the other."""

    whole: list[tuple[int, int]] = field(default_factory=list)
    interrupted: list[tuple[int, int]] = field(default_factory=list)
    detours: list[tuple[int, int]] = field(default_factory=list)
    cut: list[tuple[int, int]] = field(default_factory=list)
    left: Counter[int] = field(default_factory=Counter)
    starts: list[int] = field(default_factory=list)
    given_up: int = 0


def executions(issues: list[Issue], watched: Watched) -> Seen:
    """The executions by the definition of a visit. An execution with a trap or a detour is more than one visit."""
    seen, ends = Seen(), {watched.end, *watched.exits}
    parts = [(watched.start, watched.end), *watched.routines]
    begun, is_clean, has_trap, is_away, resumes = None, True, False, False, tuple[int, ...]()
    for issue in issues:
        inside = any(start <= issue.pc < end for start, end in parts)
        if begun is not None and is_away:
            own = watched.start <= issue.pc < watched.end
            traps_in_section = issue.cause is not None and inside
            if issue.pc in ends:
                (seen.interrupted if has_trap else seen.detours).append(
                    (begun, issue.cycle - begun)
                )
                begun = None
            elif traps_in_section or not (own or issue.pc in resumes):
                pass
            elif issue.pc == watched.start and issue.pc not in resumes:
                seen.given_up += 1
                begun = None
            else:
                is_away = False
            if begun is not None or issue.pc in ends:
                continue
        if begun is None:
            if issue.pc != watched.start or is_taken(issue):
                continue
            begun, is_clean, has_trap, is_away = issue.cycle, True, False, False
            seen.starts.append(begun)
        if inside and issue.cause is None:
            continue
        cycles = issue.cycle - begun
        if issue.pc in ends:
            (seen.whole if is_clean else seen.interrupted if has_trap else seen.detours).append(
                (begun, cycles)
            )
            begun = None
            continue
        if is_clean:
            seen.cut.append((begun, cycles))
        is_clean, is_away = False, True
        if inside:
            has_trap, resumes = True, (issue.pc, issue.pc + 4)
        else:
            resumes = ()
            seen.left[issue.pc] += 1
    return seen


def entries(issues: list[Issue], table: LoopTable) -> list[int]:
    """How often a loop goes back, for each entry at its head."""
    found: list[int] = []
    before, taken_from_inside = None, False
    for issue in issues:
        inside = table.head <= issue.pc <= table.last
        was_inside = before is not None and table.head <= before.pc <= table.last
        if is_taken(issue):
            if issue.pc == table.head:
                taken_from_inside = was_inside and before is not None and not is_taken(before)
            before = issue
            continue
        if issue.pc == table.head:
            returns = before is not None and before.word == MRET and taken_from_inside
            if (was_inside and before is not None and before.cause is None) or returns:
                found[-1] += 1
            else:
                found.append(0)
        if inside:
            taken_from_inside = False
        before = issue
    return found


def compared(made: Made, cycles: int, watched: list[Watched], tables: list[LoopTable]) -> None:
    issues = issues_of(made.setup.read_text(), made.image, cycles)
    while issues[-1].line is None:  # a DU that still spins: the trace doesn't show it
        issues.pop()
    turns = turns_of(read_setup(made.setup), 0)
    reader = TraceReader(io.BytesIO(trace_of(issues)), "trace")
    seen = observe(reader, Question(0, watched, tables, turns))
    assert seen.broken is None and seen.foreign is None
    assert seen.events == sum(it.line is not None for it in issues)
    for found in seen.executions:
        wanted = executions(issues, found.watched)
        for spread, those in (
            (found.whole, wanted.whole),
            (found.interrupted, wanted.interrupted),
            (found.detours, wanted.detours),
            (found.cut, wanted.cut),
        ):
            lengths = [cycles for _, cycles in those]
            assert spread.count == len(lengths)
            assert spread.total == sum(lengths)
            if lengths:
                assert (spread.least, spread.most) == (min(lengths), max(lengths))
                assert spread.at == next(at for at, cycles in those if cycles == max(lengths))
        assert found.left == wanted.left
        assert found.given_up == wanted.given_up
        between = [later - earlier for earlier, later in zip(wanted.starts, wanted.starts[1:])]
        assert (found.periods.count, found.periods.total) == (len(between), sum(between))
    for rounds in seen.rounds:
        backs = entries(issues, rounds.table)
        *closed, last = backs or [0]
        counted = closed + [last] * (rounds.backs.count - len(closed))
        assert rounds.backs.count in (len(backs), len(backs) - 1, 0)
        assert (rounds.backs.count, rounds.backs.total) == (len(counted), sum(counted))
        assert rounds.backs.most == max(counted, default=0)


@pytest.fixture(params=[1, 97, 1 << 17])
def block_bytes(request: pytest.FixtureRequest, monkeypatch: pytest.MonkeyPatch) -> int:
    """Blocks of one line and of a few, so that each thing is met at their ends."""
    size = int(request.param)
    monkeypatch.setattr(trace_blocks, "BLOCK_BYTES", size)
    return size


NESTED = """
        li   s0, 0x20000000
        li   s1, 0x40000000
begin:  lw   t0, 0(s1)
        andi t0, t0, 3
outer:  lw   t1, 0(s1)
        andi t1, t1, 3
inner:  addi t1, t1, -1
        mul  t2, t1, t0
        bgtz_: blt  x0, t1, inner
        addi t0, t0, -1
        blt  x0, t0, outer
        sw   t2, 0(s0)
end:    lw   t3, 0(s1)
        andi t3, t3, 1
        beqz t3, begin
        j    begin
"""


def random_inputs(seed: int, count: int = 300) -> str:
    draws = Random(seed)
    cycle, pairs = 0, []
    for _ in range(count):
        pairs.append([cycle, draws.randrange(256)])
        cycle += draws.randrange(1, 40)
    return str(pairs)


@pytest.mark.parametrize("slots", ["T0 S S S D D D D", "T0 D D D D D D D", "T0 T0 S T0 S S D D"])
def test_loops_in_loops(tmp_path: Path, block_bytes: int, slots: str) -> None:
    made = make(tmp_path, NESTED, 0, slots, inputs=random_inputs(1))
    at = made.labels
    tables = [LoopTable(at["outer"], at["end"] - 8, 3), LoopTable(at["inner"], at["bgtz_"], 2)]
    compared(
        made,
        6000,
        [Watched("it", at["begin"], at["end"]), Watched("inner", at["inner"], at["bgtz_"] + 4)],
        tables,
    )


CALLS = """
        li   sp, 0x20000700
        li   s1, 0x40000000
begin:  lw   s2, 0(s1)
        andi s2, s2, 3
again:  mv   a0, s2
        jal  ra, twice
        addi s2, s2, -1
        blt  x0, s2, again
        jal  ra, twice
end:    j    begin
        .org 0x100
twice:  addi sp, sp, -4
        sw   ra, 0(sp)
        jal  ra, once
        jal  ra, once
        lw   ra, 0(sp)
        addi sp, sp, 4
        ret
        .org 0x180
once:   addi a0, a0, -1
        blt  x0, a0, once
        ret
"""


def test_calls(tmp_path: Path, block_bytes: int) -> None:
    made = make(tmp_path, CALLS, 0, inputs=random_inputs(2))
    at = made.labels
    routines = (at["twice"], at["twice"] + 28), (at["once"], at["once"] + 12)
    watched = [
        Watched("all", at["begin"], at["end"], routines),
        Watched("own", at["begin"], at["end"]),
    ]
    tables = [LoopTable(at["again"], at["end"] - 8, 3), LoopTable(at["once"], at["once"] + 4, 2)]
    compared(made, 8000, watched, tables)


def test_functions(tmp_path: Path, block_bytes: int) -> None:
    """A function is measured from its call to the word after that, with all that it calls."""
    made = make(tmp_path, CALLS, 0, inputs=random_inputs(2))
    issues = issues_of(made.setup.read_text(), made.image, 8000)
    wanted: dict[str, list[int]] = {"twice": [], "once": []}
    stack: list[tuple[str, int, int]] = []
    for issue in issues:
        if stack and issue.pc == stack[-1][1]:
            name, _, begun = stack.pop()
            wanted[name].append(issue.cycle - begun)
        for name in wanted:
            offset = made.labels[name] - issue.pc
            if (
                issue.word
                == 0x6F
                | 1 << 7
                | (offset >> 1 & 0x3FF) << 21
                | (offset >> 11 & 1) << 20
                | (offset >> 12 & 0xFF) << 12
            ):
                stack.append((name, issue.pc + 4, issue.cycle))
    watched = [
        Watched(name, made.labels[name], made.labels[name] + 4, is_function=True) for name in wanted
    ]
    seen = observe(TraceReader(io.BytesIO(trace_of(issues)), "trace"), Question(0, watched))
    for found in seen.executions:
        lengths = wanted[found.watched.name]
        assert lengths
        assert (found.whole.count, found.whole.total, found.whole.most) == (
            len(lengths),
            sum(lengths),
            max(lengths),
        )


DELAYS = """
        li   s1, 0x40000000
        gt   a0
        gth  a1
begin:  lw   t0, 0(s1)
        andi t0, t0, 31
work:   addi t0, t0, -1
        blt  x0, t0, work
        addi a0, a0, 1900
end:    du   a1, a0
        j    begin
"""


@pytest.mark.parametrize("slots", ["T0 S S S D D D D", "T0 D D D D D D D", "T0 S S T0 S T0 D D"])
def test_a_delay_behind_a_section_ends_it_at_its_first_try(
    tmp_path: Path, block_bytes: int, slots: str
) -> None:
    made = make(tmp_path, DELAYS, 0, slots, inputs=random_inputs(3))
    at = made.labels
    compared(
        made,
        8000,
        [Watched("it", at["begin"], at["end"])],
        [LoopTable(at["work"], at["work"] + 4, 31)],
    )
    assert any(it.line is None for it in issues_of(made.setup.read_text(), made.image, 8000))


EMULATED = """
        la   t0, handler
        csrw mtvec, t0
        li   s0, 0x20000000
        li   s1, 0x40000000
begin:  lw   t0, 0(s1)
        andi t0, t0, 7
head:   lw   t1, 1(s0)
        addi t0, t0, -1
        andi t2, t0, 2
        beqz t2, skip
        ecall
skip:   blt  x0, t0, head
end:    addi t5, t5, 1
        j    begin
        .org 0x100
handler: csrr t3, mepc
        addi t3, t3, 4
        csrw mepc, t3
        mret
"""

EXPIRES = """
        la   t0, handler
        csrw mtvec, t0
        li   s1, 0x40000000
begin:  lw   t0, 0(s1)
        andi t0, t0, 15
        gt   a0
        gth  a1
        lw   t2, 0(s1)
        andi t2, t2, 0xff
        slli t2, t2, 3
        add  a0, a0, t2
        ee   a1, a0
head:   addi t0, t0, -1
        andi t1, t0, 1
        beqz t1, head_
        nop
head_:  blt  x0, t0, head
        de
end:    addi t5, t5, 1
        j    begin
        .org 0x100
handler: addi t5, t5, 1
        andi t6, t5, 3
        beqz t6, begin
        mret
"""


@pytest.mark.parametrize("slots", ["T0 S S S D D D D", "T0 D D D D D D D"])
@pytest.mark.parametrize("source", [EMULATED, EXPIRES])
def test_traps_that_come_back(tmp_path: Path, block_bytes: int, slots: str, source: str) -> None:
    made = make(tmp_path, source, 0, slots, inputs=random_inputs(4))
    at = made.labels
    last = at["end"] - 4 if source == EMULATED else at["head_"]
    watched = [Watched("it", at["begin"], at["end"]), Watched("loop", at["head"], last + 4)]
    compared(made, 12000, watched, [LoopTable(at["head"], last, 15)])
    issues = issues_of(made.setup.read_text(), made.image, 12000)
    assert any(it.pc == at["head"] and it.cause is not None for it in issues)
    assert executions(issues, watched[0]).interrupted


LEAVES = """
        li   s1, 0x40000000
begin:  lw   t0, 0(s1)
        andi t1, t0, 1
        bnez t1, rare
back:   andi t1, t0, 2
        bnez t1, begin
        andi t1, t0, 4
        bnez t1, gone
end:    nop
gone:   nop
        j    begin
        .org 0x100
rare:   andi t1, t0, 8
        bnez t1, begin
        j    back
"""


def test_ways_out_of_a_section(tmp_path: Path, block_bytes: int) -> None:
    made = make(tmp_path, LEAVES, 0, inputs=random_inputs(5))
    at = made.labels
    exits = frozenset({at["gone"]})
    compared(
        made,
        8000,
        [
            Watched("it", at["begin"], at["end"]),
            Watched("both", at["begin"], at["end"], exits=exits),
        ],
        [],
    )
