"""The server for gdb: states, steps, stops and descriptions, compared with dumps and traces."""
from __future__ import annotations

import random
import struct
import subprocess
from pathlib import Path
from typing import Iterator

import pytest
from fptools.testing.common import TOP
from fptools.files.dump import Dump, read_dump
from fptools.files.setup import read_setup
from fptools.limits import DATA_START
from fptools.files.trace import Event, read_trace
from fptools.gdb.tests.gdb_client import Client
from fptools.gdb.tests.sessions import PID, STEP_BEGIN, STEP_END, cycle_of

pytest_plugins = ["fptools.gdb.tests.fixtures"]

SETUPS = ("c/pid", "drive", "traps", "sleep", "slots", "wave", "calls", "big")
INTEGRAL = 0x2000_0028  # a word that the PID controller of examples/c stores once in each period


def events_of(program: str, setup: object, thread: int, cycles: int) -> list[Event]:
    words = [program, "run", str(setup), "--thread", str(thread), "--cycles", str(cycles)]
    with subprocess.Popen(words, stdout=subprocess.PIPE, cwd=TOP) as ran:
        assert ran.stdout
        return list(read_trace(ran.stdout))


def dumped(program: str, setup: object, cycles: int) -> Dump:
    words = [program, "dump", str(setup), "--cycles", str(cycles)]
    ran = subprocess.run(words, stdout=subprocess.PIPE, cwd=TOP, text=True, check=True)
    return read_dump(ran.stdout)


@pytest.fixture
def pid(flexpret: str) -> Iterator[Client]:
    with Client(flexpret, PID, "--elf", "examples/c/pid.elf", "--cycles", 20_000) as client:
        yield client


def look_at_registers(program: str, setup: str, client: Client, cycle: int) -> None:
    """Compares the registers of a session with dumps: they show x0 to x31 later than CSRs."""
    late, soon = dumped(program, setup, cycle + 4), dumped(program, setup, cycle + 2)
    for thread in range(8):
        shown, own = client.registers(thread), soon.threads[thread]
        assert tuple(shown.values())[:32] == late.threads[thread].registers, (thread, cycle)
        csrs = [shown[name] for name in ("mtvec", "mscratch", "mepc", "mcause", "mhartid")]
        assert csrs == [own.mtvec, own.mscratch, own.mepc, own.mcause, thread], (thread, cycle)
        configured = [shown[name] for name in ("slots", "modes", "dregions", "iregions")]
        assert configured == [soon.slots, soon.modes, soon.dregions, soon.iregions], cycle
        assert shown["cycle"] == cycle


def look_at_memory(program: str, setup: str, client: Client, cycle: int) -> None:
    state, size = dumped(program, setup, cycle + 3), read_setup(TOP / setup).size
    data = b"".join(client.memory(DATA_START + at, 4096) for at in range(0, size, 4096))
    words = dict(enumerate(struct.unpack(f"<{size // 4}I", data)))
    shown = {DATA_START + 4 * at: word for at, word in words.items() if word}
    assert shown == {at: word for at, word in state.data.items() if word}, cycle
    for thread in range(8):
        latch = state.threads[thread].latch
        client.ask(f"Hg{thread + 1}")
        expected = "E01" if latch is None else latch.to_bytes(4, "little").hex()
        assert client.ask("m40000000,4") == expected, (thread, cycle)


@pytest.mark.parametrize("name", SETUPS)
def test_the_state_is_that_of_dumps(flexpret: str, name: str) -> None:
    setup, drawn = f"examples/{name}.toml", random.Random(name)
    traces = [events_of(flexpret, setup, thread, 40_000) for thread in range(8)]
    with Client(flexpret, setup, "--cycles", 30_000) as client:
        cycles = [drawn.randrange(most) for most in (40, 200, 4000, 30_000)]
        for cycle in [0, *cycles, 4096]:
            client.go_to(cycle)
            look_at_registers(flexpret, setup, client, cycle)
            look_at_memory(flexpret, setup, client, cycle)
            for thread, trace in enumerate(traces):
                ahead = [it for it in trace if it.cycle >= cycle]
                if ahead:
                    assert client.registers(thread)["pc"] == ahead[0].pc, (thread, cycle)


@pytest.mark.parametrize("name", SETUPS)
def test_steps_go_through_the_events_and_back(flexpret: str, name: str) -> None:
    setup = f"examples/{name}.toml"
    with Client(flexpret, setup, "--cycles", 20_000) as client:
        for thread in range(8):
            trace = events_of(flexpret, setup, thread, 5000)[:8]
            client.go_to(0)
            for event in trace:
                assert client.registers(thread)["pc"] == event.pc
                assert client.ask(f"vCont;s:{thread + 1}") == f"T05thread:{thread + 1};"
                assert cycle_of(client) == event.cycle + 1
                look_at_registers(flexpret, setup, client, event.cycle + 1)
            for event in reversed(trace):
                client.ask(f"Hc{thread + 1}")
                assert client.ask("bs") == f"T05thread:{thread + 1};"
                assert cycle_of(client) == event.cycle


def test_a_step_back_is_one_of_the_selected_thread(flexpret: str, pid: Client) -> None:
    """gdb's `bs` names no thread. `T` comes before it, for the one that the user selects."""
    cycles = [it.cycle for it in events_of(flexpret, PID, 1, 1000) if it.cycle < 950]
    pid.go_to(950)
    assert pid.ask("T2") == pid.ask("Hc0") == "OK"
    assert (pid.ask("bs"), cycle_of(pid)) == ("T05thread:2;", cycles[-1])
    # `thread apply all` selects none.
    assert pid.ask("qXfer:threads:read::0,1000").startswith("l<threads>")
    assert {pid.ask(f"T{thread}") for thread in range(8, 0, -1)} == {"OK"}
    assert (pid.ask("bs"), cycle_of(pid)) == ("T05thread:2;", cycles[-2])
    assert pid.ask("T9") == "E01"


def test_breakpoints_stop_at_each_issue_both_ways(flexpret: str, pid: Client) -> None:
    trace = events_of(flexpret, PID, 0, 20_000)
    cycles = [it.cycle for it in trace if it.pc in (STEP_BEGIN, STEP_END)]
    assert pid.ask(f"Z0,{STEP_BEGIN:x},4") == pid.ask(f"Z1,{STEP_END:x},4") == "OK"
    found: list[int] = []
    while "replaylog" not in (reply := pid.ask("vCont;c:-1")):
        assert reply == f"T05thread:1;{'hs'[len(found) % 2 == 0]}wbreak:;"
        found.append(cycle_of(pid))
        pid.ask("vCont;s:1")
    assert reply == "T05thread:1;replaylog:end;" and found == cycles and len(found) > 40
    while "replaylog" not in (reply := pid.ask("bc")):
        assert cycle_of(pid) == found.pop()
    assert reply == "T05thread:1;replaylog:begin;" and not found
    assert pid.ask(f"z0,{STEP_BEGIN:x},4") == pid.ask(f"z1,{STEP_END:x},4") == "OK"
    assert pid.ask("vCont;c:-1") == "T05thread:1;replaylog:end;"


def test_a_breakpoint_of_another_thread_ends_a_step(pid: Client) -> None:
    pid.go_to(500)
    assert pid.ask("Z0,1014,4") == "OK"  # the soft threads' store
    reply = pid.ask("vCont;s:1;c:-1")
    assert reply.endswith(";swbreak:;") and reply != "T05thread:1;swbreak:;"
    thread = int(reply[len("T05thread:") :].split(";")[0])
    assert pid.registers(thread - 1)["pc"] == 0x1014


@pytest.mark.parametrize("address, size", [(INTEGRAL, 4), (INTEGRAL + 3, 1), (INTEGRAL + 1, 2)])
def test_watchpoints_stop_before_a_store_and_behind_it(
    flexpret: str, pid: Client, address: int, size: int
) -> None:
    trace = events_of(flexpret, PID, 0, 20_000)
    stores = [it.cycle for it in trace if it.store == INTEGRAL]
    watch = f"2,{address:x},{size}"
    assert pid.ask(f"Z{watch}") == "OK"
    for cycle in stores:
        assert pid.ask("vCont;c:-1") == pid.ask("vCont;c:-1") == f"T05thread:1;watch:{address:x};"
        assert cycle_of(pid) == cycle
        step_over(pid, watch, "vCont;s:1")
        assert cycle_of(pid) == cycle + 1
    assert "replaylog:end" in pid.ask("vCont;c:-1")
    for cycle in reversed(stores):
        assert pid.ask("bc") == pid.ask("bs") == f"T05thread:1;watch:{address:x};"
        assert cycle_of(pid) == cycle + 1
        step_over(pid, watch, "bs")
        assert cycle_of(pid) == cycle
    assert "replaylog:begin" in pid.ask("bc")


def step_over(client: Client, watch: str, step: str) -> None:
    """Goes over a watched access, as gdb does it."""
    assert client.ask(f"z{watch}") == "OK"
    assert client.ask(step) == "T05thread:1;"
    assert client.ask(f"Z{watch}") == "OK"


def test_a_breakpoint_comes_before_a_watchpoint(flexpret: str, pid: Client) -> None:
    trace = events_of(flexpret, PID, 0, 20_000)
    store = next(it for it in trace if it.store == INTEGRAL)
    assert pid.ask(f"Z0,{store.pc:x},4") == pid.ask(f"Z2,{INTEGRAL:x},4") == "OK"
    assert pid.ask("vCont;c:-1") == "T05thread:1;swbreak:;"
    assert pid.ask("vCont;s:1") == f"T05thread:1;watch:{INTEGRAL:x};"
    assert cycle_of(pid) == store.cycle


def test_watchpoints_of_loads(flexpret: str, pid: Client) -> None:
    """The controller loads and stores its integral once in each period."""
    trace = events_of(flexpret, PID, 0, 20_000)
    stores = [it.cycle for it in trace if it.store == INTEGRAL]
    loads, watch = [], f"3,{INTEGRAL:x},4"
    assert pid.ask(f"Z{watch}") == "OK"
    while (reply := pid.ask("vCont;c:-1")) == f"T05thread:1;rwatch:{INTEGRAL:x};":
        loads.append(cycle_of(pid))
        step_over(pid, watch, "vCont;s:1")
    assert "replaylog:end" in reply
    assert len(loads) == len(stores) and all(load < store for load, store in zip(loads, stores))
    by_cycle = {it.cycle: it for it in trace}
    assert all(by_cycle[it].bits & 0x7F == 3 and by_cycle[it].register for it in loads)
    either = f"4,{INTEGRAL:x},4"
    assert pid.ask(f"Z{either}") == pid.ask(f"z{watch}") == "OK"
    for cycle in sorted(loads + stores, reverse=True):
        assert pid.ask("bc") == f"T05thread:1;awatch:{INTEGRAL:x};"
        assert cycle_of(pid) == cycle + 1
        step_over(pid, either, "bs")
    assert "replaylog:begin" in pid.ask("bc")


def test_a_range_is_left_by_steps(flexpret: str, pid: Client) -> None:
    assert pid.ask("vCont;r0,18:1") == "T05thread:1;"
    entered = next(it for it in events_of(flexpret, PID, 0, 1000) if it.pc >= 0x18)
    assert pid.registers(0)["pc"] == entered.pc


def test_threads_are_described(flexpret: str, pid: Client) -> None:
    assert (pid.ask("qfThreadInfo"), pid.ask("qsThreadInfo")) == ("m1,2,3,4,5,6,7,8", "l")
    pid.go_to(600)
    listed = pid.ask("qXfer:threads:read::0,1000")
    assert (
        '<thread id="1" name="T0">hard, slot 0, asleep until 8520 ns (cycle 852)</thread>' in listed
    )
    assert '<thread id="2" name="T1">hard, slot 2, awake</thread>' in listed
    said = [bytes.fromhex(pid.ask(f"qThreadExtraInfo,{thread}")).decode() for thread in (1, 3)]
    assert said == ["hard, slot 0, asleep until 8520 ns (cycle 852)", "soft, awake"]
    with Client(flexpret, "examples/sleep.toml") as client:
        assert "hard, slot 1, asleep</thread>" in client.ask("qXfer:threads:read::0,1000")
        client.go_to(10)
        assert "hard, slot 1, awake</thread>" in client.ask("qXfer:threads:read::0,1000")
    assert (pid.ask("T8"), pid.ask("T9"), pid.ask("Hg9"), pid.ask("qC")) == (
        "OK",
        "E01",
        "E01",
        "QC1",
    )


def test_a_delay_in_place_shows_its_address(flexpret: str, tmp_path: Path) -> None:
    """While a DU spins there is no event, and the branch before it tells no address."""
    source = "li x5, 1\nli x6, 1000000\nbnez x5, on\nnop\nnop\non: du x0, x6\nhere: j here\n"
    (tmp_path / "it.s").write_text(source)
    image = subprocess.run(
        [flexpret, "asm", str(tmp_path / "it.s")], capture_output=True, check=True
    )
    (tmp_path / "it.fpx").write_bytes(image.stdout)
    text = (
        (TOP / "examples/sum.toml")
        .read_text()
        .replace("examples/sum.fpx", str(tmp_path / "it.fpx"))
    )
    (tmp_path / "it.toml").write_text(text)
    with Client(flexpret, tmp_path / "it.toml") as client:
        client.go_to(50_000)
        assert client.registers(0)["pc"] == 6 * 4


def test_parts_of_the_description(pid: Client) -> None:
    whole = pid.ask("qXfer:features:read:target.xml:0,4000")
    parts, start = "", 0
    while True:
        part = pid.ask(f"qXfer:features:read:target.xml:{start:x},100")
        parts, start = parts + part[1:], start + 0x100
        if part[0] == "l":
            break
    assert whole == f"l{parts}" and "riscv:rv32" in parts
    assert pid.ask("qXfer:features:read:other.xml:0,100") == "E00"
    assert pid.ask("qXfer:memory-map:read::0,100") == ""


def test_single_answers(pid: Client) -> None:
    assert "ReverseStep+;ReverseContinue+" in pid.ask("qSupported:swbreak+")
    assert pid.ask("?") == "T05thread:1;"
    assert (pid.ask("qAttached"), pid.ask("qSymbol::"), pid.ask("vMustReplyEmpty")) == (
        "1",
        "OK",
        "",
    )
    assert pid.ask("vCont?").startswith("vCont;c")
    assert pid.ask("p20") == pid.ask("g")[32 * 8 : 33 * 8] == "00000000"
    assert (pid.ask("s"), pid.ask("s"), cycle_of(pid)) == ("T05thread:1;", "T05thread:1;", 5)
    assert pid.ask("Hc2") == "OK" and pid.ask("s") == "T05thread:2;"
    assert pid.ask("c") == "T05thread:2;replaylog:end;"
    assert pid.ask("p2a") == (20_000).to_bytes(8, "little").hex()


def test_memory_of_code_and_of_what_is_not_there(pid: Client) -> None:
    image = (TOP / "examples/c/pid.fpx").read_bytes()
    assert pid.memory(0, 16) == image[16:32]
    assert pid.memory(2, 3) == image[18:21]
    assert pid.ask("m3ffe,4") == "0000"
    for place in ("4000,4", "1fffffff,1", "20004000,1", "40000004,4", "ffffffff,1"):
        assert pid.ask(f"m{place}") == "E01"
    assert pid.ask("m20003ffc,8") == "00000000"


@pytest.mark.parametrize("packet", ["P5=00000000", "G00", "M20000000,4:00000000"])
def test_writes_are_refused(pid: Client, packet: str) -> None:
    before = pid.ask("g"), pid.memory(DATA_START, 64)
    assert pid.ask(packet).startswith("E.registers and memory aren't written")
    assert before == (pid.ask("g"), pid.memory(DATA_START, 64))


@pytest.mark.parametrize(
    "packet",
    [
        "Z0,20000000,4",
        "Z0,2,4",
        "Z0,3ffc,4",
        "Z2,4000,4",
        "mxyz",
        "m0",
        "p99",
        "Hgx",
        "vCont;x",
        "qRcmd,x",
    ],
)
def test_what_is_wrong_gets_an_error(pid: Client, packet: str) -> None:
    assert pid.ask(packet).startswith("E")
    assert pid.ask("?") == "T05thread:1;"


def test_monitor(pid: Client) -> None:
    assert pid.monitor("cycle") == "cycle 0, 0 ns\n"
    assert (
        pid.monitor("bound step_begin step_end")
        == "T0 step_begin to step_end: bound 352 cycles (3520 ns)\n"
    )
    assert pid.monitor(f"bound {STEP_BEGIN:#x} 0x190").startswith("T0 0xb4 to 0x190: bound")
    pid.go_to(300)
    told = pid.monitor("time")
    assert told.startswith("cycle 300, 3000 ns; the run ends at cycle 20000\n")
    assert "T0 hard, slot 0, awake, deadline armed for 6520 ns (cycle 652)\n" in told
    assert "monitor pipeline" in pid.monitor("help")
    for text, said in (
        ("cycle 20001", "this run ends at cycle 20000"),
        ("cycle x", "takes one decimal number, as 1000"),
        ("cycle 0x10", "takes one decimal number, as 1000"),
        ("cycle \u0663", "takes one decimal number, as 1000"),
        ("cycle " + "9" * 5000, "takes one decimal number, as 1000"),
        ("bound 0", "takes two addresses"),
        ("bound 8 4", "isn't above"),
        ("bound nobody 4", "nobody is no symbol"),
        ("reset", "no command 'reset'"),
    ):
        assert said in pid.monitor(text)
    assert cycle_of(pid) == 300


def test_a_refused_bound_is_explained(pid: Client) -> None:
    told = pid.monitor("bound 0xb4 0x1a8")
    assert told.startswith(
        "monitor bound: T0 has no bound there: refused bound 3 TimedWait 000001a4\n"
    )
    assert "error: TimedWait at 0x1a4 step_end: " in told
    assert "a wait takes as long as its moment says: end the section before it" in told


def test_a_bound_of_loops_that_have_no_table(flexpret: str, tmp_path: Path) -> None:
    """The executable bounds them, as fp_budget has it; what that would refuse is a note."""
    setup = tmp_path / "untold.toml"
    text, table, _ = (TOP / PID).read_text().partition("[[loop]]")
    assert table
    setup.write_text(text)
    with Client(flexpret, setup, "--elf", "examples/c/pid.elf", "--cycles", 20_000) as untold:
        first, loop, *notes = untold.monitor("bound step_begin step_end").splitlines()
    assert first == "T0 step_begin to step_end: bound 352 cycles (3520 ns)"
    assert loop.startswith("  loop 0xf0 step_begin+0x3c") and "the code counts 8 rounds" in loop
    assert any("assumes no traps: " in it and "MRET" in it for it in notes), notes
    with Client(flexpret, setup, "--cycles", 20_000) as untold:
        assert "UnboundedBackEdge" in untold.monitor("bound 0xb4 0x1a4"), "no executable is named"


def test_names_without_an_executable(flexpret: str) -> None:
    with Client(flexpret, "examples/drive.toml") as plain:
        told = "main is a name, and names need an executable: start fp_gdb with --elf FILE"
        assert plain.monitor("bound main 4") == f"monitor bound: {told}\n"


@pytest.mark.parametrize("cycle", [0, 1, 57, 460, 1000])
def test_the_pipeline_is_that_of_a_dump(flexpret: str, pid: Client, cycle: int) -> None:
    pid.go_to(cycle)
    _, *lines = pid.monitor("pipeline").splitlines()
    dump = dumped(flexpret, PID, cycle + 1)
    assert [line[0] for line in lines] == list("FDEMW")
    assert lines[0].startswith(f"F T{dump.fetching}")
    for line in lines[1:]:
        turn = dump.stages[line[0]]
        issue = (
            f"T{turn.thread} {turn.pc:08x}" if turn.pc is not None else f"T{turn.thread} no issue"
        )
        assert line[2:].startswith("-" if turn.thread is None else issue)
