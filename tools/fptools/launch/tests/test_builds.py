"""How ./flexpret and ./flexpret-view build a program, by a kit of the test's own."""
from __future__ import annotations

import fcntl
import os
import re
import shutil
import signal
import subprocess
import sys
import threading
import time
from pathlib import Path

import pytest
from fptools.testing.common import TOP
from fptools.launch.build import Builder
from fptools.launch.forecast import Plan
from fptools.launch.up_to_date import Checkout as Sources
from fptools.program.status import NOT_BUILT
from fptools.launch.tests.scripts import CRATES, Checkout, PROGRAM, RT, SELFRUN

pytest_plugins = ["fptools.launch.tests.fixtures"]

UNPROVED = {"flexpret": "--model", "flexpret-view": "--unproved"}
BY_TOOLS = {**os.environ, "PYTHONPATH": "tools"}


def test_a_first_build_says_how_long_it_takes_and_which_crates_are_left(
    each_script: Checkout,
) -> None:
    ran = each_script.run(*each_script.words, given="in\n")
    first, *rest = ran.stderr.splitlines()
    found = re.fullmatch(
        f"{each_script.script}: the program isn't built yet: 4 crates are proved first, in about (\\d+) minutes?;"
        f" for an answer now, without a proof: {UNPROVED[each_script.script]}",
        first,
    )
    # Where there is a second processor, it gets jobs of the crates of the longest chain. A load makes it longer.
    quiet = 2 if len(os.sched_getaffinity(0)) < 2 else 1
    assert found and quiet <= int(found[1]) <= quiet * (3 + os.getloadavg()[0])
    assert rest[0].startswith(f"{each_script.script}: 0 of 4 crates proved; now ")
    assert re.search(r"now .*(low|beside).*; about \d+ minutes? left$", rest[0])
    assert rest[-1].startswith(
        f"{each_script.script}: 3 of 4 crates proved; now {each_script.out.parent.name}; about "
    )
    assert (ran.returncode, ran.stdout) == (
        0,
        f"in\n{len(each_script.words)}:{' '.join(each_script.words)}\n",
    )


def test_crates_are_proved_behind_those_that_they_use_and_no_others(each_script: Checkout) -> None:
    each_script.build()
    each_script.source.write_text("changed")
    each_script.run(*each_script.words)
    lines = each_script.log.read_text().splitlines()
    assert sorted(lines[:4]) == ["done beside", "done low", "lib beside", "lib low"]
    assert lines[4:] == [
        "lib middle",
        "done middle",
        f"run {each_script.out.parent.name}",
        f"done {each_script.out.parent.name}",
    ]


def test_crates_are_proved_side_by_side(checkout: Checkout) -> None:
    if len(os.sched_getaffinity(0)) < 2:
        pytest.skip("there is one processor")
    checkout.run(*SELFRUN, RT_SECONDS="0.5")
    assert sorted(checkout.log.read_text().splitlines()[:2]) == ["lib beside", "lib low"]


def test_the_longest_chain_comes_first(checkout: Checkout) -> None:
    (checkout.folder / "crates.txt").write_text("a:\nb:\nc: b\nflexpret_cli: a c\n")
    for name in ("a", "b", "c"):
        (checkout.folder / "crates" / name / "src").mkdir(parents=True)
    command = "from fptools.launch.forecast import *; from pathlib import Path;"
    command += " plan = Plan(Checkout(Path('.'), 'flexpret_cli'), 1); print(max(plan.chain, key=plan.chain.get), plan.chain['c'] > plan.chain['flexpret_cli'])"
    ran = subprocess.run(
        [sys.executable, "-c", command],
        cwd=checkout.folder,
        env=BY_TOOLS,
        capture_output=True,
        text=True,
        check=True,
    )
    assert ran.stdout == "b True\n"


def test_the_forecast_follows_the_load_and_proofs_that_take_longer(checkout: Checkout) -> None:
    """In seconds: at load 0 and at load 8 on 2 processors; after a crate that took three times its estimate; and while one takes longer."""
    for name, size in (
        ("low", 100_000),
        ("beside", 100_000),
        ("middle", 100_000),
        ("flexpret_cli", 100_000),
    ):
        (checkout.folder / "crates" / name / "src/lib.rt").write_text(" " * size)
    command = """
from fptools.launch import forecast
from pathlib import Path
import time
forecast.processors = lambda: 2
def plan(load): return forecast.Plan(forecast.Checkout(Path('.'), 'flexpret_cli'), 2, load=load)
quiet, busy, slow, late = plan(0.0), plan(8.0), plan(0.0), plan(0.0)
print(round(busy.left() / quiet.left(), 1))
slow.done['low'] = 3 * slow.weight['low']
print(2 < slow.pace() < 3)
late.running['flexpret_cli'] = time.monotonic() - 3000
late.done = {it: late.weight[it] for it in ('low', 'beside', 'middle')}
print(300 < late.left() < 700)
shown = forecast.Progress('x', late, False); shown.terminal = False; shown.show()
"""
    ran = subprocess.run(
        [sys.executable, "-c", command],
        cwd=checkout.folder,
        env=BY_TOOLS,
        capture_output=True,
        text=True,
        check=True,
    )
    assert ran.stdout.split() == ["5.0", "True", "True"]
    assert re.fullmatch(
        r"x: 3 of 4 crates proved; now flexpret_cli \(for 50 minutes\); about (8|9|10) minutes left\n",
        ran.stderr,
    )


def test_a_shorter_chain_yields_the_processors(checkout: Checkout) -> None:
    (checkout.folder / "crates.txt").write_text("a:\nb:\nc: b\nflexpret_cli: a c\n")
    for name, size in (("a", 20000), ("b", 100000), ("c", 100000)):
        (checkout.folder / "crates" / name / "src").mkdir(parents=True, exist_ok=True)
        (checkout.folder / "crates" / name / "src/lib.rt").write_text(" " * size)
    command = "from fptools.launch import forecast; from pathlib import Path;"
    command += " plan = forecast.Plan(forecast.Checkout(Path('.'), 'flexpret_cli'), 2); print(plan.niceness('b'), plan.niceness('a') > 5)"
    ran = subprocess.run(
        [sys.executable, "-c", command],
        cwd=checkout.folder,
        env=BY_TOOLS,
        capture_output=True,
        text=True,
        check=True,
    )
    assert ran.stdout == "0 True\n"


def test_a_proof_has_the_processors_that_no_other_crate_needs(checkout: Checkout) -> None:
    command = "from fptools.launch import forecast; from pathlib import Path;"
    command += " forecast.free_memory = lambda: memory; plan = forecast.Plan(forecast.Checkout(Path('.'), 'flexpret_cli'), 4); plan.running['a'] = 0.0;"
    command += " print([plan.jobs(ready) for ready in (0, 1, 2, 3, 9)])"
    for memory, jobs in ((64, [4, 3, 2, 1, 1]), (9, [2, 2, 2, 1, 1]), (7, [1, 1, 1, 1, 1])):
        words = [sys.executable, "-c", f"memory = {memory} << 30; {command}"]
        ran = subprocess.run(
            words, cwd=checkout.folder, env=BY_TOOLS, capture_output=True, text=True, check=True
        )
        assert ran.stdout == f"{jobs}\n"


def test_fp_plant_builds_its_program(checkout: Checkout) -> None:
    """With forecast and progress, once; a failure is one line more, and status 2."""
    (checkout.folder / "crates.txt").write_text(CRATES + "loop_cli: middle\n")
    (checkout.folder / "crates/loop_cli/src").mkdir(parents=True)
    (checkout.folder / "examples").symlink_to(TOP / "examples")

    def called(**named: str) -> subprocess.CompletedProcess[str]:
        words = "examples/loop/motor.toml --thread 0 --every 100 --cycles 1000 -- true".split()
        environment = {**checkout.environment, "RT_PROGRAM": "#!/bin/sh\nexit 9\n", **named}
        environment.pop("LOOP_CLI", None)
        return subprocess.run(
            [sys.executable, "tools/fp_plant", *words], cwd=checkout.folder, env=environment,
            capture_output=True, text=True, check=False,
        )  # fmt: skip

    ran = called(RT_STATUS="1", RT_SAYS="error: x")
    assert (
        ran.returncode == 2
        and ran.stderr.splitlines()[-1] == "fp_plant: without loop_cli there is no run"
    )
    ran = called()
    assert re.match(
        r"fp_plant: loop_cli isn't built yet: 4 crates are proved first, in about \d+ minutes?\n",
        ran.stderr,
    )
    assert re.search(
        r"^fp_plant: 3 of 4 crates proved; now loop_cli; about ", ran.stderr, re.MULTILINE
    )
    assert (
        ran.stderr.splitlines()[-1] == "fp_plant: loop_cli ended with status 9"
        and ran.returncode == 2
    )
    assert called().stderr == "fp_plant: loop_cli ended with status 9\n"


def test_nothing_is_built_twice_until_a_source_changes(each_script: Checkout) -> None:
    each_script.build()
    assert not each_script.builds()
    each_script.source.write_text("changed")
    assert each_script.builds()
    assert not each_script.builds()


def test_new_times_of_the_same_sources_build_nothing(each_script: Checkout) -> None:
    each_script.build()
    for time_of in (1, time.time() + 5):
        for file in each_script.folder.glob("crates/*/src/*.rt"):
            os.utime(file, (time_of, time_of))
        os.utime(each_script.folder / "crates.txt", (time_of, time_of))
        assert not each_script.builds()


def test_a_change_with_an_old_time_and_the_same_size_is_built(each_script: Checkout) -> None:
    each_script.source.write_text("a")
    each_script.build()
    stat = each_script.source.stat()
    each_script.source.write_text("b")
    os.utime(each_script.source, ns=(stat.st_mtime_ns, stat.st_mtime_ns - 1))
    assert each_script.builds()


def test_a_crate_that_the_program_does_not_use_builds_nothing(each_script: Checkout) -> None:
    each_script.build()
    (each_script.folder / "crates/other/src/lib.rt").write_text("changed")
    (each_script.folder / "crates.txt").write_text(f"# of this repository\n{CRATES}another: low\n")
    assert not each_script.builds()
    (each_script.folder / "crates.txt").write_text(CRATES.replace("beside arrayvec", "beside itoa"))
    assert each_script.builds()


def test_a_source_that_went_or_came_with_an_old_date_is_built(each_script: Checkout) -> None:
    law = each_script.folder / "crates/low/specs/law.antt"
    law.parent.mkdir()
    law.write_text("")
    each_script.build()
    law.rename(each_script.folder / "aside")
    assert each_script.builds()
    assert not each_script.builds()
    (each_script.folder / "aside").rename(law)
    assert each_script.builds()
    shutil.copytree(law.parent, law.parent.with_name("proofs"))
    assert each_script.builds()


def test_a_checkout_that_moved_is_not_built_again(
    each_script: Checkout, tmp_path_factory: pytest.TempPathFactory
) -> None:
    each_script.build()
    each_script.folder = each_script.folder.rename(
        tmp_path_factory.mktemp("elsewhere") / "checkout"
    )
    assert not each_script.builds()


def test_a_source_that_changes_while_it_is_built_is_built_again(each_script: Checkout) -> None:
    rt = each_script.folder / "bin/rt"
    rt.write_text(
        RT.replace("sleep", f"[ $1 != run ] || echo changed >{each_script.source}\nsleep")
    )
    each_script.build()
    rt.write_text(RT)
    assert each_script.builds()
    assert not each_script.builds()


def test_a_build_that_fails(each_script: Checkout) -> None:
    ran = each_script.run(
        *each_script.words, RT_STATUS="1", RT_SAYS="src/lib.rt:1:1: error: no proof"
    )
    assert ran.returncode == NOT_BUILT
    (log,) = each_script.out.glob("*.log")
    assert re.fullmatch(
        rf"{each_script.script}: (low|beside) is not proved: src/lib.rt:1:1: error: no proof; see {log}",
        ran.stderr.splitlines()[-1],
    )
    assert "no proof" in log.read_text()


def test_a_build_on_a_full_disk(each_script: Checkout) -> None:
    ran = each_script.run(
        *each_script.words, RT_STATUS="2", RT_SAYS="rt: [Errno 28] No space left on device"
    )
    assert ran.returncode == NOT_BUILT
    assert f"{each_script.script}: the disk is full: " in ran.stderr.splitlines()[-1]


def test_a_build_without_a_kit(each_script: Checkout) -> None:
    (each_script.folder / "bin/rt").unlink()
    ran = each_script.run(*each_script.words, PATH=f"{each_script.folder}/bin:/usr/bin:/bin")
    assert (ran.returncode, ran.stdout, len(ran.stderr.splitlines())) == (NOT_BUILT, "", 1)
    assert "isn't on the PATH" in ran.stderr


def test_a_build_with_another_kit_that_fails_names_it(each_script: Checkout) -> None:
    ran = each_script.run(*each_script.words, RT_STATUS="1", RT_KIT="rattle-kit-12 logic 0")
    assert (
        "(the kit is rattle-kit-12 logic 0; README.md names one with logic dac8208d650f15bf)"
        in ran.stderr
    )


def test_a_folder_that_cannot_be_made(each_script: Checkout) -> None:
    each_script.out.write_text("")
    ran = each_script.run(*each_script.words)
    assert (ran.returncode, ran.stderr) == (
        NOT_BUILT,
        f"{each_script.script}: {each_script.out} can't be made: File exists\n",
    )


def test_without_what_the_scripts_share(each_script: Checkout) -> None:
    (each_script.folder / "tools/launch.bash").unlink()
    ran = each_script.run(*each_script.words)
    assert (ran.returncode, ran.stdout) == (NOT_BUILT, "")


def test_a_second_call_waits_for_the_build_of_the_first(each_script: Checkout) -> None:
    go = each_script.folder / "go"
    first = each_script.start(RT_WAITS=str(go))
    each_script.wait_for("lib low")
    second = each_script.start()
    assert second.stderr
    assert (
        second.stderr.readline()
        == f"{each_script.script}: another call builds here: waiting for it\n"
    )
    go.write_text("")
    _, said = second.communicate(timeout=60)
    assert (second.returncode, said, first.wait(60)) == (0, "", 0)
    assert each_script.log.read_text().count("lib low\n") == 1


def test_a_build_waits_for_an_rt_that_works_in_the_checkout(each_script: Checkout) -> None:
    held = os.open(each_script.out.parent, os.O_RDONLY)
    fcntl.flock(held, fcntl.LOCK_EX)
    script = each_script.start()
    assert script.stderr
    assert "isn't built yet" in script.stderr.readline()
    assert (
        script.stderr.readline()
        == f"{each_script.script}: an rt works in this checkout: waiting for it\n"
    )
    assert not each_script.log.exists()
    os.close(held)
    script.communicate(timeout=60)
    assert script.returncode == 0


def test_each_crate_is_proved_in_a_folder_of_its_own(each_script: Checkout) -> None:
    """`rt` locks the folders of all crates below, so two proofs in one checkout would wait for each other."""
    noted = each_script.folder / "noted"
    rt = each_script.folder / "bin/rt"
    rt.write_text(
        f"""#!/bin/sh
[ "$1" = lib ] && {{ pwd -P; cat ../../crates.txt; ls .. ; ls ../low/out out; }} >{noted}-${{PWD##*/}} 2>/dev/null
[ "$1" = lib ] && {{ mkdir -p out/rlib out/incremental; echo "${{PWD##*/}}" >out/rlib/stamp; echo >out/incremental/work; }}
{RT.removeprefix("#!/bin/sh")}"""
    )
    each_script.build()
    folder, *rest = Path(f"{noted}-middle").read_text().splitlines()
    assert folder == f"{each_script.out}/trees/middle/crates/middle"
    assert rest == [
        "beside:",
        "low:",
        "middle: low beside arrayvec",
        "beside",
        "low",
        "middle",
        "../low/out:",
        "rlib",
    ]
    assert not list((each_script.out / "trees").iterdir())
    crates = each_script.folder / "crates"
    for crate in ("low", "beside", "middle"):
        assert (crates / crate / "out/rlib/stamp").read_text() == f"{crate}\n"
        assert (crates / crate / "out/incremental/work").exists()


def test_a_build_that_is_broken_off_goes_on(each_script: Checkout) -> None:
    script = each_script.start(RT_SECONDS="30")
    each_script.wait_for("lib low")
    (builder,) = (
        int(it.name)
        for it in Path("/proc").glob("[0-9]*")
        if f"{each_script.folder}/tools/fp_launch" in command_of(it) and " build" in command_of(it)
    )
    os.kill(builder, signal.SIGTERM)
    _, said = script.communicate(timeout=20)
    assert script.returncode == NOT_BUILT
    assert "broken off; the next call goes on with what is proved" in said.splitlines()[-1]
    assert each_script.run(*each_script.words).returncode == 0


def test_a_proof_that_has_just_ended_hides_no_break(checkout: Checkout) -> None:
    with open(os.devnull, "w") as log:
        builder = Builder(Plan(Sources(checkout.folder, "flexpret_cli"), 1), log)
    with subprocess.Popen(["true"], process_group=0, text=True) as ended:
        ended.wait()
        builder.children.add(ended)
        builder.stop()
    assert builder.stopped


def test_a_second_break_does_not_wait_for_the_first(checkout: Checkout) -> None:
    with open(os.devnull, "w") as log:
        builder = Builder(Plan(Sources(checkout.folder, "flexpret_cli"), 1), log)

    def broken_off_twice() -> None:
        with builder.lock:
            builder.stop()

    thread = threading.Thread(target=broken_off_twice, daemon=True)
    thread.start()
    thread.join(10)
    assert not thread.is_alive()


def command_of(process: Path) -> str:
    try:
        return (process / "cmdline").read_text().replace("\0", " ")
    except OSError:
        return ""


def leave_program(checkout: Checkout) -> None:
    checkout.out.mkdir()
    program = checkout.out / checkout.out.parent.name
    program.write_text(PROGRAM)
    program.chmod(0o755)


def leave_by_ci(checkout: Checkout) -> None:
    """What `rt ci` leaves: its lock, opened at its start, and the program."""
    (checkout.folder / ".git").mkdir()
    (checkout.folder / ".git/rt-ci.lock").write_text("")
    time.sleep(0.01)
    leave_program(checkout)


def leave_by_run(checkout: Checkout) -> None:
    """What `rt run` leaves: the program, and behind it a stamp."""
    leave_program(checkout)
    time.sleep(0.01)
    (checkout.out / f"{checkout.out.parent.name}.stamp").write_text("")


@pytest.mark.parametrize("leave", [leave_by_ci, leave_by_run])
def test_the_program_that_rt_left_answers_the_first_call_in_a_second(
    each_script: Checkout, leave: object
) -> None:
    time.sleep(0.01)
    assert callable(leave)
    leave(each_script)
    begun = time.monotonic()
    assert not each_script.builds()
    assert time.monotonic() - begun < 1 or os.getloadavg()[0] > 2
    each_script.source.write_text("changed")
    assert each_script.builds()


@pytest.mark.parametrize("leave", [leave_by_ci, leave_by_run])
def test_the_kit_of_a_program_that_rt_left_is_not_recorded(
    each_script: Checkout, leave: object
) -> None:
    time.sleep(0.01)
    assert callable(leave)
    leave(each_script)
    here = "(found beside rattle-kit-13f logic dac8208d650f15bf)"
    first = each_script.run("--version").stdout.splitlines()[0]
    assert first.startswith(
        f"{each_script.script}: commit unknown, a kit that no record names {here}, proved: "
    )


@pytest.mark.parametrize("leave", [leave_by_ci, leave_by_run])
def test_a_source_that_changed_since_rt_left_the_program_is_built(
    each_script: Checkout, leave: object
) -> None:
    assert callable(leave)
    leave(each_script)
    time.sleep(0.01)
    each_script.source.write_text("changed")
    os.utime(each_script.source, (1, 1))
    assert each_script.builds()


def test_a_program_that_is_older_than_the_last_rt_ci_is_built(each_script: Checkout) -> None:
    leave_program(each_script)
    time.sleep(0.01)
    (each_script.folder / ".git").mkdir()
    (each_script.folder / ".git/rt-ci.lock").write_text("")
    assert each_script.builds()


def test_a_program_that_was_replaced_is_built(each_script: Checkout) -> None:
    each_script.build()
    program = each_script.out / each_script.out.parent.name
    program.write_text(PROGRAM + "\n# another\n")
    assert each_script.builds()
