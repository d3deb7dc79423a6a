"""examples/sweep: the setups that make.py writes, what it can't make, the table, and the shares of array.sh."""
from __future__ import annotations

import os
import shutil
import subprocess
import sys
from pathlib import Path

import pytest
from fptools.testing.common import TOP
from fptools.budget.files import Budget, PeriodOf
from fptools.budget.judge import Judge
from fptools.files.elf import Program
from fptools.files.image import read_image
from fptools.files.lint import refusals
from fptools.period.runs import PeriodRuns
from fptools.period.periods import results_of
from fptools.program.calls import Flexpret
from fptools.files.setup import read_setup


def made(folder: Path, *words: str, program: str = "/bin/true") -> subprocess.CompletedProcess[str]:
    return subprocess.run(
        [TOP / "examples/sweep/make.py", *words], cwd=folder, env={**os.environ, "FLEXPRET": program},
        capture_output=True, text=True, check=False,
    )  # fmt: skip


def test_each_job_has_a_setup_that_is_not_refused(tmp_path: Path) -> None:
    assert made(tmp_path, "work", "1").returncode == 0
    jobs = (tmp_path / "work/jobs.tsv").read_text().splitlines()
    assert len(jobs) == 255
    for job in jobs[::50]:
        name, slots, period, budget = job.split("\t")
        setup = read_setup(tmp_path / f"work/setups/{name}.toml")
        assert refusals(setup) == []
        assert "".join(slot[0] for slot in setup.values["slots"]) == slots
        assert (setup.values["period"], 2000 // int(period)) == (int(period), int(budget))


@pytest.mark.parametrize("words", [(), ("--help",), ("work", "x"), ("work", "0"), ("work", "1001")])
def test_words_that_ask_for_no_sweep_make_no_folder(tmp_path: Path, words: tuple[str, ...]) -> None:
    ran = made(tmp_path, *words)
    assert (ran.returncode == 0) == ("--help" in words)
    assert "Traceback" not in ran.stderr
    assert list(tmp_path.iterdir()) == []


def test_without_a_program_no_folder_is_made(tmp_path: Path) -> None:
    ran = made(tmp_path, "work", "1", program="/none")
    text = "make.py: /none is no program: build it by ./flexpret, or name it by FLEXPRET\n"
    assert (ran.returncode, ran.stderr) == (1, text)
    assert list(tmp_path.iterdir()) == []


def test_a_script_is_no_program(tmp_path: Path) -> None:
    ran = made(tmp_path, "work", "1", program=str(TOP / "flexpret"))
    text = f"make.py: {TOP}/flexpret is no ELF executable: name the program itself, no script that calls it\n"
    assert (ran.returncode, ran.stderr) == (1, text)
    assert list(tmp_path.iterdir()) == []


def test_a_folder_that_is_there_stays_as_it_is(tmp_path: Path) -> None:
    (tmp_path / "setups").mkdir()
    ran = made(tmp_path, ".", "1")
    assert ran.returncode == 1
    assert ran.stderr.startswith("make.py: [Errno 17] File exists")


def tabled(folder: Path) -> subprocess.CompletedProcess[str]:
    words = [sys.executable, str(TOP / "examples/sweep/table.py"), str(folder)]
    return subprocess.run(words, capture_output=True, text=True, check=False)


@pytest.fixture
def work(tmp_path: Path) -> Path:
    """A sweep with the results of two jobs."""
    assert made(tmp_path, "work", "2").returncode == 0
    results = tmp_path / "work/results"
    (results / "02-TSSSTSSS.txt").write_text("bound 184\n29acbf7a868388d4\n")
    (results / "01-SSSSSSST.txt").write_text("bound 2001\n3115170c0e0a8730\n")
    return tmp_path / "work"


def test_the_table_has_the_setups_with_their_results(work: Path) -> None:
    ran = tabled(work)
    assert (ran.returncode, ran.stdout) == (0, "508 of 510 jobs have no result\n"), ran.stderr
    assert (work / "table.tsv").read_text().splitlines() == [
        "name\tslots\tperiod\tbudget\tbound\tfold\tslack",
        "01-SSSSSSST\tSSSSSSST\t1\t2000\t2001\t3115170c0e0a8730\t-1",
        "02-TSSSTSSS\tTSSSTSSS\t2\t1000\t184\t29acbf7a868388d4\t816",
    ]


@pytest.mark.parametrize("text", ["refused section 2 NoSlot\n0\n", "184\n0\n", "bound 184\n", ""])
def test_a_result_that_is_no_bound_makes_no_table(work: Path, text: str) -> None:
    (work / "results/02-SSSSSSST.txt").write_text(text)
    ran = tabled(work)
    assert (
        ran.returncode == 1 and ran.stderr.startswith("table.py: ") and ran.stderr.count("\n") == 1
    )
    assert not (work / "table.tsv").exists()


def test_a_folder_without_jobs_has_no_table(tmp_path: Path) -> None:
    ran = tabled(tmp_path)
    assert ran.returncode == 1 and "jobs.tsv" in ran.stderr and not list(tmp_path.iterdir())


def array(folder: Path, numbers: list[int]) -> tuple[list[str], list[int]]:
    """The jobs, of 30, that the tasks of an array with these numbers do, and the statuses of the tasks."""
    shutil.copy(TOP / "examples/sweep/array.sh", folder)
    (folder / "jobs.tsv").write_text("".join(f"{job:02}\tS\n" for job in range(30)))
    (folder / "job.sh").write_text('#!/bin/sh\necho "$1" >>done\n')
    (folder / "job.sh").chmod(0o755)
    (folder / "done").write_text("")
    sets = {"COUNT": len(numbers), "MIN": min(numbers), "MAX": max(numbers)}
    set_for_all = {f"SLURM_ARRAY_TASK_{name}": str(value) for name, value in sets.items()}
    statuses = [
        subprocess.run(
            [folder / "array.sh"], cwd=folder, env={**os.environ, **set_for_all, "SLURM_ARRAY_TASK_ID": str(number)},
            stderr=subprocess.DEVNULL, check=False,
        ).returncode
        for number in numbers
    ]  # fmt: skip
    return (folder / "done").read_text().split(), statuses


@pytest.mark.parametrize(
    "numbers",
    [
        range(0, 4),
        range(1, 5),
        range(1, 11),
        range(0, 20, 2),
        range(3, 30, 9),
        range(7, 8),
        range(0, 40),
    ],
)
def test_the_tasks_of_an_array_do_each_job_once(tmp_path: Path, numbers: range) -> None:
    done, statuses = array(tmp_path, list(numbers))
    assert sorted(done) == [f"{job:02}" for job in range(30)]
    assert set(statuses) == {0}


@pytest.mark.parametrize("numbers", [[0, 1, 5], [0, 6, 7, 8], [1, 2, 4]])
def test_tasks_whose_numbers_rise_by_other_steps_are_refused(
    tmp_path: Path, numbers: list[int]
) -> None:
    assert 1 in array(tmp_path, numbers)[1]


FRAMES = ("TTTTTTTT", "TSSSTSSS", "TTSSSSSS", "SSTSTTSS")


@pytest.mark.parametrize("clock", [7, 13, 27, 40])
def test_a_frame_with_slack_is_in_time(tmp_path: Path, flexpret: str, clock: int) -> None:
    """The bound of period.s is the one of fp_budget. No wait of a run is late where it fits, and one is where it doesn't."""
    assert made(tmp_path, "work", str(clock), program=flexpret).returncode == 0
    folder = tmp_path / "work"
    for frame in FRAMES:
        name = f"{clock:02}-{frame}"
        subprocess.run([folder / "job.sh", name], check=True)
        bound = int((folder / f"results/{name}.txt").read_text().split()[1])
        setup = read_setup(folder / f"setups/{name}.toml")
        setup.values["image"] = str(folder / "sum.fpx")
        judge = Judge(Flexpret(flexpret), setup, read_image(setup.image), Program())
        (result,) = results_of(judge, Budget("it", 0, 0, 0, None, period=PeriodOf(None, None)))
        assert result.bound == bound, frame
        own = tmp_path / "own.toml"
        own.write_text(
            (folder / f"setups/{name}.toml").read_text().replace("sum.fpx", str(setup.image))
        )
        runs = PeriodRuns(Flexpret(flexpret), read_setup(own), 40 * bound, "test")
        text = runs.compared([result])[0].text
        assert ("no wait is late" in text) == (bound <= 2000 // clock), (frame, text)
