"""Theorems on the machine, over drawn setups: a thread by itself has the same events as in the machine."""
from __future__ import annotations

import pytest

from model.alone import View, phased, solo, solo_with_words
from model.drawn.worlds import World as Drawn
from model.effects import Event
from model.images import read_image
from model.registers import DREGIONS, IREGIONS, mode
from model.setups import HARD, HARD_ASLEEP, THREADS, read_setup
from model.world import World, is_setting, settings


class Run:
    """The run of a seed with devices of all kinds."""

    def __init__(self, seed: int) -> None:
        drawn = Drawn(seed)
        self.cycles, self.ports = drawn.cycles, drawn.ports()
        self.setup = read_setup(drawn.setup)
        self.image = read_image(drawn.image, self.setup.size)
        self.world = World(self.setup, self.image, self.ports).run_to(self.cycles)
        self.settings = settings(self.setup, self.world, self.cycles)

    def events(self, number: int) -> list[Event]:
        return [event for event in self.world.retired(self.cycles) if event.thread == number]

    def view(self, number: int) -> View:
        return View(self.setup, self.image, self.ports, number)

    def words_of_others(self, number: int) -> list[int]:
        return [value for cycle, value in self.world.granted[number] if cycle < self.cycles]


SEEDS = range(7000, 7040)


@pytest.mark.parametrize("seed", SEEDS)
def test_a_hard_thread_of_a_quiet_run_is_alone(seed: int) -> None:
    run = Run(seed)
    for number in range(THREADS) if run.world.is_quiet() else ():
        thread, view = run.setup.threads[number], run.view(number)
        if thread.mode == HARD and thread.confined:
            assert solo(view, run.cycles) == run.events(number)
        elif thread.mode == HARD:
            assert solo_with_words(view, run.cycles, run.words_of_others(number)) == run.events(
                number
            )


@pytest.mark.parametrize("seed", SEEDS)
def test_a_confined_thread_over_settings(seed: int) -> None:
    run = Run(seed)
    if any(is_setting(turn.event, (DREGIONS, IREGIONS)) for turn in run.world.turns):
        return
    for number in range(THREADS):
        modes = [mode(setting.modes, number) for setting in run.settings]
        if run.setup.threads[number].confined and all(
            each in (HARD, HARD_ASLEEP) for each in modes
        ):
            assert phased(run.view(number), run.settings, run.cycles) == run.events(number)


@pytest.mark.parametrize("seed", SEEDS)
def test_a_run_without_permits_is_quiet(seed: int) -> None:
    run = Run(seed)
    assert run.world.is_quiet() or any(thread.permit for thread in run.setup.threads)
