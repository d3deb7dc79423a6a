"""Closed loops, over drawn setups and plants: a thread by itself in the loop with its plant has the same events as in
the machine."""
from __future__ import annotations

import random
from collections.abc import Sequence
from pathlib import Path

import pytest

from model.drawn.worlds import World as Drawn
from model.effects import Event
from model.images import read_image

from model.loops import (
    Motor, Plant, PortStore, TablePlant, last_word, loop_world, port_stores, sampled, solo_in_loop,
)  # fmt: skip
from model.ports import HeldPort
from model.setups import HARD, THREADS, read_setup

SEEDS = range(9000, 9200)


def drawn_plant(chance: random.Random) -> Plant:
    """A table, sampled every so many cycles; or a plant that knows each store's cycle."""
    table = TablePlant(tuple(chance.randrange(1 << 32) for _ in range(16)))
    if chance.random() < 0.5:
        return sampled(table, chance.choice([1, 2, 3, 7, 16, 100]), chance.randrange(1 << 32))

    def plant(stores: Sequence[PortStore], cycle: int) -> int:
        return table([store.word + store.cycle for store in stores] + [cycle // 8])

    return plant


@pytest.mark.parametrize("seed", SEEDS)
def test_a_hard_thread_is_alone_with_its_plant(seed: int) -> None:
    drawn, chance = Drawn(seed), random.Random(seed)
    setup = read_setup(drawn.setup)
    image, ports = read_image(drawn.image, setup.size), drawn.ports()
    plants = {number: drawn_plant(chance) for number in range(THREADS) if chance.random() < 0.7}
    world = loop_world(setup, image, ports, plants).run_to(drawn.cycles)
    events: list[Event] = list(world.retired(drawn.cycles))
    for number, plant in plants.items() if world.is_quiet() else ():
        thread = setup.threads[number]
        if thread.mode == HARD and thread.confined:
            alone = solo_in_loop(setup, image, ports, number, plant, drawn.cycles)
            assert alone == [event for event in events if event.thread == number]


def test_a_store_is_known_four_cycles_later() -> None:
    stores = [PortStore(4, 101)]
    assert [last_word(stores, cycle, 9) for cycle in (7, 8)] == [9, 101]


def test_a_sampled_plant_shows_its_word_until_the_next_sample() -> None:
    plant = sampled(lambda words: sum(words), 8, 9)
    assert [plant([PortStore(4, 101)], cycle) for cycle in (0, 7, 8, 15, 16)] == [
        0,
        0,
        101,
        101,
        202,
    ]


TOP = Path(__file__).resolve().parents[2]

CYCLES = 6_400


def controller(name: str, plants: dict[int, Plant]) -> list[Event]:
    """The events of the controller of examples/loop, by a setup of that folder."""
    setup = read_setup((TOP / "examples/loop" / name).read_bytes())
    image = read_image((TOP / "examples/loop/motor.fpx").read_bytes(), setup.size)
    world = loop_world(setup, image, [HeldPort() for _ in range(THREADS)], plants).run_to(CYCLES)
    return [event for event in world.retired(CYCLES) if event.thread == 0]


def test_seven_noisy_threads_do_not_change_the_controller() -> None:
    motor = sampled(Motor(1000), 100, 0)
    noise = sampled(TablePlant((3, 1, 4, 1, 5, 9, 2, 6)), 100, 0)
    events = controller("motor.toml", {0: motor, 1: noise})
    assert events == controller("quiet.toml", {0: motor})
    stores = port_stores(events, 0)
    assert len(stores) == CYCLES // 800 and stores[0].word == 52 << 16


def test_the_motor_settles() -> None:
    speed = Motor(1000)([32 << 16] * 999)
    assert abs(speed / 65536 - 16) < 0.01
