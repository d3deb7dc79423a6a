"""The page of fp_report in a browser."""
from __future__ import annotations

import json
from pathlib import Path
from typing import Iterator

import pytest
from fptools.report.tests.chromium import Browser
from fptools.testing.common import Tool
from fptools.report.tests.pages import HOSTILE, PID, STEP, read

pytest_plugins = ["fptools.report.tests.fixtures"]

pytest.importorskip("jinja2", reason="jinja2 isn't installed (Debian: python3-jinja2)")

WIDTHS, SCHEMES = (1280, 400), ("light", "dark")


@pytest.fixture(scope="module")
def browser(tmp_path_factory: pytest.TempPathFactory) -> Iterator[Browser]:
    opened = Browser(tmp_path_factory.mktemp("chromium"))
    yield opened
    opened.driver.quit()


@pytest.fixture(scope="module")
def full_page(reporting: Tool, tmp_path_factory: pytest.TempPathFactory) -> Path:
    """A page with budgets that hold, are over and are unknown, with long and hostile names."""
    folder = tmp_path_factory.mktemp("full")
    budgets, out = folder / "budgets.toml", folder / "report.html"
    section = (
        '[[budget]]\nname = "pulse"\nthread = 1\nfrom = "main1"\nto = "main1+8"\ncycles = 70\n'
    )
    names = [
        json.dumps(HOSTILE),
        '"a_name_that_is_long_and_has_no_place_to_break_it_in_two"',
        '"over"',
    ]
    tables = [STEP.format(name, most) for name, most in zip(names, (400, 123456789, 10))]
    unknown = STEP.format('"unknown"', 400).replace('assume = ["no traps", "moved work"]\n', "")
    budgets.write_text("".join([*tables, section, unknown]))
    ran = reporting("fp_report", PID[0], budgets, *PID[2:], "--cycles", "4000", "-o", out)
    assert ran.returncode == 2 and ran.stderr == "", ran.stdout + ran.stderr
    return out


@pytest.mark.parametrize("width", WIDTHS)
@pytest.mark.parametrize("scheme", SCHEMES)
@pytest.mark.parametrize("name", ["pid_page", "full_page"])
def test_the_page_is_readable(
    browser: Browser,
    request: pytest.FixtureRequest,
    tmp_path: Path,
    name: str,
    scheme: str,
    width: int,
) -> None:
    """No message on the console, no request, nothing outside of the screen, and enough contrast for each text."""
    page: Path = request.getfixturevalue(name)
    browser.open(page, width, scheme)
    assert browser.console() == []
    assert browser.sizes() == [width, width]
    assert browser.outside() == []
    assert browser.faint() == []
    assert {it for it in browser.requests() if not it.startswith("data:")} == {page.as_uri()}
    dark = (
        browser.run("return getComputedStyle(document.body).backgroundColor") == "rgb(18, 22, 27)"
    )
    assert dark == (scheme == "dark")
    shot = browser.picture()
    (tmp_path / "page.png").write_bytes(shot)
    assert (
        shot.startswith(b"\x89PNG")
        and int.from_bytes(shot[16:20], "big") == width
        and len(shot) > 50_000
    )
    assert int.from_bytes(shot[20:24], "big") > 2000


def test_the_pointer_shows_instruction_effect_and_stage(browser: Browser, pid_page: Path) -> None:
    """The issue of cycle 120 is in F then, in D in the next one, and so on; the rows are the threads."""
    browser.open(pid_page)
    browser.run("document.querySelector('.plot').scrollIntoView({block: 'center'})")
    left, top, width, _ = browser.place(".cells")
    heads = {
        120: "Cycle 120, 1.2 µs; a slot of T0, T0 issues.",
        121: "Cycle 121, 1.21 µs; a slot of soft threads, T2 issues.",
        122: "Cycle 122, 1.22 µs; a slot of T1, nobody issues.",
    }
    for stage, cycle in zip("FDEMW", range(120, 125)):
        browser.point(left + (cycle - 80 + 0.5) * width / browser.view()[1], top + 20 + 22)
        text = " ".join(browser.run("return document.querySelector('.readout').innerText").split())
        assert (
            text.startswith(f"{heads.get(cycle, 'Cycle')}") and "T0 in the five stages: F" in text
        )
        assert f"{stage} 0xb4 add a4, a2, a6 \u2192 x14=00001978 step_begin" in text
    assert browser.console() == []


def test_the_timeline_zooms_and_scrolls(browser: Browser, pid_page: Path) -> None:
    browser.open(pid_page)
    press = "document.querySelector(`[data-do=${arguments[0]}]`).click()"
    assert browser.view() == (0, 160)
    browser.run(press, "in")
    assert browser.view()[1] == 100
    for _ in range(20):
        browser.run(press, "in")
    assert browser.view()[1] == 12
    assert browser.run("return document.querySelectorAll('.over text.in').length") > 0
    browser.run(press, "all")
    assert browser.view() == (0, 424)
    browser.run(press, "right")
    assert browser.view() == (0, 424)
    browser.run("document.querySelector('.plot').focus()")
    for key in ("+", "+", "ArrowRight"):
        browser.press(key)
    left, span = browser.view()
    assert span == 424 / 1.6 / 1.6 and left > 0
    browser.run(
        "const it = document.querySelector('.scroll'); it.value = 1000; it.dispatchEvent(new Event('input'))"
    )
    assert browser.view()[0] == pytest.approx(424 - span)
    browser.run("document.querySelector('.plot').scrollIntoView({block: 'center'})")
    left, top, width, _ = browser.place(".cells")
    before = browser.view()[0]
    browser.point(left + 300, top + 50, "mousePressed")
    browser.point(left + 400, top + 50)
    browser.point(left + 400, top + 50, "mouseReleased")
    assert browser.view()[0] == pytest.approx(before - 100 * span / width, abs=0.01)
    assert browser.console() == []


def test_without_scripts_the_window_is_shown(pid_page: Path) -> None:
    page = read(pid_page)
    (cells,) = (it for tag, it in page.elements if it.get("class") == "cells")
    assert cells["viewbox"] == "0 0 424 372"
    issues = [
        it["d"] or "" for tag, it in page.elements if (it.get("class") or "").startswith("issue ")
    ]
    assert sum(path.count("M") for path in issues) == sum(
        len(row["gaps"]) for row in page.data["rows"]
    )
    assert [tag for tag, it in page.elements if "hidden" in it and tag in ("div", "input")] == [
        "div",
        "input",
    ]
