"""Chromium without a window, for tests of pages."""
from __future__ import annotations

import json
import shutil
from base64 import b64decode
from pathlib import Path
from typing import Any

import pytest

PLACE = """
const it = document.querySelector(arguments[0]).getBoundingClientRect();
return [it.left, it.top, it.width, it.height];
"""
VIEW = "return document.querySelector('.cells').getAttribute('viewBox')"
OUTSIDE = """
const found = [];
for (const it of document.querySelectorAll('main *, header *, footer *')) {
  const style = getComputedStyle(it);
  if (!it.checkVisibility() || it.closest('svg, .plot, .hidden') || style.overflowX !== 'visible') continue;
  const box = it.closest('section, header, footer').getBoundingClientRect();
  const own = it.getBoundingClientRect();
  const isWide = own.right > box.right + 1 || own.left < box.left - 1;
  const isFull = style.display !== 'inline' && it.clientWidth > 0 && it.scrollWidth > it.clientWidth + 1;
  const hasMarks = it.matches('.histogram, .bars, .mark, .tick, .limit') || it.querySelector(':scope > .mark');
  if (isWide || isFull && !hasMarks) found.push(`${it.tagName} ${it.className}: ${it.textContent.trim().slice(0, 40)}`);
}
return found;
"""
FAINT = """
const linear = (part) => part <= .04045 ? part / 12.92 : ((part + .055) / 1.055) ** 2.4;
const level = (text) => {
  const [red, green, blue] = text.match(/[\\d.]+/g).slice(0, 3).map((it) => linear(it / 255));
  return .2126 * red + .7152 * green + .0722 * blue;
};
const ground = (it) => {
  for (; it; it = it.parentElement) {
    const color = getComputedStyle(it).backgroundColor;
    if (!/, 0\\)$/.test(color)) return color;
  }
  return 'rgb(255, 255, 255)';
};
const found = [];
for (const it of document.querySelectorAll('body *')) {
  const says = [...it.childNodes].some((node) => node.nodeType === 3 && node.data.trim());
  if (!says || it.closest('svg, script, noscript')) continue;
  const [low, high] = [level(getComputedStyle(it).color), level(ground(it))].sort((a, b) => a - b);
  if ((high + .05) / (low + .05) < 4.5) found.push(`${it.className}: ${it.textContent.trim().slice(0, 40)}`);
}
return found;
"""


class Browser:
    """Chromium without a window."""

    def __init__(self, folder: Path) -> None:
        selenium = pytest.importorskip(
            "selenium.webdriver", reason="selenium isn't installed (Debian: python3-selenium)"
        )
        for command, package in (("chromium", "chromium"), ("chromedriver", "chromium-driver")):
            if shutil.which(command) is None:
                pytest.skip(f"{command} isn't installed (Debian: {package})")
        options = selenium.ChromeOptions()
        options.binary_location = shutil.which("chromium")
        for word in (
            "headless=new",
            "no-sandbox",
            "disable-gpu",
            "disable-dev-shm-usage",
            "hide-scrollbars",
        ):
            options.add_argument(f"--{word}")
        options.add_argument(f"--user-data-dir={folder}")
        options.set_capability("goog:loggingPrefs", {"browser": "ALL", "performance": "ALL"})
        service = selenium.chrome.service.Service(shutil.which("chromedriver"))
        self.driver = selenium.Chrome(options=options, service=service)

    def open(self, page: Path, width: int = 1280, scheme: str = "light") -> None:
        size = {"width": width, "height": 900, "deviceScaleFactor": 1, "mobile": False}
        self.driver.execute_cdp_cmd("Emulation.setDeviceMetricsOverride", size)
        features = [{"name": "prefers-color-scheme", "value": scheme}]
        self.driver.execute_cdp_cmd("Emulation.setEmulatedMedia", {"features": features})
        for log in ("browser", "performance"):
            self.driver.get_log(log)
        self.driver.get(page.as_uri())

    def run(self, script: str, *values: object) -> Any:
        return self.driver.execute_script(script, *values)

    def console(self) -> list[str]:
        """What the console has of errors, warnings and other messages."""
        return [it["message"] for it in self.driver.get_log("browser")]

    def requests(self) -> list[str]:
        """The addresses that were asked for."""
        events = [json.loads(it["message"])["message"] for it in self.driver.get_log("performance")]
        sent = [it for it in events if it["method"] == "Network.requestWillBeSent"]
        return [it["params"]["request"]["url"] for it in sent]

    def picture(self, script: str = "return document.documentElement.scrollHeight") -> bytes:
        """A screenshot of the whole page, as PNG."""
        clip = {
            "x": 0,
            "y": 0,
            "width": self.run("return innerWidth"),
            "height": self.run(script),
            "scale": 1,
        }
        words = {"captureBeyondViewport": True, "clip": clip}
        return b64decode(self.driver.execute_cdp_cmd("Page.captureScreenshot", words)["data"])

    def point(self, x: float, y: float, kind: str = "mouseMoved") -> None:
        words = {
            "type": kind,
            "x": x,
            "y": y,
            "button": "none" if kind == "mouseMoved" else "left",
            "clickCount": 1,
        }
        self.driver.execute_cdp_cmd("Input.dispatchMouseEvent", words)

    def press(self, key: str) -> None:
        self.driver.execute_cdp_cmd("Input.dispatchKeyEvent", {"type": "keyDown", "key": key})
        self.driver.execute_cdp_cmd("Input.dispatchKeyEvent", {"type": "keyUp", "key": key})

    def sizes(self) -> list[int]:
        """The width of the page, and that of the screen."""
        found: list[int] = self.run(
            "return [document.documentElement.scrollWidth, window.innerWidth]"
        )
        return found

    def outside(self) -> list[str]:
        """The elements that are wider than their section, or than their own box."""
        found: list[str] = self.run(OUTSIDE)
        return found

    def faint(self) -> list[str]:
        """The texts with a contrast below 4.5 to their ground."""
        found: list[str] = self.run(FAINT)
        return found

    def place(self, selector: str) -> tuple[float, float, float, float]:
        """Where an element is on the screen: left, top, width and height."""
        left, top, width, height = self.run(PLACE, selector)
        return left, top, width, height

    def view(self) -> tuple[float, float]:
        """The first cycle of the timeline that is seen, from the window's begin on, and how many are."""
        left, _, span, _ = map(float, self.run(VIEW).split())
        return left, span
