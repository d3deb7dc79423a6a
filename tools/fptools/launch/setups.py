"""The image that a setup names."""

import tomllib
from pathlib import Path


def image_of(setup: Path) -> str | None:
    """The name of a setup's image, or None if the setup can't be read."""
    try:
        image = tomllib.loads(setup.read_text(encoding="utf-8-sig")).get("image")
    except (OSError, ValueError):
        return None
    return image if isinstance(image, str) else None
