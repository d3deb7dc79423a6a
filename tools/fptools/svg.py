"""SVG as texts. What is written between tags and in attributes is escaped; numbers have six digits at most."""

from html import escape


def element(name: str, *inside: str, **attributes: str | float) -> str:
    """An element with its attributes in their order: `class_` is `class`, `stroke_width` is `stroke-width`.
    Inside are elements and escaped texts."""
    words = "".join(
        f' {key.rstrip("_").replace("_", "-")}="{_value(it)}"' for key, it in attributes.items()
    )
    return f"<{name}{words}>{''.join(inside)}</{name}>" if inside else f"<{name}{words}/>"


def _value(value: str | float) -> str:
    return escape(value) if isinstance(value, str) else f"{value:g}"


def written(text: str, **attributes: str | float) -> str:
    """A text at the place of its attributes x and y."""
    return element("text", escape(text), **attributes)


def titled(name: str, title: str, **attributes: str | float) -> str:
    """An element that shows its title under the pointer, if it has one."""
    return element(name, *([element("title", escape(title))] if title else []), **attributes)


def picture(*parts: str, **attributes: str | float) -> str:
    """A file of SVG: each part begins a line."""
    root = element("svg", xmlns="http://www.w3.org/2000/svg", **attributes)
    return "\n".join([root.replace("/>", ">"), *parts, "</svg>", ""])
