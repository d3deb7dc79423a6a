"""The faults of TOML documents by JSON schemas."""
from __future__ import annotations

import json
import re
import unicodedata
from pathlib import Path
from typing import TYPE_CHECKING, Collection, Iterator

from fptools import require
from fptools.untyped import Values

if TYPE_CHECKING:
    from jsonschema import ValidationError


def faults(schema: Path, values: Values) -> Iterator[ValidationError]:
    """The faults of a document's values by a schema. A TOML float is no integer, though JSON takes 10.0
    for one."""
    require("jsonschema")
    import jsonschema

    types = jsonschema.Draft7Validator.TYPE_CHECKER.redefine(
        "integer", lambda _, it: isinstance(it, int) and not isinstance(it, bool)
    )
    validator = jsonschema.validators.extend(jsonschema.Draft7Validator, type_checker=types)
    document = json.loads(schema.read_text(encoding="utf-8"))
    for fault in validator(document).iter_errors(values):
        if fault.validator == "additionalProperties":
            known = fault.schema["properties"]
            fault.message = _unknown_keys(fault.instance, known, document["properties"])
        if fault.validator == "not" and "pattern" in fault.validator_value:
            if not isinstance(fault.instance, str):
                continue  # its type is another fault
            fault.message = _hidden(fault.instance, fault.validator_value["pattern"])
        yield fault


def _hidden(text: str, pattern: str) -> str:
    """The message about a character that a text mustn't have, as none shows or changes the order of others."""
    found = re.search(pattern, text)
    sign = found[0] if found else text[:1]
    name = unicodedata.name(sign, "a control character")
    return f"{text!a} has U+{ord(sign):04X} ({name}), which isn't shown as it is: take it out"


def best(found: Iterator[ValidationError]) -> ValidationError | None:
    """The fault that tells most, or None where there is none."""
    from jsonschema.exceptions import best_match

    worst: ValidationError | None = best_match(found)
    return worst


def _unknown_keys(table: Values, known: Collection[str], top: Collection[str]) -> str:
    """The message about keys that a table doesn't have, with the ones that may be meant."""
    from difflib import get_close_matches

    said = []
    for key in (it for it in table if it not in known):
        near = get_close_matches(key, known, 1)
        is_below = key in top and known != top
        remedy = "it belongs to the top: write it above the first table" if is_below else ""
        remedy = remedy or (
            f"is '{near[0]}' meant?" if near else f"the keys are {', '.join(known)}"
        )
        said.append(f"'{key}' is no key of this table: {remedy}")
    return "; ".join(said)
