"""Results of budgets as JUnit and JSON, with their numbers."""
from __future__ import annotations

import json
import re
from typing import Sequence
from xml.etree import ElementTree

from fptools.budget.files import Result, Verdict
from fptools.budget.path_facts import path_fields
from fptools.stack.reports import stack_fields
from fptools.stack.stacks import Stack
from fptools.untyped import Values

NOT_XML = re.compile("[^\t\n\r -\ud7ff\ue000-\ufffd\U00010000-\U0010ffff]")


KINDS = {Verdict.HOLDS: None, Verdict.OVER: "failure", Verdict.UNKNOWN: "error"}


def junit(
    results: list[Result], name: str, fault: str | None = None, stacks: Sequence[Stack] = ()
) -> bytes:
    """The results, and stacks, as a JUnit file: what is over is a failure, what is unknown, or stood against all of them, an
    error."""
    all_of = [*(it.verdict for it in results), *(it.verdict for it in stacks)]
    faults = 0 if fault is None else 1
    suite = ElementTree.Element(
        "testsuite", name=without_controls(name), tests=str(len(all_of) + faults),
        failures=str(all_of.count(Verdict.OVER)), errors=str(all_of.count(Verdict.UNKNOWN) + faults),
    )  # fmt: skip
    for result in results:
        thread, text = f"T{result.budget.thread}", result.text
        _add_numbers(_case(suite, thread, result.budget.name, KINDS[result.verdict], text), result)
    for stack in stacks:
        _case(suite, f"T{stack.thread}", "stack", KINDS[stack.verdict], stack.text)
    if fault is not None:
        _case(suite, "fp_budget", name, "error", fault)
    ElementTree.indent(suite)
    return bytes(ElementTree.tostring(suite, encoding="utf-8", xml_declaration=True)) + b"\n"


def _case(
    suite: ElementTree.Element, group: str, name: str, kind: str | None, text: str
) -> ElementTree.Element:
    """Adds a case, with a fault of a kind, if it has one."""
    case = ElementTree.SubElement(
        suite, "testcase", {"classname": group, "name": without_controls(name)}
    )
    if kind:
        ElementTree.SubElement(case, kind, message=without_controls(text))
    return case


def _add_numbers(case: ElementTree.Element, result: Result) -> None:
    """Adds the bound, the budget and what it leaves, in cycles, and what is taken for granted."""
    numbers = {
        "bound": result.bound,
        "budget": result.budget.cycles,
        "slack": result.slack,
        "ns": result.ns,
    }
    numbers |= {"executions": result.executions, "longest": result.longest}
    if result.stack:
        numbers |= {"stack": result.stack.bytes, "room": result.stack.room}
    known = {name: str(number) for name, number in numbers.items() if number is not None}
    known |= {f"note {at}": without_controls(note) for at, note in enumerate(result.notes, 1)}
    if not known:
        return
    properties = ElementTree.Element("properties")
    case.insert(0, properties)
    for name, value in known.items():
        ElementTree.SubElement(properties, "property", name=name, value=value)


def as_json(
    results: list[Result], fault: str | None = None, threads: list[Values] | None = None
) -> str:
    """The results as a JSON document: `bound`, `budget` and `slack` are cycles, `ns` is the bound's time. With the answers
    for threads, if they are asked for."""
    document: Values = {} if threads is None else {"threads": threads}
    document["results"] = [data_of(result) for result in results]
    if fault is not None:
        document["error"] = fault
    return json.dumps(document, indent=2, ensure_ascii=False)


def data_of(result: Result) -> Values:
    """A result as a table of a JSON document."""
    budget = result.budget
    return {
        "name": budget.name,
        "thread": budget.thread,
        "verdict": result.word.lower(),
        "bound": result.bound,
        "budget": budget.cycles,
        "slack": result.slack,
        "ns": result.ns,
        "executions": result.executions,
        "longest": result.longest,
        "text": result.text,
        "notes": list(result.notes),
        "assumes": sorted(it.value for it in budget.assume),
        "stack": stack_fields(result.stack) if result.stack else None,
        "path": path_fields(result.path) if result.path else None,
        "functions": list(result.functions),
        "loops": [
            {"at": it.where, "head": it.head, "last": it.last, "bound": it.bound, "by": it.by}
            for it in result.loops
        ],
    }


def without_controls(text: str) -> str:
    """A text without the characters that XML and HTML have no place for, as names of files may have them."""
    return NOT_XML.sub("\ufffd", text)
