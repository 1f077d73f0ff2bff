"""What goes wrong, as exceptions. All of them are a `Fault`.

| Exception | When |
|---|---|
| `Refused` | a line was refused, by a number of docs/REFUSALS.md; it has changed nothing |
| `Failed` | a command of `cm1` or `cm1lab` ended without what was wanted |
| `Collision` | several messages came to one processor, and nothing said what to do with them |
| `NotArrived` | messages are still under way |
| `Unavailable` | `cm1` or `cm1lab` is not there, is too old, or has ended |
"""
from __future__ import annotations

import re

from .refusal_table import REFUSALS

LONGEST_SHOWN = 80      # characters of a line that a text of an exception shows


class Fault(Exception):
    """Anything that went wrong between Python and the machine."""


class Refused(Fault):
    """A line was refused.

    `number`, `name`, `cause` and `advice` are those of docs/REFUSALS.md; `line` is the line, or the call that stands
    for it. `why` says what is wrong in this case, where Python knows more than the document.
    """

    def __init__(self, number: int, line: str = "", why: str = "") -> None:
        self.number = number
        self.line = line
        self.name, self.cause, self.advice = REFUSALS.get(number, ("Unknown", "no refusal that is known here", ""))
        refusal = f"? {number} {self.name}: {self.cause}"
        lines = [f"{_shortened(line)}: {why}" if why else _shortened(line)] if line else []
        lines.append(f"  {refusal}" if line else refusal)
        if self.advice and not why:
            lines.append(f"  what to do: {self.advice}")
        super().__init__("\n".join(lines))


class Failed(Fault):
    """A command failed: `told` is what it told, `status` its exit status (docs/LABORATORY.md, "What goes wrong")."""

    def __init__(self, told: str, status: int) -> None:
        self.told = told
        self.status = status
        super().__init__(told or f"the command ended with status {status}, and told nothing")


class Unavailable(Fault):
    """`cm1` or `cm1lab` is not there, is older than this package, or has ended."""


class Collision(Fault):
    """Several messages came to one processor, and `combine` did not say what becomes of them."""


class NotArrived(Fault):
    """Messages are still under way, after as many petit cycles as were allowed or before any ran."""


def fault_of(told: str, status: int) -> Fault:
    """The exception for what a command wrote on standard error before it ended with this status."""
    lines = told.strip().splitlines()
    last = lines[-1] if lines else ""
    refusal = re.fullmatch(r"cm1: (?:line (\d+): )?(\d+) \w+", last)
    if refusal is None:
        return Failed(last, status)
    where = f"line {refusal[1]} of the text" if refusal[1] else ""
    return Refused(int(refusal[2]), where)


def _shortened(line: str) -> str:
    if len(line) <= LONGEST_SHOWN:
        return line
    return line[:LONGEST_SHOWN - 3] + "..."
