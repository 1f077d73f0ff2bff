"""Single instructions as lines (docs/PROGRAMMING.md, "One instruction").

The table of an expression of memory bit A, memory bit B and flag F is that expression of the three bytes below, as
`A & ~F` is the table of "A and not F".
"""
from __future__ import annotations

A, B, F = 0xF0, 0xCC, 0xAA

CARRY, ZERO, GLOBAL, SEND, RECV = 7, 8, 9, 12, 14       # flags by their names


def nano(a: int, b: int, read: int = ZERO, write: int = ZERO, memory: int = A, flag: int = 0) -> str:
    """An instruction that all processors carry out: memory bit a and flag `write` become what the tables say.

    With the tables that are taken where none are given, memory stays as it is and no flag is written.
    """
    return f"nano {a} {b} {read} {write} {ZERO} 0 {memory & 0xFF:#04x} {flag & 0xFF:#04x} n"
