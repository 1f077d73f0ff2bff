"""What `Machine`, `Field` and `send` have in common: lines to one front end, each with the context that it wants."""
from __future__ import annotations

import functools
import json
from typing import TYPE_CHECKING, List, Optional, Sequence, Tuple, Union

from .memory import Memory
from .refusals import Refused, Unavailable
from .wire import Front, is_definition

if TYPE_CHECKING:
    from .field import Field

Operand = Union["Field", int, str]

FOREIGN = ("this field belongs to another machine (was m = Machine(..) run again?): "
           "data go across by y[:] = x.list()")
COMMAS = str.maketrans(" \n", ",,")


class Lines:
    """The lines to the machine of an image.

    The machine has one context, that of its last line `if`, `unless` or `always`. So whoever tells lines says whether
    they are meant everywhere or where the innermost `where` says, and the line that this wants goes before them.
    """

    def __init__(self, image: str) -> None:
        self.condition: Optional[int] = None        # the flag of the innermost `where`
        self.memory = Memory()
        self._front: Optional[Front] = Front(image)

    @property
    def front(self) -> Front:
        if self._front is None:
            raise Unavailable("this machine is closed")
        return self._front

    @property
    def is_open(self) -> bool:
        return self._front is not None

    def close(self) -> None:
        if self._front is not None:
            front, self._front = self._front, None
            front.close()

    def abandon(self) -> None:
        if self._front is not None:
            front, self._front = self._front, None
            front.abandon()

    # ---- telling and asking

    def everywhere(self, *lines: str) -> None:
        """Tells lines that all processors carry out."""
        self._tell_under("always", lines)

    def where_meant(self, *lines: str) -> None:
        """Tells lines that are carried out where the innermost `where` says."""
        self._tell_under("always" if self.condition is None else f"if {self.condition}", lines)

    def _tell_under(self, context: str, lines: Sequence[str]) -> None:
        if self.front.context != context:
            self.front.tell([context])
        self.front.tell(lines)

    def tell(self, *lines: str) -> None:
        """Tells lines that do not ask for the context: instructions, pokes, petit cycles."""
        self.front.tell(lines)

    def ask(self, *lines: str) -> List[str]:
        """The answers to these lines, one each."""
        return self.front.ask(lines)

    def number(self, question: str) -> int:
        """The number behind the first word of the answer."""
        return int(self.ask(question)[0].split()[1])

    def numbers(self, question: str) -> List[int]:
        """The numbers in the lines of an answer `numbers R`."""
        found: List[int] = json.loads(f"[{self.text_of_numbers(question).translate(COMMAS)}]")
        return found

    def text_of_numbers(self, question: str) -> str:
        """The same as a text, with one space or end of line between two numbers."""
        return self.ask(question)[0].partition("\n")[2]

    def is_wire_up(self, *instructions: str) -> bool:
        """Whether flag GLOBAL is 1 in any processor behind these instructions."""
        return self.ask(*instructions, "sense")[-1] == "wire 1"

    # ---- lines of fields

    def refuse_foreign(self, *operands: Operand) -> None:
        """ValueError for a field of another machine: the same bits here would be others."""
        for it in operands:
            if not isinstance(it, (int, str)) and it.machine.lines is not self:
                raise ValueError(FOREIGN)

    def name_of(self, field: "Field") -> str:
        """A field's name, which is its place: a text cannot forget a name, and so there are no more than places."""
        name = f"f{field.at}_{field.bits}"
        if name not in self.front.fields:
            self.front.tell([f"field {name} {field.at} {field.bits}"])
        return name

    def line(self, word: str, *operands: Operand) -> str:
        """A macro or phrase. What the machine would refuse of its fields is refused here, where it is asked for."""
        self.refuse_foreign(*operands)
        fields = [it for it in operands if not isinstance(it, (int, str))]
        line = " ".join([word, *(str(it) if isinstance(it, (int, str)) else self.name_of(it) for it in operands)])
        for one in fields:
            if one.bits != fields[0].bits:
                less, more = sorted((one.bits, fields[0].bits))
                raise Refused(11, line, f"{fields[0].bits} bits beside {one.bits}; widened({more}) makes the shorter "
                                        f"field longer, part(0, {less}) the longer one shorter")
            if not one.is_same_or_apart(fields[0]):
                raise Refused(10, line)
        return line

    def ask_text(self, text: str) -> List[str]:
        """The answers to the lines of a text, under `always` before and afterwards.

        Blank lines and comments have none. A `field` line that was told before is left out, so that a text may come
        again.
        """
        told = set(self.front.fields.values())
        wanted = [line for line in _lines_of(text) if line not in told]
        self.keep_fields_of(wanted)
        self.everywhere()
        try:
            return self.front.ask(wanted)
        finally:
            self.everywhere()

    def keep_fields_of(self, lines: Sequence[str]) -> None:
        """Bits to which a text gives a name are lent to no field from now on."""
        for line in filter(is_definition, lines):
            at, bits = (_number(word) for word in line.split()[2:])
            if at is not None and bits is not None and at + bits <= 4096:
                self.memory.keep(at, bits)

    def refuse_other_fields(self, lines: Sequence[str]) -> None:
        """Raises `Refused` 19 for a `field` line whose name was told with another place."""
        for line in filter(is_definition, lines):
            if self.front.fields.get(line.split()[1], line) != line:
                raise Refused(19, line)


@functools.lru_cache(maxsize=1_000)
def _lines_of(text: str) -> Tuple[str, ...]:
    """The lines of a text that have words, without comments and with one space between words.

    A loop asks the same text again and again: what was made of it last is kept.
    """
    lines = (" ".join(line.partition(";")[0].split()) for line in text.splitlines())
    return tuple(filter(None, lines))


def _number(word: str) -> Optional[int]:
    """The number of a word of a text, or None where it is none; the machine refuses it then."""
    try:
        return int(word[2:], 16) if word.startswith("0x") else int(word)
    except ValueError:
        return None
