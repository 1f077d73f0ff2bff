"""Parallel variables.

An expression, as `x + y` or `x < 7`, is a new field, worked out in all processors. An assignment, as `x[:] = y` or
`x += y`, is carried out where `Machine.where` says. Numbers are those of docs/MACHINE.md: a field of so many bits has
0 to 2**bits - 1, and what does not fit is lost, as 255 + 1 in eight bits is 0.
"""
from __future__ import annotations

import operator
from typing import TYPE_CHECKING, Any, Iterator, List, NoReturn, Optional, Tuple, Union

from . import grid
from .nano import CARRY
from .refusals import Refused
from .tables import Picture

if TYPE_CHECKING:
    from .machine import Machine

MOST_BITS = 64          # of a field
MOST_BITS_SHOWN = 16    # of a field of which there is a picture

Value = Union["Field", int]

# What is written here for a name that an array of NumPy has and a field has not.
INSTEAD = {
    "sum": 'sum(x), or m.send(x.widened(32), to=0, combine="add") on the machine',
    "mean": "sum(x) / m.size",
    "any": "m.any(x != 0)",
    "all": "m.all(x != 0)",
    "astype": "x.widened(bits), or x.part(low, high)",
    "tolist": "x.list()",
    "reshape": "x.rows(), or x.numpy(rows=True)",
    "shape": "m.shape",
    "size": "m.size",
}


class Field:
    """The same memory bits of every processor, `bits` of them from address `at` up, the lowest bit first.

    The bits are free again when no variable has the field any more. What a new field has is anything: assign before
    you read. The fields of one operation have one length, else refusal 11 (`widened`, `part`); a number beside a field
    is one that it can have, 0 to 2**bits - 1, else refusal 11 as well.
    """

    __slots__ = ("machine", "at", "bits", "_whole", "_is_lent", "__weakref__")
    __array_ufunc__ = None      # `array + field` asks the field, which refuses; NumPy does not work it out by itself

    def __init__(self, machine: "Machine", at: int, bits: int, *, whole: Optional["Field"] = None,
                 is_lent: bool = False) -> None:
        """Made by `Machine.field` and `part`. `whole` lives as long as its part; what is lent is given back."""
        self.machine = machine
        self.at = at
        self.bits = bits
        self._whole = whole
        self._is_lent = is_lent

    def __del__(self) -> None:
        if self._is_lent:
            self.machine.lines.memory.give_back(self.at, self.bits)

    def __repr__(self) -> str:
        return f"<Field of {self.bits} bits from {self.at} up>"

    if not TYPE_CHECKING:                       # for types a field has no other attributes
        def __getattr__(self, name: str) -> NoReturn:
            more = f"; write {INSTEAD[name]}" if name in INSTEAD else ""
            raise AttributeError(f"a field has no {name}{more}")

    def is_same_or_apart(self, other: "Field") -> bool:
        """Whether both are the same bits, or have no bit in common."""
        return ((self.at, self.bits) == (other.at, other.bits)
                or self.at + self.bits <= other.at or other.at + other.bits <= self.at)

    # ---- numbers out

    def list(self) -> List[int]:
        """The number of each processor, chip by chip: 16 * 2**dims of them."""
        return self.machine.numbers(self.at, self.bits)

    def rows(self) -> List[List[int]]:
        """The numbers row by row of the grid, the north row first; `Machine.shape` rows and columns."""
        return grid.by_row(self.machine.dims, self.list())

    def numpy(self, rows: bool = False) -> Any:
        """The numbers as a NumPy array, of the least of the types uint8, uint16, uint32 and uint64 that has room.

        Its shape is (16 * 2**dims,), chip by chip; with `rows` it is `Machine.shape`, row by row of the grid.
        """
        import numpy
        least = next(width for width in (8, 16, 32, 64) if self.bits <= width)
        text = self.machine.lines.text_of_numbers(f"get {self.at} {self.bits}")
        numbers = numpy.fromstring(text, dtype="uint64", sep=" ").astype(f"uint{least}")
        return numbers[numpy.array(grid.places_by_row(self.machine.dims))] if rows else numbers

    def __array__(self, dtype: Any = None, copy: Any = None) -> Any:
        """What `numpy.array(field)` makes of it: `numpy()`."""
        numbers = self.numpy()
        return numbers if dtype is None else numbers.astype(dtype)

    def __iter__(self) -> Iterator[int]:
        return iter(self.list())

    def picture(self) -> Picture:
        """A picture with a dot for each processor, the north row above, of a field of at most 16 bits.

        Of one bit, 1 is black; of more, 0 is black and 2**bits - 1 is white.
        """
        return self.machine.picture_of(self.at, self.bits)

    def _repr_png_(self) -> Optional[bytes]:
        return self.picture().png if self.bits <= MOST_BITS_SHOWN else None

    def _repr_html_(self) -> Optional[str]:
        return self.picture()._repr_html_() if self.bits <= MOST_BITS_SHOWN else None

    # ---- one processor, or all

    def __getitem__(self, place: Tuple[int, int]) -> int:
        """`field[chip, processor]`: the number there; refusal 2 where there is no such place, TypeError for a mask."""
        chip, processor = self.machine.checked_place(place)
        return self.machine.lines.number(f"field {chip} {processor} {self.at} {self.bits}")

    def __setitem__(self, where: Any, value: Any) -> None:
        """`field[:] = value` where `where` says: a field, a number, or data as `put` takes them.

        `field[chip, processor] = number` in that one, whatever `where` says.
        """
        if isinstance(where, slice):
            if where != slice(None):
                raise IndexError("field[:] is for all processors, field[chip, processor] for one; no other slice is")
            self._assign(value)
        else:
            chip, processor = self.machine.checked_place(where)
            number = self.checked_number(value)
            self.machine.lines.tell(*(f"poke {chip} {processor} {self.at + bit} {number >> bit & 1}"
                                      for bit in range(self.bits)))

    def _assign(self, value: Any) -> None:
        lines = self.machine.lines
        if isinstance(value, Field):
            lines.where_meant(lines.line("move", self, value))
        elif not hasattr(value, "__iter__"):
            lines.where_meant(lines.line("const", self, self.checked_number(value)))
        elif lines.condition is None:
            self.put(value)
        else:
            everywhere = self.machine.field(self.bits)
            everywhere.put(value)
            lines.where_meant(lines.line("move", self, everywhere))

    def put(self, numbers: Any, rows: bool = False) -> None:
        """Puts a number into each processor, whatever `where` says.

        `numbers` has 16 * 2**dims whole numbers, chip by chip or with `rows` row by row; or it is a list of rows, or a
        NumPy array of two dimensions, of the shape `Machine.shape`. ValueError where there are more or fewer, refusal
        11 where one is not 0 to 2**bits - 1.
        """
        self.machine.put_numbers(self, numbers, rows)

    # ---- new fields, worked out in all processors

    def copy(self) -> "Field":
        """A new field with the same numbers."""
        new = self.machine.field(self.bits)
        lines = self.machine.lines
        lines.everywhere(lines.line("move", new, self))
        return new

    def part(self, low: int, high: int) -> "Field":
        """Its bits from `low` up to but not with `high`: the same memory, so to assign to it changes this field."""
        if not 0 <= low < high <= self.bits:
            raise ValueError(f"no bits {low} to {high} in a field of {self.bits} bits")
        return Field(self.machine, self.at + low, high - low, whole=self)

    def widened(self, bits: int) -> "Field":
        """The same numbers in a new field of `bits` bits, at least as many as this one has."""
        if bits < self.bits:
            raise ValueError(f"{bits} bits are fewer than {self.bits}; part(0, {bits}) takes the lowest of them")
        return self._moved(bits, 0, self)

    def __lshift__(self, places: int) -> "Field":
        """Times 2**places, without what does not fit."""
        places = _checked_places(places)
        if places >= self.bits:
            return self._number_as_field(0)
        return self._moved(self.bits, places, self.part(0, self.bits - places))

    def __rshift__(self, places: int) -> "Field":
        """Divided by 2**places, rounded down."""
        places = _checked_places(places)
        if places >= self.bits:
            return self._number_as_field(0)
        return self._moved(self.bits, 0, self.part(places, self.bits))

    def _moved(self, bits: int, low: int, source: "Field") -> "Field":
        """A new field of zeros, but for the bits from `low` up, which are those of the source."""
        new = self.machine.field(bits)
        lines = self.machine.lines
        lines.everywhere(lines.line("const", new, 0), lines.line("move", new.part(low, low + source.bits), source))
        return new

    def __add__(self, other: Value) -> "Field":
        return self._changed("add", other)

    def __radd__(self, other: int) -> "Field":
        return self._changed("add", other)

    def __sub__(self, other: Value) -> "Field":
        """The difference, plus 2**bits where it would be below 0."""
        return self._changed("sub", other)

    def __rsub__(self, other: int) -> "Field":
        return self._number_as_field(other)._changed("sub", self)

    def __mul__(self, other: Value) -> "Field":
        factor = self._operand(other)
        new = self.machine.field(self.bits)
        lines = self.machine.lines
        lines.everywhere(lines.line("mul", new, self, factor))
        return new

    def __rmul__(self, other: int) -> "Field":
        return self * other

    def __and__(self, other: Value) -> "Field":
        return self._changed("and", other)

    def __rand__(self, other: int) -> "Field":
        return self._changed("and", other)

    def __or__(self, other: Value) -> "Field":
        return self._changed("or", other)

    def __ror__(self, other: int) -> "Field":
        return self._changed("or", other)

    def __xor__(self, other: Value) -> "Field":
        return self._changed("xor", other)

    def __rxor__(self, other: int) -> "Field":
        return self._changed("xor", other)

    # There is no division, and there are no signs.

    def __floordiv__(self, other: object) -> NoReturn:
        raise _no_division("//", other)

    def __truediv__(self, other: object) -> NoReturn:
        raise _no_division("/", other)

    def __mod__(self, other: object) -> NoReturn:
        raise _no_division("%", other)

    def __rfloordiv__(self, other: object) -> NoReturn:
        raise _no_division("//", self)

    __rtruediv__ = __rmod__ = __rfloordiv__

    def __neg__(self) -> NoReturn:
        raise TypeError("a field has no signs; 0 - x is what is to be added to x for 0, which is 2**bits - x")

    def __invert__(self) -> "Field":
        new = self.copy()
        lines = self.machine.lines
        lines.everywhere(lines.line("not", new))
        return new

    def _changed(self, word: str, other: Value) -> "Field":
        """A copy, changed by the line `word copy other`."""
        # The operand stays in a variable until the line is told: its memory is free again afterwards, and not before.
        operand = self._operand(other)
        new = self.copy()
        lines = self.machine.lines
        lines.everywhere(lines.line(word, new, operand))
        return new

    # ---- comparisons: new fields of one bit

    def __lt__(self, other: Value) -> "Field":
        return _compared("less", self, self._operand(other), True)

    def __gt__(self, other: Value) -> "Field":
        return _compared("less", self._operand(other), self, True)

    def __ge__(self, other: Value) -> "Field":
        return _compared("less", self, self._operand(other), False)

    def __le__(self, other: Value) -> "Field":
        return _compared("less", self._operand(other), self, False)

    def __eq__(self, other: Value) -> "Field":      # type: ignore[override]
        return _compared("equal", self, self._operand(other), True)

    def __ne__(self, other: Value) -> "Field":      # type: ignore[override]
        return _compared("equal", self, self._operand(other), False)

    __hash__ = None                                 # type: ignore[assignment]

    def __bool__(self) -> bool:
        raise TypeError("a field has a number in each processor; m.any(condition) and m.all(condition) ask the wire")

    # ---- changes where `where` says

    def __iadd__(self, other: Value) -> "Field":
        return self._change("add", other)

    def __isub__(self, other: Value) -> "Field":
        return self._change("sub", other)

    def __iand__(self, other: Value) -> "Field":
        return self._change("and", other)

    def __ior__(self, other: Value) -> "Field":
        return self._change("or", other)

    def __ixor__(self, other: Value) -> "Field":
        return self._change("xor", other)

    def __imul__(self, other: Value) -> "Field":
        self._assign(self * other)                  # no product is worked out under a condition
        return self

    def __ilshift__(self, places: int) -> "Field":
        self._assign(self << places)
        return self

    def __irshift__(self, places: int) -> "Field":
        self._assign(self >> places)
        return self

    def _change(self, word: str, other: Value) -> "Field":
        operand = self._operand(other)
        lines = self.machine.lines
        lines.where_meant(lines.line(word, self, operand))
        return self

    # ---- from a neighbour on the grid, which is a torus, and along the chain: new fields

    def north(self) -> "Field":
        """What the northern neighbour has."""
        return self._come("s")

    def east(self) -> "Field":
        """What the eastern neighbour has."""
        return self._come("w")

    def south(self) -> "Field":
        """What the southern neighbour has."""
        return self._come("n")

    def west(self) -> "Field":
        """What the western neighbour has."""
        return self._come("e")

    def _come(self, direction: str) -> "Field":
        """What comes when all send in this direction."""
        new = self.machine.field(self.bits)
        lines = self.machine.lines
        lines.everywhere(lines.line("news", new, self, direction))
        return new

    def chained(self) -> "Field":
        """What the processor before on the chip has; 0 in processor 0."""
        new = self.machine.field(self.bits)
        lines = self.machine.lines
        lines.everywhere(lines.line("chain", new, self))
        return new

    # ---- numbers that the global wire finds

    def max(self) -> int:
        """The greatest number of those processors that `where` says; ValueError where there are none."""
        return self.machine.greatest(self)

    def min(self) -> int:
        """The least number of those processors that `where` says; ValueError where there are none."""
        return self.machine.least(self)

    # ---- operands

    def _operand(self, value: Value) -> "Field":
        """The other side of an operation, as a field."""
        if not isinstance(value, Field):
            return self._number_as_field(value)
        self.machine.lines.refuse_foreign(self, value)
        return value

    def _number_as_field(self, value: int) -> "Field":
        number = self.checked_number(value)
        new = self.machine.field(self.bits)
        lines = self.machine.lines
        lines.everywhere(lines.line("const", new, number))
        return new

    def checked_number(self, value: Any) -> int:
        """A number that this field can have; TypeError for what is no whole number, refusal 11 for others."""
        try:
            number = operator.index(value)
        except TypeError:
            raise TypeError(f"a field goes with a field or a whole number, not with {type(value).__name__}; "
                            "data go into a field of their own first: y[:] = data") from None
        if not 0 <= number < 2**self.bits:
            raise Refused(11, f"the number {number}", f"a field of {self.bits} bits has 0 to {2**self.bits - 1}")
        return number


def _compared(word: str, one: Field, other: Field, wanted: bool) -> Field:
    """A new field of one bit: whether the comparison `word one other` comes out as it is wanted."""
    new = one.machine.field(1)
    lines = one.machine.lines
    lines.everywhere(lines.line(word, one, other), lines.line("keep", new, CARRY))
    if not wanted:
        lines.everywhere(lines.line("not", new))
    return new


def _no_division(word: str, divisor: object) -> TypeError:
    """What to write instead of `x word divisor`."""
    if isinstance(divisor, int) and divisor > 0 and divisor & (divisor - 1) == 0:
        instead = f"x & {divisor - 1}" if word == "%" else f"x >> {divisor.bit_length() - 1}"
        return TypeError(f"fields have no division; write {instead} for x {word} {divisor}")
    return TypeError("fields have no division but by 2**n: x >> n is x // 2**n, and x & (2**n - 1) is x % 2**n; "
                     "Python divides what x.list() or x.numpy() tells")


def _checked_places(places: Any) -> int:
    try:
        count = operator.index(places)
    except TypeError:
        raise TypeError(f"a shift goes by a whole number, the same in all processors, not by {type(places).__name__}"
                        ) from None
    if count < 0:
        raise ValueError("a shift goes by 0 places or more")
    return count
