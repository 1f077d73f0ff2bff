"""The machine.

    from linthofer import Machine
    with Machine(dims=12) as m:                 # a blank machine of 2**12 chips, 65,536 processors
        x = m.field(16)                         # sixteen memory bits of every processor
        x[:] = range(m.size)
        with m.where(x > 1000):
            x += 1                              # only there
        print(m.any(x == 7), x[0, 5])

It lives in one process `cm1lab front`, which does each line and answers each question. Nothing that a machine does is
computed in Python.
"""
from __future__ import annotations

import operator
import os
import tempfile
from contextlib import contextmanager
from types import TracebackType
from typing import Any, Dict, Iterable, Iterator, List, Optional, Sequence, Tuple, Type, Union

from . import grid
from .field import MOST_BITS, Field, Value
from .lines import Lines
from .messages import Message, Received, messages_of, send
from .nano import A, F, GLOBAL, ZERO, nano
from .refusals import Failed, Refused, Unavailable
from .tables import Picture, Route, Table, TextFile, expand
from .wire import command

__all__ = ["Field", "Machine", "Message", "Received", "messages_of"]

CONDITION_FLAGS = (15, 5, 4, 3, 2, 1, 0)        # those of `where`, one for each that stands within another
ROOMS = (1, 7)                                  # of a blank machine
HEAD_BYTES = 8                                  # of an image, which tell its shape (docs/FORMATS.md, "Images")

Path = Union[str, "os.PathLike[str]"]


class Machine:
    """A machine of 2**dims chips, sixteen processors each.

    | Attribute | What it is |
    |---|---|
    | `dims`, `room`, `rule` | dimensions of the cube, room of a router, rule of routing |
    | `chips`, `size` | 2**dims and 16 * 2**dims: how many chips, how many processors |
    | `shape` | rows and columns of the grid |
    | `cycles` | the counter of petit cycles: the birth of what the next one takes in |
    """

    def __init__(self, dims: int = 12, room: int = 7, *, rule: int = 0, cut: Sequence[Tuple[int, int]] = (),
                 _image: Optional[Path] = None) -> None:
        """A blank machine: `dims` 0 to 12, `room` 1 or 7, `rule` 0 or 1; `cut` names wires by a chip and a dimension.

        `room` is how many messages a router holds. Raises ValueError for another room, `Failed` for what else there is
        not, and `Unavailable` where `cm1lab` is not on the path or too old.
        """
        if _image is not None:
            self._begin(os.fspath(_image))
            return
        if room not in ROOMS:
            raise ValueError(f"Machine has room 1 or 7, not {room}; load_curve takes 1 to 15")
        words: List[object] = [dims, room, "--rule", rule]
        for chip, dimension in cut:
            words += ["--cut", chip, dimension]
        with tempfile.TemporaryDirectory(prefix="linthofer-") as folder:
            blank = os.path.join(folder, "blank.image")
            try:
                command("cm1lab", "fresh", *words, blank)
                self._begin(blank)
            except Failed as fault:
                raise Failed(fault.told.replace(blank, "a blank machine"), fault.status) from None

    @classmethod
    def load(cls, path: Path) -> "Machine":
        """The machine of an image file, which is read once and not changed. Raises `Failed` where it is no image."""
        return cls(_image=path)

    def _begin(self, image: str) -> None:
        self.lines = Lines(image)
        self._flags = list(CONDITION_FLAGS)             # that no `where` has taken
        self._place: Optional[Field] = None
        self._programs: Dict[str, List[str]] = {}       # of sources that were run, their lines
        try:
            self._refuse_older_front()                  # it has read the image when it answers
        except BaseException:
            self.lines.abandon()
            raise
        with open(image, "rb") as file:
            head = file.read(HEAD_BYTES)
        self.dims, self.room, self.rule = head[5], head[6], head[7]
        self.chips = 2**self.dims
        self.size = grid.PROCESSORS * self.chips
        self.shape = grid.shape_of(self.dims)

    def _refuse_older_front(self) -> None:
        try:
            self.lines.ask("clock")
        except Refused as refused:
            raise Unavailable("this cm1lab is older than the package: its `front` does not know `clock`. Build it anew "
                              "(README, \"How to begin\")") from refused

    # ---- its end

    def __enter__(self) -> "Machine":
        return self

    def __exit__(self, kind: Optional[Type[BaseException]], fault: Optional[BaseException],
                 trace: Optional[TracebackType]) -> None:
        if fault is None:
            self.close()
        else:
            self.lines.abandon()

    def close(self) -> None:
        """Ends it. The machine is gone then, unless `save` wrote it; all that is asked afterwards is `Unavailable`."""
        self.lines.close()

    def __del__(self) -> None:
        lines = getattr(self, "lines", None)
        if lines is not None:
            lines.abandon()

    def __repr__(self) -> str:
        if not self.lines.is_open:
            return "<Machine, closed>"
        return f"<Machine of {self.size} processors on {self.chips} chips, at petit cycle {self.cycles}>"

    # ---- parallel variables

    def field(self, bits: int, at: Optional[int] = None) -> Field:
        """A field of 1 to 64 bits (else refusal 1): free ones, or with `at` those from this address up.

        Free bits are below 3,968; MemoryError where there are not so many in one piece. Bits that are asked for by
        their address, here or by a line `field` of a text, are lent to no other field from then on.
        """
        if not 1 <= bits <= MOST_BITS:
            raise Refused(1, f"field({bits})", "a field has 1 to 64 bits; a longer number goes into two fields")
        if at is None:
            return Field(self, self.lines.memory.take(bits), bits, is_lent=True)
        if at < 0 or at + bits > 4096:
            raise Refused(2, f"field({bits}, at={at})", "memory bits are 0 to 4095")
        self.lines.memory.keep(at, bits)
        return Field(self, at, bits)

    def place(self) -> Field:
        """A new field of 4 + dims bits with each processor's own number, 16 times its chip and its processor."""
        return self.own_place().copy()

    def own_place(self) -> Field:
        """The field of which `place` is a copy; nobody may change it."""
        if self._place is None:
            self._place = self.field(4 + self.dims)
            self._place.put(range(self.size))
        return self._place

    @contextmanager
    def where(self, condition: Field) -> Iterator[None]:
        """`with m.where(condition):` what is assigned, sent or looked at within is meant where the condition is 1.

        The condition is a field of one bit, as a comparison makes one (else TypeError), and is looked at once, at the
        beginning. Within another `where` both have to hold. At most seven stand within one another (else
        `Unavailable`); they take flags 15, 5, 4, 3, 2, 1, 0, in this order.
        """
        self._check_condition(condition)
        if not self._flags:
            raise Unavailable(f"at most {len(CONDITION_FLAGS)} conditions stand within one another")
        outer = self.lines.condition
        flag = self._flags.pop(0)
        read, table = (ZERO, A) if outer is None else (outer, A & F)
        self.lines.tell(nano(condition.at, condition.at, read=read, write=flag, flag=table))
        self.lines.condition = flag
        try:
            yield
        finally:
            self.lines.condition = outer
            self._flags.insert(0, flag)

    # ---- the global wire

    def any(self, condition: Field) -> bool:
        """Whether the condition, a field of one bit, is 1 in any processor that `where` says: a look at the wire."""
        self._check_condition(condition)
        return self._is_wire_up(condition, A)

    def all(self, condition: Field) -> bool:
        """Whether the condition, a field of one bit, is 1 in all processors that `where` says: a look at the wire."""
        self._check_condition(condition)
        return not self._is_wire_up(condition, ~A)

    def _check_condition(self, condition: Any) -> None:
        if not isinstance(condition, Field):
            raise TypeError("a condition is a field of one bit, as a comparison makes one")
        self.lines.refuse_foreign(condition)
        if condition.bits != 1:
            raise TypeError(f"a condition is a field of one bit, as x != 0 makes one; this has {condition.bits} bits")

    def _is_wire_up(self, condition: Field, table: int) -> bool:
        """Whether the table of the condition's bit is 1 in any processor that `where` says."""
        meant = self.lines.condition
        if meant is None:
            return self.lines.is_wire_up(nano(condition.at, condition.at, write=GLOBAL, flag=table))
        return self.lines.is_wire_up(nano(condition.at, condition.at, read=meant, write=GLOBAL, flag=table & F))

    def is_anywhere(self, condition: Field) -> bool:
        """Whether the condition is 1 in any processor, whatever `where` says."""
        return self.lines.is_wire_up(nano(condition.at, condition.at, write=GLOBAL, flag=A))

    def greatest(self, field: Field) -> int:
        """What `Field.max` tells: bit by bit, the highest first, those who have a 1 stay, if there are any."""
        return self._extreme(field, wanted=1)

    def least(self, field: Field) -> int:
        """What `Field.min` tells."""
        return self._extreme(field, wanted=0)

    def _extreme(self, field: Field, wanted: int) -> int:
        candidates = self.field(1)
        self.lines.everywhere(self.lines.line("const", candidates, 0))
        self.lines.where_meant(self.lines.line("const", candidates, 1))
        if not self.is_anywhere(candidates):
            raise ValueError("`where` says no processor, so there is no greatest and no least number")
        number = 0
        for bit in reversed(range(field.bits)):
            has_wanted = field.part(bit, bit + 1) if wanted else ~field.part(bit, bit + 1)
            better = candidates & has_wanted
            found = self.is_anywhere(better)
            if found:
                candidates = better
            number |= (wanted if found else 1 - wanted) << bit
        return number

    # ---- messages

    def send(self, value: Field, to: Value, combine: str = "only", bits: Optional[int] = None,
             most: int = 100_000) -> Received:
        """Each processor that `where` says sends `value` to the one whose place `to` tells.

        Petit cycles run until no message stands in a router and nobody asks; what came is in `Received`. `value` has
        at most 32 bits (refusal 1). `to` is a field of 4 + dims bits, as `place()` is (refusal 11), or a number. Where
        several come to one processor, `combine` says what becomes of them: "add", "or", "max", "min", "last" (one of
        those that came last), or "only", which raises `Collision`. `bits` is how many the received field has, where a
        sum wants more. Raises `NotArrived` after `most` petit cycles, and where messages of before stand in routers.
        Flags SEND and RECV are 0 before and afterwards.
        """
        return send(self, value, to, combine, bits, most)

    def as_place(self, to: Value) -> Field:
        """A field of 4 + dims bits; refusal 11 for one of another length."""
        bits = 4 + self.dims
        if not isinstance(to, Field):
            place = self.field(bits)
            self.lines.everywhere(self.lines.line("const", place, place.checked_number(to)))
            return place
        if to.bits != bits:
            raise Refused(11, "send", f"`to` has {to.bits} bits, and a place of this machine has {bits}: "
                                      + (f"widened({bits})" if to.bits < bits else f"part(0, {bits})"))
        return to

    def cycle(self, count: int = 1) -> None:
        """So many petit cycles of the router."""
        self.lines.tell(*["cycle"] * count)

    @property
    def cycles(self) -> int:
        return self.lines.number("clock")

    def standing(self) -> int:
        """How many messages stand in all routers."""
        return self.lines.number("standing")

    def asking(self) -> int:
        """How many processors ask to send: those whose flag SEND is 1."""
        return int(self.lines.ask("standing")[0].split()[2])

    def buffers(self) -> List[int]:
        """How many messages stand at each chip, by its number."""
        return self.lines.numbers("get buffers")

    def messages(self, chip: Optional[int] = None) -> List[Message]:
        """The messages that stand in the router of a chip, from the front of its buffer; without a chip, in all."""
        chips = range(self.chips) if chip is None else [chip]
        answers = self.lines.ask(*(f"buf {at}" for at in chips))
        return [message for at, answer in zip(chips, answers) for message in messages_of(at, answer)]

    def events(self, chip: int) -> List[Message]:
        """What was sent from a chip and what was delivered there, the oldest first, since `forget` or the beginning."""
        return messages_of(chip, self.lines.ask(f"events {chip}")[0])

    def find(self, chip: int, processor: int, birth: int) -> Tuple[Union[str, int], ...]:
        """Where the message of this tag is: ("router", chip), ("delivered", chip, processor) or ("unknown",)."""
        word, *numbers = self.lines.ask(f"find {chip} {processor} {birth}")[0].split()
        return (word, *map(int, numbers))

    def forget(self) -> None:
        """Empties the logs of all routers, which grow by 64 bytes with each message."""
        self.lines.tell("forget")

    # ---- lines of the machine's own language

    def ask(self, text: str) -> List[str]:
        """The answers to lines of a program and questions, as docs/LABORATORY.md tells them in "A front end".

        Each line is done as it comes: where one is refused (`Refused`), those before it have been done. A `field` line
        that was told before is left out. The context is `always` before and afterwards, whatever `where` says.
        """
        return self.lines.ask_text(text)

    def run(self, source: str) -> None:
        """Runs a source, with `repeat` and `constant` (docs/LABORATORY.md, "Sources").

        All of it is judged before anything is done: `Failed` for a fault in it, refusal 19 for a name of its fields
        that was told with another place. The context is `always` before and afterwards, whatever `where` says.
        """
        if source not in self._programs:
            self._programs[source] = expand(source).splitlines()
        program = [line.partition(" ;")[0] for line in self._programs[source]]
        self.lines.refuse_other_fields(program)
        self.lines.ask_text("\n".join(program))

    def wire(self, text: str = "") -> bool:
        """Does the lines of a text, if there are any, and looks: whether flag GLOBAL is 1 in any processor."""
        return self.ask(text + "\nsense")[-1] == "wire 1"

    # ---- numbers in and out

    def numbers(self, at: int, bits: int) -> List[int]:
        """The number in these memory bits of each processor, chip by chip."""
        return self.lines.numbers(f"get {at} {bits}")

    def flag(self, number: int) -> List[int]:
        """A flag of each processor, 0 or 1, chip by chip."""
        return self.lines.numbers(f"get flag {number}")

    def checked_place(self, place: Any) -> Tuple[int, int]:
        """Chip and processor; TypeError where it is no pair of numbers, refusal 2 where there is no such place."""
        if isinstance(place, slice):
            raise TypeError("x.list(), x.rows() or x.numpy() tells all numbers; x[:] is for assignments")
        if isinstance(place, Field) or hasattr(place, "__iter__") and not isinstance(place, tuple):
            raise TypeError("no masks in brackets: with m.where(mask): x[:] = ..")
        try:
            chip, processor = map(operator.index, place)
        except (TypeError, ValueError):
            raise TypeError("one processor is x[chip, processor], and all are x[:]") from None
        if not (0 <= chip < self.chips and 0 <= processor < grid.PROCESSORS):
            raise Refused(2, f"[{chip}, {processor}]",
                          f"chips of this machine are 0 to {self.chips - 1}, processors of a chip 0 to 15")
        return chip, processor

    def put_numbers(self, field: Field, numbers: Any, rows: bool) -> None:
        """What `Field.put` says."""
        flat, is_nested = _flattened(numbers, self.shape)
        if len(flat) != self.size:
            raise ValueError(f"{len(flat)} numbers for {self.size} processors")
        if rows or is_nested:
            flat = grid.by_chip(self.dims, flat)
        if min(flat) < 0 or max(flat) >> field.bits:
            place = next(at for at, number in enumerate(flat) if not 0 <= number < 2**field.bits)
            chip, processor = divmod(place, grid.PROCESSORS)
            raise Refused(11, "put", f"{flat[place]} for place {place}, which is [{chip}, {processor}]; "
                                     f"a field of {field.bits} bits has 0 to {2**field.bits - 1}")
        # Of a list of ints, Python writes the text `[1, 2]` faster than a text for each.
        self.lines.tell(f"put {field.at} {field.bits} " + repr(flat)[1:-1].replace(",", ""))

    # ---- images, pictures, studies

    def image(self) -> bytes:
        """The image of the machine as it is now (docs/FORMATS.md, "Images")."""
        return bytes.fromhex(self.lines.ask("image")[0].partition("\n")[2])

    def save(self, path: Path) -> None:
        """Writes the machine's image into a file, whole or not at all."""
        image = self.image()
        whole = os.fspath(path)
        part = f"{whole}.{os.getpid()}.part"
        try:
            with open(part, "xb") as file:
                file.write(image)
            os.replace(part, whole)
        except BaseException:
            if os.path.exists(part):
                os.unlink(part)
            raise

    def picture(self, what: Union[str, int] = "buffers") -> Picture:
        """A picture of a flag, by its number, with a dot for each processor, the north row above.

        Of "buffers" it has a dot for each chip: how many messages stand there. `Field.picture` is that of a field.
        """
        if what == "buffers":
            return self._picture("buffers")
        return self._picture("flag", what)

    def picture_of(self, at: int, bits: int) -> Picture:
        """What `Field.picture` tells."""
        return self._picture(at, bits)

    def _picture(self, *what: object) -> Picture:
        with TextFile(self.image(), "the machine") as image:
            return Picture(command("cm1lab", "picture", "--png", image, *what))

    def study(self, source: str, messages: bool = False, room: Optional[int] = None, repeats: bool = False) -> Table:
        """What the router would do under a source, a record for each petit cycle, or with `messages` for each message,
        or with `repeats` where the routers come to hold again what they held and so go round for ever.

        With `room`, 1 to 15, each router has room for so many messages, and not for as many as the machine's.

        The machine stays as it is: the source runs on an image of it (`cm1lab study`). Columns by petit cycle: cycle,
        taken, delivered, referred, standing, full, asking; by message: chip, processor, taken, to chip, to processor,
        delivered (None where it stands in a router), crossed, referred; of repeats: from, period, standing, arrived.
        """
        table = ["--repeats"] if repeats else ["--messages"] if messages else []
        options = [*table, *_words("--room", room)]
        with TextFile(expand(source), "the program") as program, TextFile(self.image(), "the machine") as image:
            return Table(command("cm1lab", "study", *options, image, program).decode())

    def route(self, tag: Tuple[int, int, int], source: str, why: bool = False, first: Optional[int] = None,
              last: Optional[int] = None, room: Optional[int] = None) -> Route:
        """The way that a message would go under a source, on an image of the machine (`cm1lab route`).

        `tag` is who sends it, chip and processor, and its birth, the petit cycle in which it is taken in: `m.cycles`
        for the next one. With `why` each line tells what the message waits for where it stays. Petit cycles before
        `first` are left out, and the source ends behind `last`. `room` is as for `study`. `Failed` where there is no
        such message.
        """
        options = [*(["--why"] if why else []),
                   *_words("--from", first), *_words("--to", last), *_words("--room", room)]
        with TextFile(expand(source), "the program") as program, TextFile(self.image(), "the machine") as image:
            return Route(command("cm1lab", "route", *options, image, program, *tag).decode())


def _words(option: str, number: Optional[int]) -> List[object]:
    """An option with its number, if there is one."""
    return [] if number is None else [option, number]


def _flattened(numbers: Any, shape: Tuple[int, int]) -> Tuple[List[int], bool]:
    """Whole numbers one after another, and whether they came as rows of the grid; ValueError for another shape."""
    if hasattr(numbers, "tolist"):                      # a NumPy array, or what is like one
        numbers = numbers.tolist()
    listed = numbers if isinstance(numbers, list) else list(numbers)
    if not listed or not hasattr(listed[0], "__iter__"):
        return _whole_numbers(listed), False
    rows = [_whole_numbers(row) for row in listed]
    if len(rows) != shape[0] or any(len(row) != shape[1] for row in rows):
        raise ValueError(f"{len(rows)} rows of {len(rows[0])} numbers; the grid has {shape[0]} rows of {shape[1]}")
    return [number for row in rows for number in row], True


def _whole_numbers(numbers: Iterable[Any]) -> List[int]:
    """Each as an int, True as 1; TypeError for what is no whole number."""
    listed = numbers if isinstance(numbers, list) else list(numbers)
    if set(map(type, listed)) <= {int}:                 # most often; it is faster than to ask each
        return listed
    try:
        return list(map(int, map(operator.index, listed)))
    except TypeError as fault:
        raise TypeError(f"data are whole numbers, as data.astype(int) makes them: {fault}") from None
