"""Messages through the router: what one is told of them, and `send`.

The loop of `send` is worked out here, in Python: it is tested, and not proved (README of the package).
"""
from __future__ import annotations

from typing import TYPE_CHECKING, List, NamedTuple, Optional, Tuple

from .nano import A, B, F, RECV, SEND, nano
from .refusals import Collision, NotArrived, Refused

if TYPE_CHECKING:
    from .field import Field, Value
    from .machine import Machine

# Where a message stands in the memory of its sender, and where what came stands (docs/MACHINE.md, "Messages").
REL, PROCESSOR, PAYLOAD, CAME = 3968, 3984, 3988, 4032
PROCESSOR_BITS, PAYLOAD_BITS = 4, 32

COMBINES = ("only", "last", "add", "or", "max", "min")


class Message(NamedTuple):
    """A message, as docs/DEBUGGER.md tells it."""

    at: int             # the chip where it stands, or of whose log the event is
    word: str           # `msg` in a router; of an event `in` (it was sent from here) or `out` (it was delivered here)
    rel: int            # the relative address: a bit for each dimension that it has still to cross
    to_processor: int
    payload: int
    chip: int           # the chip and the processor that sent it, and the petit cycle in which it was taken in
    processor: int
    birth: int

    @property
    def to_chip(self) -> int:
        """The chip to which it goes."""
        return self.at ^ self.rel

    @property
    def tag(self) -> Tuple[int, int, int]:
        """Chip and processor that sent it, and its birth: what `Machine.find` and `Machine.route` take."""
        return self.chip, self.processor, self.birth


class Received(NamedTuple):
    """What `Machine.send` brought."""

    value: "Field"      # the number that came; where none came 0, by `combine="min"` the greatest number
    arrived: "Field"    # one bit: whether one came
    cycles: int         # how many petit cycles it took


def messages_of(chip: int, answer: str) -> List[Message]:
    """The messages in an answer to `buf` or `events`."""
    found = []
    for line in answer.split("\n")[1:]:
        word, rel, processor, payload, sender_chip, sender, birth = line.split()
        found.append(Message(chip, word, int(rel), int(processor), int(payload, 16), int(sender_chip), int(sender),
                             int(birth)))
    return found


def send(machine: "Machine", value: "Field", to: "Value", combine: str, bits: Optional[int], most: int) -> Received:
    """What `Machine.send` says."""
    if combine not in COMBINES:
        raise ValueError(f"combine is one of {', '.join(COMBINES)}, not {combine!r}")
    if not hasattr(value, "bits"):
        raise TypeError(f"what is sent is a field, not {type(value).__name__}: a number goes into a field before")
    machine.lines.refuse_foreign(value, to)
    bits = value.bits if bits is None else bits
    if value.bits > PAYLOAD_BITS:
        raise Refused(1, "send", f"a message carries {PAYLOAD_BITS} bits, not {value.bits}: send two parts, "
                                 f"x.part(0, {PAYLOAD_BITS}) and x.part({PAYLOAD_BITS}, {value.bits})")
    if bits > PAYLOAD_BITS:
        raise Refused(1, "send", f"what is received has at most {PAYLOAD_BITS} bits, not {bits}: for longer sums send "
                                 "two parts, the lower and the upper bits")
    if bits < value.bits:
        raise ValueError(f"bits={bits} are fewer than the {value.bits} that are sent")
    if most < 1:
        raise ValueError("most is 1 or more")
    if machine.standing():
        raise NotArrived("messages of before stand in routers: m.cycle() until m.standing() is 0")
    inbox = _Inbox(machine, combine, bits)
    _write_messages(machine, value, machine.as_place(to))
    cycles = _run_until_quiet(machine, inbox, most)
    if combine == "only" and machine.is_anywhere(inbox.again):
        raise Collision("several messages came to one processor: combine=\"add\", \"or\", \"max\", \"min\" or \"last\" "
                        "says what becomes of them")
    return Received(inbox.value, inbox.arrived, cycles)


def _write_messages(machine: "Machine", value: "Field", to: "Field") -> None:
    """Each processor's message stands in its memory then, and SEND is 1 where `where` says."""
    lines = machine.lines
    processor = machine.field(PROCESSOR_BITS, at=PROCESSOR)
    payload = machine.field(PAYLOAD_BITS, at=PAYLOAD)
    lines.everywhere(f"clear {SEND}", f"clear {RECV}", lines.line("const", payload, 0),
                     lines.line("move", payload.part(0, value.bits), value),
                     lines.line("move", processor, to.part(0, PROCESSOR_BITS)))
    if machine.dims:
        own = machine.own_place()
        top = PROCESSOR_BITS + machine.dims
        chip = machine.field(machine.dims, at=REL)          # of a relative address one bit counts for each dimension
        lines.everywhere(lines.line("move", chip, to.part(PROCESSOR_BITS, top)),
                         lines.line("xor", chip, own.part(PROCESSOR_BITS, top)))
    lines.where_meant(f"set {SEND}")


class _Inbox:
    """The fields into which each processor puts what comes to it."""

    def __init__(self, machine: "Machine", combine: str, bits: int) -> None:
        lines = machine.lines
        self.value: Field = machine.field(bits)
        self.arrived: Field = machine.field(1)      # whether a message came
        self.again: Field = machine.field(1)        # whether another came after that
        self._came: Field = machine.field(bits, at=CAME)
        at_first = 2**bits - 1 if combine == "min" else 0
        lines.everywhere(lines.line("const", self.value, at_first), lines.line("const", self.arrived, 0),
                         lines.line("const", self.again, 0))
        self.turn = self._turn(machine, combine)

    def _turn(self, machine: "Machine", combine: str) -> List[str]:
        """The lines of one petit cycle, to be told under `always`; the last is a question."""
        arrived, again = self.arrived.at, self.again.at
        return ["cycle",
                nano(again, arrived, read=RECV, memory=A | B & F),      # again := again or (arrived and RECV)
                *self._combined(machine, combine),
                nano(arrived, arrived, read=RECV, memory=A | F),        # arrived := arrived or RECV
                f"clear {RECV}",
                "standing"]

    def _combined(self, machine: "Machine", combine: str) -> List[str]:
        """Where RECV is 1, the value becomes that of before and what came together."""
        line = machine.lines.line
        if combine in ("max", "min"):
            less, greater = (self.value, self._came) if combine == "max" else (self._came, self.value)
            return ["clear 7", f"if {RECV}", line("less", less, greater), "if 7", line("move", self.value, self._came),
                    "always"]
        if combine == "or":
            return [nano(self.value.at + bit, self._came.at + bit, read=RECV, memory=A | B & F)
                    for bit in range(self.value.bits)]
        return [f"if {RECV}", line("add" if combine == "add" else "move", self.value, self._came), "always"]


def _run_until_quiet(machine: "Machine", inbox: _Inbox, most: int) -> int:
    """Petit cycles until no message stands in a router and no processor asks; how many it took."""
    machine.lines.everywhere()
    for count in range(1, most + 1):
        _, standing, asking = machine.lines.ask(*inbox.turn)[-1].split()
        if standing == asking == "0":
            return count
    raise NotArrived(f"after {most} petit cycles {standing} messages stand in routers, and {asking} processors ask")
