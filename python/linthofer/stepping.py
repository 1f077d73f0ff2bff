"""A machine and a source that are stepped act by act, forward and back: what the page of the panel asks for.

Nothing here computes what the machine does. The source becomes a program by `cm1lab expand`, the program becomes acts
by `cm1 list`, and the acts go to one `cm1lab front`, line by line.
"""
from __future__ import annotations

import shutil
import tempfile
from pathlib import Path
from typing import Any, Callable, Dict, List, NamedTuple, Optional, Sequence

from .machine import Machine, Message
from .recording import packed
from .refusals import Fault, Refused
from .tables import Route, TextFile, acts_of, expand
from .wire import command

MEMORY_BITS = 4096
PROCESSORS = 16                         # on a chip
FLAGS = 16
LONGEST_FIELD = 64
LONGEST_LINE = 1_000                    # characters of a line that is typed
MOST_BRIGHTNESS = 255                   # a lamp has one byte
ACTS_AT_ONCE = 5_000                    # of one request, so that a run can be stopped
TOO_LONG = 20                           # the refusal of a program of more than 65,535 acts
CONTEXTS = ("if", "unless", "always")
WITHOUT_ACTS = ("field", *CONTEXTS)
NO_PROGRAM_LINES = ("poke", "pokeflag", "put")      # they change the machine, and no program has them

JsonObject = Dict[str, Any]


# ---- requests


def number(given: JsonObject, name: str, below: int, otherwise: Optional[int] = None) -> int:
    """A whole number of a request, which has to be below a bound."""
    value = given.get(name, otherwise)
    if not isinstance(value, int) or isinstance(value, bool) or not 0 <= value < below:
        raise Fault(f"{name} is a number from 0 to {below - 1}")
    return value


class Layer(NamedTuple):
    """What the lamps show: a field or a flag of each processor, or how many messages stand at each chip (`buffers`)."""

    what: str
    address: int                        # of the field; of a flag its number
    length: int                         # bits of the field

    @classmethod
    def asked(cls, given: object) -> Layer:
        """The layer that a request names. A field that would end behind the last memory bit is cut there."""
        layer = given if isinstance(given, dict) else {}
        what = layer.get("what", "field")
        if what not in ("field", "flag", "buffers"):
            raise Fault("the lamps show a field, a flag or buffers")
        address = number(layer, "address", FLAGS if what == "flag" else MEMORY_BITS, 0)
        length = number(layer, "length", LONGEST_FIELD + 1, 1)
        return cls(what, address, max(1, min(length, MEMORY_BITS - address)))


# ---- the acts of a source


def number_of(word: str) -> int:
    """The number of a word of a program that was accepted: decimal, or hexadecimal behind `0x`."""
    return int(word[2:], 16) if word.startswith("0x") else int(word)


class Act(NamedTuple):
    """An instruction, a petit cycle or a look at the wire, as a line of the program language."""

    text: str
    line: int                           # the source's line that asks for it, from 0
    step: int                           # the same for all acts of that line, each time it is carried out


def words_of(line: str) -> List[str]:
    """The words of a program's line, without its comment."""
    return line.partition(";")[0].split()


def has_acts(line: str) -> bool:
    """Whether a program's line asks for acts."""
    words = words_of(line)
    return bool(words) and words[0] not in WITHOUT_ACTS


def acts_of_lines(lines: Sequence[str]) -> List[List[str]]:
    """The acts of each line of a program.

    A copy of the program has a look at the wire behind each line that has acts. These looks cut the listing of the copy
    into the acts of its lines. A copy that has too many acts is listed in two parts.
    """
    marked = [line + ("\nsense" if has_acts(line) else "") for line in map(" ".join, map(words_of, lines))]
    try:
        listing = iter(acts_of("\n".join(marked)))
    except Refused as refusal:
        if refusal.number != TOO_LONG:
            raise
        return acts_of_parts(lines)
    acts: List[List[str]] = [[] for _ in lines]
    for at in filter(lambda at: has_acts(lines[at]), range(len(lines))):
        if words_of(lines[at]) == ["sense"]:
            acts[at].append(next(listing))
        for act in listing:
            if act == "sense":
                break
            acts[at].append(act)
    return acts


def acts_of_parts(lines: Sequence[str]) -> List[List[str]]:
    """The same, listed in two parts: the second begins with the fields and the context that the first leaves."""
    with_acts = [at for at, line in enumerate(lines) if has_acts(line)]
    middle = with_acts[len(with_acts) // 2]
    first = lines[:middle]
    fields = [line for line in first if words_of(line)[:1] == ["field"]]
    context = [line for line in first if words_of(line) and words_of(line)[0] in CONTEXTS][-1:]
    opening = [*fields, *context]
    return acts_of_lines(first) + acts_of_lines([*opening, *lines[middle:]])[len(opening):]


def acts_by_source(source: Sequence[str], program: Sequence[str]) -> List[Act]:
    """The acts of the program that a source was expanded to.

    Each line of the program has the number of the source's line as a comment. Lines that a phrase became are one step:
    they are instructions, and the source's line is none.
    """
    acts: List[Act] = []
    step, before = 0, -1
    for line, texts in zip(program, acts_of_lines(program)):
        at = int(line.rpartition(";")[2]) - 1
        is_of_phrase = words_of(line)[0] == "nano" and words_of(source[at])[0] != "nano"
        if at != before or not is_of_phrase:
            step += 1
        before = at
        acts += [Act(text, at, step) for text in texts]
    return acts


# ---- the machine and the position


class TypedLine(NamedTuple):
    """A line that the user typed and that may have changed the machine."""

    before: int                         # the act before which it was carried out
    context: str                        # the line `if F`, `unless F` or `always` that holds for it
    text: str

    @property
    def lines(self) -> List[str]:
        """What is sent for it."""
        return [self.context, self.text]


class Stepping:
    """A machine, the acts of a source, and a position among them.

    To go back it begins anew on the first image, and repeats the acts and the lines that were typed between them.
    """

    def __init__(self, image: str, source: Optional[str] = None):
        """Begins with the machine of the file `image`, before the first act of the file `source`. Both stay as is."""
        self._folder = tempfile.TemporaryDirectory(prefix="linthofer-panel-")
        self._first_image = str(Path(self._folder.name, "first.image"))
        shutil.copyfile(image, self._first_image)       # so that the way back does not change with the file
        self.title = Path(source or image).name
        self.source = Path(source).read_text(errors="replace").splitlines() if source else []
        program = command("cm1lab", "expand", source).decode().splitlines() if source else []
        self.fields = [words_of(line) for line in program if words_of(line)[0] == "field"]
        self.acts = acts_by_source(self.source, program)
        self.breakpoints: set[int] = set()
        self.chip = 0
        self.machine = Machine.load(image)
        self._begin()

    def close(self) -> None:
        """Ends the front end, and takes its files away."""
        self._close_machine()
        self._folder.cleanup()

    def _close_machine(self) -> None:
        try:
            self.machine.close()
        except Fault:                   # it had ended before
            pass

    def _begin(self) -> None:
        """Puts the position before the first act of a machine that was read from the first image."""
        self.position = 0
        self.context = "always"
        self.typed: List[TypedLine] = []
        self._poked: Optional[bytes] = None             # the image after the last poke
        self._poked_at = (0, 0)                         # acts and typed lines before that image
        self.machine.ask("\n".join(map(" ".join, self.fields)))

    # ---- forward and back

    def _advance(self, count: int) -> None:
        """Runs so many acts, or those that are left. Where one is refused the machine is as it was before them."""
        acts = self.acts[self.position:self.position + count]
        try:
            self.machine.ask("\n".join(act.text for act in acts))
        except Fault:
            self._return_to(self.position)
            raise
        self.position += len(acts)

    def _run_until(self, is_end: Callable[[int], bool]) -> bool:
        """Runs at least one act, and on to the first position that is an end, or for a while.

        It is true where it came to an end, or to the program's.
        """
        end = self.position + 1
        while end < len(self.acts) and not is_end(end) and end - self.position < ACTS_AT_ONCE:
            end += 1
        stopped = end >= len(self.acts) or is_end(end)
        self._advance(end - self.position)
        return stopped

    def _return_to(self, position: int) -> None:
        """Begins anew and repeats everything up to this position, lines that were typed there included."""
        typed = [it for it in self.typed if it.before <= position]
        self._close_machine()
        self.machine = Machine.load(self._first_image)
        self._begin()
        for line in typed:
            self._advance(line.before - self.position)
            self._carry_out(line)
        self._advance(position - self.position)

    def is_start(self, position: int) -> bool:
        """Whether a line of the source begins at this position."""
        return position == 0 or self.acts[position - 1].step != self.acts[position].step

    def step_act(self) -> None:
        """Runs one act."""
        self._advance(1)

    def step_line(self) -> None:
        """Runs to the end of the source's line."""
        self._run_until(self.is_start)

    def step_cycle(self) -> bool:
        """Runs through the next petit cycle; whether there was one, or the program's end."""
        return self._run_until(lambda position: self.acts[position - 1].text == "cycle")

    def run(self) -> bool:
        """Runs to the next breakpoint; whether it came there, or to the program's end."""
        return self._run_until(lambda at: self.acts[at].line in self.breakpoints and self.is_start(at))

    def step_back(self) -> None:
        """Goes back by one act."""
        self._return_to(max(0, self.position - 1))

    def restart(self) -> None:
        """Goes back to the first act, with the lines that were typed before it; from the first act, without these."""
        if self.position == 0:
            self.typed = []
        self._return_to(0)

    def toggle_breakpoint(self, line: int) -> None:
        """Sets a breakpoint at a line of the source, or takes it away."""
        self.breakpoints ^= {line}

    # ---- lines that are typed

    def ask(self, text: str) -> str:
        """Sends one line, and tells its answer. `if F`, `unless F` and `always` hold for lines that are typed later."""
        line = " ".join(words_of(text))
        if len(line) > LONGEST_LINE or not (line.isascii() and line.isprintable()):
            raise Fault(f"a line has at most {LONGEST_LINE} printable ASCII characters")
        if not line:
            raise Fault("the line has no words")
        return self._carry_out(TypedLine(self.position, self.context, line))

    def _carry_out(self, typed: TypedLine) -> str:
        answer = self.machine.ask("\n".join(typed.lines))[-1]
        word = typed.text.split()[0]
        if answer == "ok":
            self.typed.append(typed)
            if word in CONTEXTS:
                self.context = typed.text
            if word in NO_PROGRAM_LINES:
                self._poked, self._poked_at = self.machine.image(), (self.position, len(self.typed))
        return answer

    # ---- what the page shows

    def way(self, chip: int, processor: int, birth: int) -> Route:
        """The way of the message with this tag, by `cm1lab route` over all acts that were done.

        After a poke, which no program has, it is told from there on.
        """
        acts_before, typed_before = self._poked_at
        done = list(map(" ".join, self.fields)) if self._poked is None else []
        for position in range(acts_before, self.position + 1):
            for typed in self.typed[typed_before:]:
                if typed.before == position:
                    done += typed.lines if typed.text != "forget" else []
            if position < self.position:
                done.append(self.acts[position].text)
        image = self._poked if self._poked is not None else Path(self._first_image).read_bytes()
        with TextFile(expand("\n".join(done))) as program, TextFile(image) as begin:
            return Route(command("cm1lab", "route", begin, program, chip, processor, birth).decode())

    def lamps(self, layer: Layer) -> JsonObject:
        """A byte for each lamp, as the page reads them, and which byte is the brightest."""
        if layer.what == "buffers":
            numbers, most = self.machine.buffers(), self.machine.room
        elif layer.what == "flag":
            numbers, most = self.machine.flag(layer.address), 1
        else:
            numbers, most = self.machine.numbers(layer.address, layer.length), 2**layer.length - 1
        if most > MOST_BRIGHTNESS:
            numbers, most = [it >> layer.length - 8 for it in numbers], MOST_BRIGHTNESS
        return {"layer": layer.what, "lamps": packed(numbers), "most": most}

    def state(self, layer: Layer) -> JsonObject:
        """All that the page shows after a step."""
        is_end = self.position >= len(self.acts)
        machine = self.machine
        return {**self.lamps(layer), "dims": machine.dims, "clock": machine.cycles, "wire": int(machine.wire()),
                "standing": machine.standing(), "asking": machine.asking(),
                "position": self.position, "acts": len(self.acts),
                "next": "" if is_end else self.acts[self.position].text,
                "line": -1 if is_end else self.acts[self.position].line,
                "breakpoints": sorted(self.breakpoints), "context": self.context, "chip": self._chip(layer)}

    def _chip(self, layer: Layer) -> JsonObject:
        """The chip that is looked at: number and flags of each processor, and the messages in its router."""
        field = layer if layer.what == "field" else Layer("field", 0, 1)
        places = [f"{self.chip} {processor}" for processor in range(PROCESSORS)]
        questions = [f"field {place} {field.address} {field.length}" for place in places]
        questions += [f"flag {place} {flag}" for place in places for flag in range(FLAGS)]
        told = [it.split()[1] for it in self.machine.ask("\n".join(questions))]
        flags = list(map(int, told[PROCESSORS:]))
        return {"chip": self.chip, "address": field.address, "length": field.length,
                "numbers": told[:PROCESSORS],           # texts: the page's numbers end at 53 bits
                "flags": [flags[at:at + FLAGS] for at in range(0, len(flags), FLAGS)],
                "router": list(map(message_shown, self.machine.messages(self.chip)))}


def message_shown(message: Message) -> JsonObject:
    """A message as the page shows it."""
    return {"relative": message.rel, "toChip": message.to_chip, "toProcessor": message.to_processor,
            "payload": f"0x{message.payload:08x}", "chip": message.chip, "processor": message.processor,
            "birth": str(message.birth)}
