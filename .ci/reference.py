"""The machine, its texts, its sessions and its exchange once more, plainly, by docs/MACHINE.md, FORMATS.md, DEBUGGER.md
and WEAVE.md alone.

Nothing here is taken from the library, and it may be slow. A plane is a whole number whose bit 16 * chip + processor is the
bit of that processor. `.ci/drawn` holds `cm1` beside it.
"""
import re

ZERO, GLOBAL, NEWS, DAISY, SEND, ACK, RECV = 8, 9, 10, 11, 12, 13, 14
LAST_CLOCK = 2**63 - 1
NAMES = {1: "Width", 2: "Range", 3: "ZeroFlag", 5: "Cap", 6: "Long", 7: "Clock", 10: "Overlap", 11: "Lengths", 12: "Scratch",
         13: "Context", 15: "Word", 16: "Operands", 17: "Number", 18: "Name", 19: "Twice", 20: "TooLong", 21: "Short",
         22: "Magic", 23: "Version", 24: "Shape", 25: "Order", 26: "Count", 27: "Value", 28: "TagTwice", 29: "Extra",
         30: "Read", 31: "Write", 32: "TooMuch", 35: "Unfinished", 36: "Workers", 37: "Split"}


class Fault(Exception):
    """A refusal by its number; `line` counts from 1 where it is a line's."""

    def __init__(self, number, line=None):
        self.number, self.line = number, line


# ---- texts ----------------------------------------------------------------------------------------------------------

def lines(text):
    """The lines of a text; bytes after the last LF are one only if there are any."""
    parts = text.split(b"\n")
    return parts if parts[-1] else parts[:-1]


def words(line):
    return [it for it in re.split(rb"[ \t\r]+", line.split(b";")[0]) if it]


def number(word, below=2**64):
    """The number of a word; None if it is none, or not below the bound."""
    if not re.fullmatch(rb"[0-9]+|0x[0-9a-fA-F]+", word):
        return None
    value = int(word[2:], 16) if word[:2] == b"0x" else int(word)
    return value if value < below else None


# ---- the machine ----------------------------------------------------------------------------------------------------

class Message:
    def __init__(self, rel, proc, payload, chip, origin, birth):
        self.rel, self.proc, self.payload, self.tag = rel, proc, payload, (chip, origin, birth)

    def told(self, word):
        return "%s %d %d 0x%08x %d %d %d\n" % (word, self.rel, self.proc, self.payload, *self.tag)


class Machine:
    def __init__(self, dims, room):
        self.dims, self.room, self.clock = dims, room, 0
        self.chips = 2**dims
        self.cuts, self.rule = set(), 0                              # cut wires, each by its lower chip and its dimension
        self.memory, self.flags = {}, [0] * 16                       # planes; a plane of memory that is 0 is not kept
        self.buffers = [[] for _ in range(self.chips)]               # of each chip: (since, message), the least since first
        self.logs = [[] for _ in range(self.chips)]                  # of each chip: (word, message)
        self.cycles = 0                                              # for since: petit cycles of this run, from 1
        self.all = 2 ** (16 * self.chips) - 1
        across, down = 4 * 2 ** (dims // 2), 4 * 2 ** (dims - dims // 2)
        self.at = {}
        for place in range(16 * self.chips):
            chip, proc = divmod(place, 16)
            row, column = 4 * (chip // (across // 4)) + proc // 4, 4 * (chip % (across // 4)) + proc % 4
            self.at[row, column] = place
        steps = {"n": (-1, 0), "e": (0, 1), "w": (0, -1), "s": (1, 0)}
        self.leads = {way: [(place, self.at[(row + y) % down, (column + x) % across])
                            for (row, column), place in self.at.items()] for way, (y, x) in steps.items()}

    def bit(self, place, address):
        return self.memory.get(address, 0) >> place & 1

    def field(self, place, address, length):
        return sum(self.bit(place, address + k) << k for k in range(length))

    def put_bit(self, place, address, bit):
        self.memory[address] = self.memory.get(address, 0) & ~(1 << place) | bit << place

    def put_field(self, place, address, length, value):
        for k in range(length):
            self.put_bit(place, address + k, value >> k & 1)

    def flag(self, place, flag):
        return self.flags[flag] >> place & 1

    def put_flag(self, place, flag, bit):
        if flag != ZERO:
            self.flags[flag] = self.flags[flag] & ~(1 << place) | bit << place

    def wire(self):
        return int(self.flags[GLOBAL] != 0)

    def instruct(self, a, b, read, write, cond, sense, memory_table, flag_table, way):
        old = self.memory.get(a, 0), self.memory.get(b, 0), self.flags[read]

        def output(table):
            plane = 0
            for entry in range(8):
                if table >> entry & 1:
                    here = self.all
                    for bit, of in zip((4, 2, 1), old):
                        here &= of if entry & bit else ~of
                    plane |= here
            return plane

        holds = self.flags[cond] if sense else self.all & ~self.flags[cond]
        stored = output(flag_table)
        if write == NEWS:
            stored = sum((stored >> place & 1) << to for place, to in self.leads[way])
        elif write == DAISY:
            stored = sum((stored >> place & 1) << place + 1 for place in range(16 * self.chips) if place % 16 != 15)
        self.memory[a] = old[0] & ~holds | output(memory_table) & holds
        if write != ZERO:
            self.flags[write] = self.flags[write] & ~holds | stored & holds

    def is_cut(self, chip, dim):
        return (min(chip, chip ^ 1 << dim), dim) in self.cuts

    def turn(self, it):
        """Whose is less goes first, by the machine's rule."""
        since, message = it
        chip, proc, birth = message.tag
        return (birth, chip, proc, since) if self.rule else since

    def cycle(self, look=lambda dim: None):
        """A petit cycle; who looks on is told before each dimension, and before delivery None."""
        self.inject()
        for dim in range(self.dims):
            look(dim)
            self.cross(dim)
        look(None)
        self.deliver()

    def inject(self):
        self.cycles += 1
        taken = 0
        for chip, here in enumerate(self.buffers):
            senders = [16 * chip + proc for proc in range(16) if self.flag(16 * chip + proc, SEND)]
            for place in senders[:min(4, self.room - len(here))]:
                sent = Message(self.field(place, 3968, 16) % self.chips, self.field(place, 3984, 4),
                               self.field(place, 3988, 32), chip, place % 16, self.clock)
                here.append(((self.cycles, place % 16), sent))
                self.logs[chip].append(("in", Message(sent.rel, sent.proc, sent.payload, *sent.tag)))
                taken |= 1 << place
        self.flags[SEND] &= ~taken
        self.flags[ACK] = taken

    def leaver(self, chip, dim):
        """Who leaves a chip in a dimension, if anybody does."""
        here = self.buffers[chip]
        crossing = [it for it in here if it[1].rel >> dim & 1]
        if (crossing or len(here) == self.room) and not self.is_cut(chip, dim):
            return min(crossing, key=self.turn) if crossing else max(here, key=self.turn)
        return None

    def cross(self, dim):
        leavers = [(chip, self.leaver(chip, dim)) for chip in range(self.chips)]
        for chip, it in leavers:
            if it:
                self.buffers[chip].remove(it)
        for chip, it in leavers:
            if it:
                it[1].rel ^= 1 << dim
                self.buffers[chip ^ 1 << dim].append(((self.cycles, 16 + dim), it[1]))

    def deliver(self):
        for chip, here in enumerate(self.buffers):
            arrived = {}
            for it in here:
                if it[1].rel == 0:
                    arrived.setdefault(it[1].proc, it)
            for it in [it for it in here if arrived.get(it[1].proc) is it and not self.flag(16 * chip + it[1].proc, RECV)]:
                here.remove(it)
                self.put_field(16 * chip + it[1].proc, 4032, 32, it[1].payload)
                self.put_flag(16 * chip + it[1].proc, RECV, 1)
                self.logs[chip].append(("out", it[1]))
        self.clock += 1

    def do(self, act):
        """One act: an instruction's operands, "cycle" or "sense"."""
        if act == "cycle":
            self.cycle()
        elif act != "sense":
            self.instruct(*act)

    def find(self, tag):
        for chip, here in enumerate(self.buffers):
            if any(message.tag == tag for _, message in here):
                return "router %d" % chip
        for chip, log in enumerate(self.logs):
            for word, message in log:
                if word == "out" and message.tag == tag:
                    return "delivered %d %d" % (chip, message.proc)
        return "unknown"


# ---- images ---------------------------------------------------------------------------------------------------------

def image_text(machine):
    version = 2 if machine.cuts or machine.rule else 1
    out = [b"CM1I", bytes([version, machine.dims, machine.room, machine.rule]), machine.clock.to_bytes(8, "big")]
    if version == 2:
        out.append(len(machine.cuts).to_bytes(2, "big"))
        out += [chip.to_bytes(2, "big") + bytes([dim]) for chip, dim in sorted(machine.cuts)]
    for chip in range(machine.chips):
        part = lambda plane: (plane >> 16 * chip & 0xFFFF).to_bytes(2, "big")
        out += [part(plane) for plane in machine.flags]
        planes = [(address, part(plane)) for address, plane in sorted(machine.memory.items()) if part(plane) != b"\0\0"]
        out.append(len(planes).to_bytes(2, "big"))
        out += [address.to_bytes(2, "big") + plane for address, plane in planes]
        out.append(bytes([len(machine.buffers[chip])]))
        for _, it in machine.buffers[chip]:
            out.append(it.rel.to_bytes(2, "big") + bytes([it.proc]) + it.payload.to_bytes(4, "big")
                       + it.tag[0].to_bytes(2, "big") + bytes([it.tag[1]]) + it.tag[2].to_bytes(8, "big"))
    return b"".join(out)


class Bytes:
    def __init__(self, text):
        self.text, self.at = text, 0

    def take(self, count, fault=None, is_right=lambda value: True):
        """The number of the next bytes: 21 where they are not all there, and then the part's own fault."""
        part = self.text[self.at:self.at + count]
        if len(part) < count:
            raise Fault(21)
        self.at += count
        value = int.from_bytes(part, "big")
        if not is_right(value):
            raise Fault(fault)
        return value


def shape(text):
    """Dimension and room, version and rule, by the first five parts."""
    head = Bytes(text)
    head.take(4, 22, lambda it: it == 0x434D3149)
    version = head.take(1, 23, lambda it: it in (1, 2))
    dims = head.take(1, 24, lambda it: it <= 12)
    room = head.take(1, 24, lambda it: 1 <= it <= 15)
    rule = head.take(1, 24, lambda it: it < version)
    return head, dims, room, version, rule


def read_cuts(head, machine):
    """The cut wires of version 2, each behind the one before."""
    most = machine.dims * machine.chips // 2
    before = -1, 0
    for _ in range(head.take(2, 26, lambda it: it <= most and (it or machine.rule))):
        chip = head.take(2, 27, lambda it: it < machine.chips)
        dim = head.take(1, 27, lambda it: it < machine.dims and not chip >> it & 1)
        if (chip, dim) <= before:
            raise Fault(25)
        before = chip, dim
        machine.cuts.add(before)


def read_image(text):
    head, dims, room, version, rule = shape(text)
    machine = Machine(dims, room)
    machine.rule = rule
    machine.clock = head.take(8, 27, lambda it: it < 2**63)
    if version == 2:
        read_cuts(head, machine)
    for chip in range(machine.chips):
        for flag in range(16):
            machine.flags[flag] |= head.take(2, 27, lambda it: flag != ZERO or it == 0) << 16 * chip
        above = -1
        for _ in range(head.take(2, 26, lambda it: it <= 4096)):
            address = head.take(2, 27, lambda it: it <= 4095)
            if address <= above:
                raise Fault(25)
            above = address
            plane = head.take(2, 25, lambda it: it != 0)
            machine.memory[address] = machine.memory.get(address, 0) | plane << 16 * chip
        for place in range(head.take(1, 26, lambda it: it <= room)):
            message = Message(head.take(2, 27, lambda it: it < machine.chips), head.take(1, 27, lambda it: it <= 15), head.take(4),
                              head.take(2, 27, lambda it: it < machine.chips), head.take(1, 27, lambda it: it <= 15),
                              head.take(8, 27, lambda it: it < machine.clock))
            machine.buffers[chip].append(((0, place), message))
    messages = [message.tag for here in machine.buffers for _, message in here]
    if len(set(messages)) < len(messages):
        raise Fault(28)
    if head.at < len(text):
        raise Fault(29)
    return machine


# ---- programs -------------------------------------------------------------------------------------------------------

class Program:
    """The fields of a text in order, and what its lines ask for, macros as they are written."""

    def __init__(self):
        self.fields, self.asked, self.context = {}, [], None


OPERANDS = {b"field": "dll", b"if": "f", b"unless": "f", b"always": "", b"add": "nn", b"sub": "nn", b"less": "nn",
            b"equal": "nn", b"move": "nn", b"select": "nnf", b"const": "nv", b"shift": "n", b"mul": "nnn", b"set": "f",
            b"clear": "f", b"nano": "aafffstty", b"cycle": "", b"sense": ""}
BELOW = {"l": 2**16, "f": 16, "v": 2**64, "a": 4096, "s": 2, "t": 256}
WRITES = {b"add": [7], b"sub": [7], b"less": [7], b"equal": [7], b"shift": [7], b"mul": [6, 7]}


def operand(kind, word, fields):
    if kind == "y":
        if word not in (b"n", b"e", b"w", b"s"):
            raise Fault(16)
        return word.decode()
    if kind == "d":
        if not re.fullmatch(rb"[A-Za-z][A-Za-z0-9_]*", word):
            raise Fault(18)
        if word in fields:
            raise Fault(19)
        return word
    if kind == "n":
        if word not in fields:
            raise Fault(18)
        return fields[word]
    value = number(word, BELOW[kind])
    if value is None:
        raise Fault(17)
    return value


def is_one_or_apart(x, y):
    return x == y or x[0] + x[1] <= y[0] or y[0] + y[1] <= x[0]


def read_line(program, line, words_known=OPERANDS):
    first, *rest = words(line)
    if first not in words_known:
        raise Fault(15)
    if len(rest) != len(OPERANDS[first]):
        raise Fault(16)
    given = [operand(kind, word, program.fields) for kind, word in zip(OPERANDS[first], rest)]
    if first == b"field":
        name, at, length = given
        if not 1 <= length <= 64:
            raise Fault(1)
        if at + length > 4096:
            raise Fault(2)
        program.fields[name] = at, length
    elif first in (b"if", b"unless", b"always"):
        program.context = (given[0], int(first == b"if")) if given else None
    elif first in (b"nano", b"cycle", b"sense"):
        program.asked.append((first, given, None))
    else:
        of = [it for it, kind in zip(given, OPERANDS[first]) if kind == "n"]
        if not all(is_one_or_apart(x, y) for x in of for y in of) or first == b"mul" and of[0] in of[1:]:
            raise Fault(10)
        if len({length for _, length in of}) > 1 or first == b"const" and given[1] >> given[0][1]:
            raise Fault(11)
        written = WRITES.get(first, given if first in (b"set", b"clear") else [])
        if any(flag in (8, 10, 11) or program.context and flag == program.context[0] for flag in written):
            raise Fault(12)
        if first == b"mul" and program.context:
            raise Fault(13)
        program.asked.append((first, given, program.context))


def read_program(text, words_known=OPERANDS):
    program = Program()
    for count, line in enumerate(lines(text), 1):
        if words(line):
            try:
                read_line(program, line, words_known)
            except Fault as fault:
                raise Fault(fault.number, count)
    return program


def read_listing(text):
    """The acts of a listing, by its own index."""
    acts = []
    for line in lines(text):
        first, *rest = words(line)
        if first == b"nano":
            acts.append(tuple(number(it) for it in rest[:-1]) + (rest[-1].decode(),))
        elif first in (b"cycle", b"sense"):
            acts.append(first.decode())
        if first != b"field":
            assert line.endswith(b"; %d" % (len(acts) - 1)), line
    return acts


def have_effect(machine, program):
    """What the lines of a program come to, macros by what they say and not by their acts."""
    for first, given, context in program.asked:
        if first == b"nano":
            machine.instruct(*given)
        elif first == b"cycle":
            machine.cycle()
        elif first != b"sense":
            for place in range(16 * machine.chips):
                if context is None or machine.flag(place, context[0]) == context[1]:
                    have_effect_at(machine, place, first, given)


def have_effect_at(machine, place, first, given):
    number_of = lambda it: machine.field(place, *it)
    if first in (b"set", b"clear"):
        machine.put_flag(place, given[0], int(first == b"set"))
        return
    to = given[0]
    below = 2 ** to[1]
    x = number_of(to)
    y = number_of(given[1]) if len(given) > 1 and first != b"const" else None
    if first == b"add":
        value, flag = x + y, (x + y) // below
    elif first == b"sub":
        value, flag = x - y, int(x >= y)
    elif first in (b"less", b"equal"):
        value, flag = x, int(x < y if first == b"less" else x == y)
    elif first == b"move":
        value, flag = y, None
    elif first == b"select":
        value, flag = (y if machine.flag(place, given[2]) else x), None
    elif first == b"const":
        value, flag = given[1], None
    elif first == b"shift":
        value, flag = 2 * x, 2 * x // below
    else:
        value, flag = y * number_of(given[2]), 0
        machine.put_flag(place, 6, 0)
    machine.put_field(place, *to, value % below)
    if flag is not None:
        machine.put_flag(place, 7, flag)


# ---- sessions -------------------------------------------------------------------------------------------------------

COMMANDS = {b"step": "", b"run": "", b"break": "i", b"clear": "i", b"wire": "w", b"field": "cpll", b"flag": "cpf",
            b"poke": "cpab", b"pokeflag": "cpfb", b"buf": "c", b"find": "cpn", b"events": "c", b"rule": ""}


class Session:
    def __init__(self, machine, acts):
        self.machine, self.acts, self.at, self.breaks, self.tells = machine, acts, 0, set(), False

    def command(self, line):
        first, *rest = words(line)
        if first not in COMMANDS:
            raise Fault(15)
        kinds = COMMANDS[first]
        if len(rest) != len(kinds) or kinds == "w" and rest[0] not in (b"on", b"off", b"show"):
            raise Fault(16)
        if kinds == "w":
            return first, [rest[0]]
        given = [number(it) for it in rest]
        if None in given:
            raise Fault(17)
        below = {"i": len(self.acts), "c": self.machine.chips, "p": 16, "a": 4096, "f": 16, "b": 2, "n": 2**64, "l": 2**64}
        if any(value >= below[kind] for kind, value in zip(kinds, given)):
            raise Fault(2)
        if first == b"field" and not 1 <= given[3] <= 64:
            raise Fault(1)
        if first == b"field" and given[2] + given[3] > 4096:
            raise Fault(2)
        if first == b"pokeflag" and given[2] == ZERO:
            raise Fault(3)
        return first, given

    def go(self, most):
        """Runs acts: as many as are asked for, up to a breakpoint, the end or the counter's last."""
        told = []
        while self.at < len(self.acts) and most > 0:
            act = self.acts[self.at]
            if act == "cycle" and self.machine.clock == LAST_CLOCK:
                return "".join(told) + "? 7\n"
            if act == "sense" and self.tells:
                told.append("sense %d %d\n" % (self.at, self.machine.wire()))
            self.machine.do(act)
            self.at += 1
            most -= 1
            if self.at in self.breaks:
                break
        return "".join(told) + ("end\n" if self.at == len(self.acts) else "at %d\n" % self.at)

    def answer(self, line):
        try:
            first, given = self.command(line)
        except Fault as fault:
            return "? %d\n" % fault.number
        machine = self.machine
        place = 16 * given[0] + given[1] if COMMANDS[first][:2] == "cp" else None
        if first == b"step":
            return self.go(1)
        if first == b"run":
            return self.go(len(self.acts))
        if first == b"break":
            self.breaks.add(given[0])
            return "break %d\n" % given[0]
        if first == b"clear":
            self.breaks.discard(given[0])
            return "clear %d\n" % given[0]
        if first == b"wire":
            if given[0] == b"show":
                return "wire %d\n" % machine.wire()
            self.tells = given[0] == b"on"
            return "wire %s\n" % given[0].decode()
        if first == b"field":
            return "field %d\n" % machine.field(place, given[2], given[3])
        if first == b"flag":
            return "flag %d\n" % machine.flag(place, given[2])
        if first == b"poke":
            machine.put_bit(place, given[2], given[3])
            return "ok\n"
        if first == b"pokeflag":
            machine.put_flag(place, given[2], given[3])
            return "ok\n"
        if first == b"find":
            return machine.find(tuple(given)) + "\n"
        if first == b"rule":
            return "rule %d\n" % machine.rule
        if first == b"buf":
            here = machine.buffers[given[0]]
            return "buf %d\n" % len(here) + "".join(message.told("msg") for _, message in here)
        log = machine.logs[given[0]]
        return "events %d\n" % len(log) + "".join(message.told(word) for word, message in log)


def session(machine, acts, commands):
    """The answers to all commands; the machine is changed. 32 after the lines that end within the limit."""
    it, limit = Session(machine, acts), 1_048_576
    within = commands if len(commands) <= limit else commands[:limit][:commands[:limit].rfind(b"\n") + 1]
    answers = "".join(it.answer(line) for line in lines(within) if words(line))
    return answers.encode(), 32 if len(commands) > limit else None


def chip_text(text):
    """What `cm1 chip` writes for a text of instructions."""
    program = read_program(text, (b"nano",))
    machine = Machine(0, 1)
    have_effect(machine, program)
    out = ["flag %d %04x\n" % (flag, plane) for flag, plane in enumerate(machine.flags)]
    out += ["plane %d %04x\n" % (address, plane) for address, plane in sorted(machine.memory.items()) if plane]
    return "".join(out).encode()


# ---- the exchange ---------------------------------------------------------------------------------------------------

STAGES = "grip", "file", "draw", "clear"
LANE = "empty", "held", "full", "drawn"


class World:
    """In which round each block stands and how many steps of it were taken, and what each lane is; no parcels."""

    def __init__(self, dims, acts, k):
        self.dims, self.k, self.lanes = dims, k, {}
        self.kinds = [kind for act in acts for kind in self.rounds(act)] if k else []
        self.stands = [[0, 0] for _ in range(2**k)]

    def rounds(self, act):
        if act == "cycle":
            return list(range(self.dims - self.k, self.dims))
        return [act[8]] if act != "sense" and act[3] == NEWS and act[8] in "ns" else []

    def giver(self, kind, block):
        if kind in ("n", "s"):
            return (block + (1 if kind == "n" else -1)) % 2**self.k
        return block ^ 1 << kind - self.dims + self.k

    def play(self, word, block, tries=False):
        """Takes a step, if it can be taken; whether it can."""
        stage = STAGES.index(word)
        at, taken = self.stands[block]
        if at == len(self.kinds) or taken != stage:
            return False
        lane = self.kinds[at], block if stage < 2 else self.giver(self.kinds[at], block)
        if self.lanes.get(lane, "empty") != LANE[stage]:
            return False
        if not tries:
            self.lanes[lane] = LANE[(stage + 1) % 4]
            self.stands[block] = [at, stage + 1] if stage < 3 else [at + 1, 0]
        return True

    def possible(self):
        return [(word, block) for block in range(2**self.k) for word in STAGES if self.play(word, block, True)]

    def is_finished(self):
        return all(at == len(self.kinds) for at, _ in self.stands)

    def answer(self, line):
        first, *rest = words(line)
        if first.decode("latin") not in STAGES:
            return "? 15\n"
        if len(rest) != 1:
            return "? 16\n"
        block = number(rest[0])
        if block is None:
            return "? 17\n"
        if block >= 2**self.k:
            return "? 2\n"
        return "ok\n" if self.play(first.decode(), block) else "? 34\n"


def begun(machine, acts, k):
    """The world of a run, or its fault."""
    cycles = acts.count("cycle")
    if len(acts) > 4096 or cycles > 64:
        raise Fault(6)
    if machine.clock + cycles > LAST_CLOCK:
        raise Fault(7)
    if k > machine.dims - machine.dims // 2:
        raise Fault(37)
    return World(machine.dims, acts, k)


def woven(world, steps):
    """What is told of a text of steps, and 32 or 35; of a world by itself, where there is no text."""
    if steps is None:
        told = []
        while world.possible():
            told.append("%s %d\n" % world.possible()[0])
            world.play(*world.possible()[0])
        return "".join(told + ["steps %d\nfinished\n" % len(told)]).encode(), None
    limit = 16_777_216
    within = steps if len(steps) <= limit else steps[:limit][:steps[:limit].rfind(b"\n") + 1]
    told = "".join(world.answer(line) for line in lines(within) if words(line))
    if len(steps) > limit:
        return told.encode(), 32
    end = world.is_finished()
    return (told + ("finished\n" if end else "unfinished\n")).encode(), None if end else 35
