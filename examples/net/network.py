"""The front end of the net: `python3 network.py KNOWLEDGE QUESTIONS IMAGE OUT` puts each thing and each statement
into a processor of its own, and answers questions by marks that go along the statements.
"""
import sys

from linthofer import Machine

statements = [line.split() for line in open(sys.argv[1])]
things = sorted({thing for subject, _, object in statements for thing in (subject, object)})
relations = ["none"] + sorted({relation for _, relation, _ in statements})
FIELDS = {"number": (0, 8), "kind": (8, 8), "up": (16, 8), "hasup": (24, 1), "object": (25, 8), "down": (33, 8),
          "hasdown": (41, 1), "subject": (42, 8), "wanted": (56, 8), "seen": (64, 1), "told": (65, 1), "fresh": (66, 1),
          "asks": (67, 1), "mark": (68, 1), "rel": (3968, 4), "place": (3984, 4)}
ENDS = {"up": "object", "down": "subject"}
place = lambda number: f"{number // 16} {number % 16}"


def records():
    """Of each processor its fields. A thing tells the first statement about it, and that the next: `up` those of which
    it is the subject, `down` those of which it is the object.
    """
    found = [{"number": number} for number in range(len(things))]
    for subject, relation, object in statements:
        found.append({"number": len(found), "kind": relations.index(relation),
                      "subject": things.index(subject), "object": things.index(object)})
        for way, end in ("up", things.index(subject)), ("down", things.index(object)):
            while way in found[end]:
                end = found[end][way]
            found[end].update({way: len(found) - 1, "has" + way: 1})
    return found


def tell(machine, to):
    """Who asks tells the one whose number stands in a field; `told` is where that came."""
    machine.ask(f"move place {to}place\nmove rel {to}chip\n" + "\n".join(
        f"nano {3968 + bit} {4 + bit} 8 8 8 0 0x3c 0x00 n" for bit in range(4)) + "\nnano 67 67 8 12 8 0 0xf0 0xf0 n")
    quiet = 0
    while quiet < 2:
        machine.ask("""
            cycle
            nano 65 65 14 8 8 0 0xfa 0x00 n                     ; told := told or RECV
            nano 0 0 12 9 8 0 0xf0 0xaa n                       ; GLOBAL := SEND or RECV
            nano 0 0 8 9 14 1 0xf0 0xff n
            clear 14""")
        quiet = 0 if machine.wire() else quiet + 1


def spread(machine, relation, way):
    """From what is seen on to all that is reached by statements of a relation."""
    machine.ask(f"move fresh seen\nconst wanted {relations.index(relation)}")
    is_fresh = True
    while is_fresh:
        machine.ask(f"const told 0\nmove asks has{way}\nnano 67 66 8 8 8 0 0xc0 0x00 n")
        tell(machine, way)                                      # the next statement about the same
        machine.ask("equal kind wanted\nnano 67 66 7 8 8 0 0x88 0x00 n")
        tell(machine, ENDS[way])                                # a statement of that relation: its other end
        machine.ask("""
            move fresh told
            nano 66 64 8 8 8 0 0x30 0x00 n                      ; fresh := told and not seen
            nano 64 65 8 8 8 0 0xfc 0x00 n                      ; seen := seen or told
            nano 66 66 8 9 8 0 0xf0 0xf0 n                      ; GLOBAL := fresh""")
        is_fresh = machine.wire()


def answer(machine, words):
    """The things that a question asks for: `RELATION of THING`, or `all THING THING..`."""
    if words[1] == "of":
        machine.ask(f"const seen 0\npoke {place(things.index(words[2]))} 64 1")
        spread(machine, "is", "up")
        machine.ask("move mark seen")
        spread(machine, words[0], "up")
        machine.ask("nano 68 64 8 8 8 0 0x0c 0x00 n")           # mark := seen and not mark
    else:
        machine.ask("const mark 1")
        for thing in words[1:]:
            machine.ask(f"const seen 0\npoke {place(things.index(thing))} 64 1")
            spread(machine, "is", "down")
            machine.ask("nano 68 64 8 8 8 0 0xc0 0x00 n")       # mark := mark and seen: whoever has all marks, at once
    told = machine.ask("\n".join(f"field {place(number)} 68 1" for number in range(len(things))))
    return [thing for thing, it in zip(things, told) if it == "field 1"]


with Machine.load(sys.argv[3]) as machine:
    machine.ask("\n".join(f"field {name} {at} {length}" for name, (at, length) in FIELDS.items()))
    for name, (at, length) in FIELDS.items():
        if length == 8:
            machine.ask(f"field {name}place {at} 4\nfield {name}chip {at + 4} 4")
    for number, record in enumerate(records()):
        machine.ask("\n".join(f"poke {place(number)} {FIELDS[name][0] + bit} {value >> bit & 1}"
                              for name, value in record.items() for bit in range(FIELDS[name][1])))
    for line in open(sys.argv[2]):
        print(line.strip() + ":", *answer(machine, line.split()))
    machine.save(sys.argv[4])
