"""The maze's front end: `python3 flood.py IMAGE OUT`. The water rises from the north-west corner until the wire tells
that it is in the south-east; then the way is marked back from there.
"""
import sys

from linthofer import Machine

WAYS = {"n": 4, "e": 5, "s": 6, "w": 7}                     # where each keeps that the water came in this direction
BACK = {"n": "s", "e": "w", "s": "n", "w": "e"}


def place(row, column):
    """Chip and processor."""
    return f"{32 * (row // 4) + column // 4} {4 * (row % 4) + column % 4}"


flood = "nano 2 1 8 8 8 0 0xcc 0x00 n\n"                    # before := wet
for way, bit in WAYS.items():
    flood += f"""
        nano 3 3 8 10 8 0 0xf0 0xf0 {way}                   ; NEWS := the neighbour's front
        nano {bit} 1 10 8 8 0 0xf2 0x00 n                   ; it came this way, if it came and this place is not wet
        nano 1 {bit} 8 8 8 0 0xfc 0x00 n                    ; now it is"""
flood += """
    nano 3 1 8 8 8 0 0xcc 0x00 n
    nano 3 2 8 8 8 0 0x30 0x00 n                            ; front := wet and not before
    nano 3 3 8 0 8 0 0xf0 0xf0 n                            ; flag 0 too
    nano 11 3 8 9 8 0 0xf0 0xc0 n                           ; GLOBAL := front and goal"""
back = "const next 0"
for way, bit in WAYS.items():
    back += f"""
        nano 8 {bit} 8 10 8 0 0xf0 0xc0 {BACK[way]}         ; NEWS := the neighbour's mark, if the water came from here
        nano 10 10 10 8 8 0 0xfa 0x00 n"""
back += """
    nano 8 10 8 8 8 0 0xcc 0x00 n                           ; mark := next
    nano 9 8 8 8 8 0 0xfc 0x00 n                            ; way := way or mark
    nano 8 8 8 9 8 0 0xf0 0xf0 n                            ; GLOBAL := mark"""

with Machine.load(sys.argv[1]) as machine:
    machine.ask(f"""
        field wall 0 1                                      ; painted before
        field wet 1 1                                       ; walls too
        field before 2 1
        field front 3 1
        field mark 8 1
        field way 9 1
        field next 10 1
        field goal 11 1
        field shade 16 2
        field steps 24 12
        move wet wall
        poke {place(1, 1)} 1 1
        poke {place(1, 1)} 3 1
        poke {place(125, 125)} 11 1""")
    steps = 0
    while not steps or not machine.wire():
        steps += 1
        machine.ask(f"{flood}\nif 0\nconst steps {steps}\nalways")
    print("steps", steps)

    machine.ask("move mark goal\nmove way goal\nnano 8 8 8 9 8 0 0xf0 0xf0 n")
    places = 0
    while machine.wire():
        places += 1
        machine.ask(back)
    print("places", places)

    machine.ask("""
        const shade 2                                       ; a picture: way white, dry and wet grey, walls black
        nano 1 1 8 0 8 0 0xf0 0xf0 n
        if 0
        const shade 1
        nano 9 9 8 0 8 0 0xf0 0xf0 n
        const shade 3
        nano 0 0 8 0 8 0 0xf0 0xf0 n
        const shade 0""")
    machine.save(sys.argv[2])
