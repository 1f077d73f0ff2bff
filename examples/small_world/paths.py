"""The front end: `python3 paths.py ACQUAINTANCES FAR`. All people tell the three whom they know how far it is from person 0
to themselves, as far as they have heard; so often that nobody hears of a shorter way.
"""
import sys

from linthofer import Machine

with Machine(dims=12) as machine:
    number = machine.place()                                # a person for each processor
    acquaintance = machine.field(16)
    acquaintance[:] = map(int, open(sys.argv[1]).read().split())
    known = number + 1, number - 1, acquaintance
    far = machine.field(8)                                  # how far it is; 255: not known
    far[:] = 255
    far[0, 0] = 0
    rounds, is_told = 0, True
    while is_told:
        cycles = []
        heard = machine.field(8)
        heard[:] = 254
        for person in known:
            came = machine.send(far, to=person)
            cycles.append(came.cycles)
            with machine.where(came.value < heard):
                heard[:] = came.value
        heard += 1
        is_shorter = heard < far
        with machine.where(is_shorter):
            far[:] = heard
        is_told = machine.any(is_shorter)                   # a look at the global wire
        rounds += 1
        print("round", rounds, "petit cycles", *cycles)
    with open(sys.argv[2], "w") as file:
        print(*far, sep="\n", file=file)
