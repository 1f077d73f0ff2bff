"""The sieve's front end: `python3 sieve.py IMAGE OUT`. It finds the least number that is left, by looks at the global
wire, and has its multiples struck out; then the next.
"""
import sys

from linthofer import Machine

BITS = 17                                       # of a number
with Machine.load(sys.argv[1]) as machine:
    machine.ask(f"""
        field number 0 {BITS}                   ; put there before
        field rest   {BITS} {BITS}
        field part   {2 * BITS} {BITS}
        field zero   {3 * BITS} {BITS}
        const part 1
        less part number
        nano 0 0 7 2 8 0 0xf0 0xaa n            ; flag 2: neither struck out nor tried; at first all from 2
        field prime  {4 * BITS} 1
        const prime 0""")
    while True:
        machine.ask("nano 0 0 2 4 8 0 0xf0 0xaa n")                     # flag 4: may be the least of these
        least = 0
        for bit in reversed(range(BITS)):
            machine.ask(f"nano {bit} {bit} 4 9 8 0 0xf0 0x0a n")        # GLOBAL := flag 4 and not the bit
            if machine.wire():
                machine.ask(f"nano {bit} {bit} 4 4 8 0 0xf0 0x0a n")    # one has a 0 there: out are those with a 1
            else:
                least += 2**bit
        if least > 256:
            break
        print(least)
        machine.ask("if 4\nconst prime 1\nalways\nmove rest number")
        for places in reversed(range(BITS - least.bit_length() + 1)):   # rest := the remainder of number by the least
            machine.ask(f"""
                const part {least << places}
                less rest part
                nano 0 0 7 5 8 0 0xf0 0xaa n
                unless 5
                sub rest part
                always""")
        machine.ask("equal rest zero\nif 7\nclear 2\nalways")           # itself and its multiples
    machine.ask("if 2\nconst prime 1\nalways")                          # what nothing up to 256 divides is prime
    machine.save(sys.argv[2])
