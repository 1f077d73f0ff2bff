"""Counts how often each grey occurs: `python3 histogram.py IMAGE OUT`. Each processor sends a message to the one that
counts its grey: for grey g that is processor 0 of chip 16 * g.
"""
import sys

from linthofer import Machine

with Machine.load(sys.argv[1]) as machine:
    machine.ask("""
        field dot 0 8                                       ; put there before, and one's own number at 80
        field count 96 16
        field one 112 16
        field rel 3968 12                                   ; the message
        field reltop 3972 8
        field place 3984 4
        const count 0
        const one 1
        const place 0
        const rel 0
        move reltop dot""")
    # rel := rel xor one's own chip
    machine.ask("\n".join(f"nano {3968 + bit} {84 + bit} 8 8 8 0 0x3c 0x00 n" for bit in range(12)))
    machine.ask("set 12")
    cycles = quiet = 0
    while quiet < 3:
        cycles += 1
        machine.ask("""
            cycle
            nano 0 0 12 9 8 0 0xf0 0xaa n                   ; GLOBAL := SEND, or RECV
            nano 0 0 8 9 14 1 0xf0 0xff n
            if 14
            add count one
            always
            clear 14""")
        quiet = 0 if machine.wire() else quiet + 1
    print(cycles, "petit cycles", file=sys.stderr)
    counts = machine.numbers(96, 16)[::256]                 # those of the processors 0 of every sixteenth chip
    machine.save(sys.argv[2])
for grey, count in enumerate(counts):
    print(grey, count)
if sum(counts) != 65536:
    sys.exit(f"{sum(counts)} of 65536 were counted: has each processor its own number at 80?")
