"""The front end of Batcher's sort: `python3 bitonic.py IMAGE OUT`. In each step all compare their key with that of
one whose number differs in one bit, which comes by a message.
"""
import sys

from linthofer import Machine

with Machine.load(sys.argv[1]) as machine:
    machine.ask("""
        field number 0 13                                       ; put there before; bit 12 is 0
        field place 0 4
        field key 16 16                                         ; and this
        field rel 3968 16                                       ; the message
        field to 3984 4
        field sent 3988 16
        field came 4032 16""")
    steps = cycles = 0
    for run in range(1, 13):                                    # sorts 2^run keys each, up and down by turns
        for bit in reversed(range(run)):
            steps += 1
            machine.ask(f"const rel {2**bit >> 4}\nmove to place\nmove sent key")
            if bit < 4:
                machine.ask(f"nano {3984 + bit} 0 8 8 8 0 0x0f 0x00 n")
            machine.ask("set 12")
            asked = True
            while asked:
                cycles += 1
                machine.ask("cycle\nnano 0 0 14 9 8 0 0xf0 0x55 n")     # GLOBAL := not RECV
                asked = machine.wire()
            machine.ask(f"""
                less came key
                nano {bit} {run} 7 3 8 0 0xf0 0x96 n            ; flag 3: less, and I keep the smaller, or neither
                if 3
                move key came
                always
                clear 14""")
    machine.save(sys.argv[2])
    print(steps, "steps", cycles, "petit cycles")
