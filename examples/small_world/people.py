"""Prints for each of 65,536 people the number of an acquaintance, who has this one too: `python3 people.py SHARE`. Of
a thousand SHARE have one, the others have themselves. The same each time.
"""
import random
import sys

random.seed(1988)
numbers = sorted(range(65536), key=lambda _: random.random())[:65536 * int(sys.argv[1]) // 2000 * 2]
acquaintance = list(range(65536))
for one, other in zip(numbers[::2], numbers[1::2]):
    acquaintance[one], acquaintance[other] = other, one
print("\n".join(map(str, acquaintance)))
