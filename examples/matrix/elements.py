"""Prints the elements of a matrix of 256 by 256, drawn from 0 to 15: `python3 elements.py SEED`. The same each time."""
import random
import sys

random.seed(int(sys.argv[1]))
for _ in range(256):
    print(" ".join(str(int(16 * random.random())) for _ in range(256)))
