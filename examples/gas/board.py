"""Prints a gas in 256 by 256 processors, row by row, four bits each: `python3 board.py DRAWING`. Where the drawing
has a #, sixteen by sixteen places have particles, each of the four directions with even chance; there are none
elsewhere. The same each time.
"""
import random
import sys

random.seed(1976)
drawing = open(sys.argv[1]).read().split()
gas = [[0] * 256 for _ in range(256)]
for row in range(256):
    for column in range(256):
        if drawing[row // 16][column // 16] == "#":
            gas[row][column] = int(16 * random.random())
print("\n".join(" ".join(map(str, line)) for line in gas))
