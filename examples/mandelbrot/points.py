"""Prints a coordinate of the point of each of 256 by 256 processors, row by row: `python3 points.py x` or `y`.
Numbers have 32 bits, of which twelve are behind the point; those below 0 are told as 2^32 more.
"""
import sys

STEP = 40                                   # from dot to dot, of 4,096: a hundredth
for row in range(256):
    for column in range(256):
        at = -3072 + STEP * column - 127 * STEP if sys.argv[1] == "x" else 127 * STEP - STEP * row
        print(at % 2**32)
