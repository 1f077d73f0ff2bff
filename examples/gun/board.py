"""Prints a board of 256 by 256 cells as a picture (PBM): `python3 board.py DRAWING` puts the drawing near its
north-west corner.
"""
import sys

drawing = open(sys.argv[1]).read().split()
board = [["0"] * 256 for _ in range(256)]
for row, line in enumerate(drawing, 4):
    for column, sign in enumerate(line, 4):
        board[row][column] = "1" if sign == "#" else "0"
print("P1\n256 256")
print("\n".join(" ".join(line) for line in board))
