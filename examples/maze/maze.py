"""Prints a maze of 128 by 128 dots as a picture (PBM), walls black. The same each time."""
import random

random.seed(1961)
SIDE = 63                                               # rooms, each with a dot of wall around it
draw = lambda count: int(count * random.random())
dots = [[1] * 128 for _ in range(128)]
dots[1][1] = 0
border = [(0, 0)]                                       # rooms that may have closed neighbours
while border:
    row, column = border[-1] if draw(10) < 7 else border[draw(len(border))]
    around = [(row - 1, column), (row, column + 1), (row + 1, column), (row, column - 1)]
    closed = [(down, right) for down, right in around
              if 0 <= down < SIDE and 0 <= right < SIDE and dots[2 * down + 1][2 * right + 1]]
    if closed:
        to = closed[draw(len(closed))]
        dots[row + to[0] + 1][column + to[1] + 1] = dots[2 * to[0] + 1][2 * to[1] + 1] = 0
        border.append(to)
    else:
        border.remove((row, column))
for _ in range(120):                                    # some more doors, so that there are several ways
    row, column = 1 + draw(2 * SIDE - 1), 1 + draw(2 * SIDE - 1)
    if (row + column) % 2:
        dots[row][column] = 0
print("P1\n128 128")
print("\n".join(" ".join(map(str, line)) for line in dots))
