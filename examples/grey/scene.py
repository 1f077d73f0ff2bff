"""Prints a noisy grey picture of 256 by 256 dots (PGM): a ball above a chequered floor. The same each time."""
import math
import random

random.seed(1980)


def light(row, column):
    """From 0 to 1."""
    across, up = (column - 128) / 75, (row - 105) / 75
    if across * across + up * up < 1:                           # the ball, lit from the upper left
        return 0.15 + 0.8 * max(0, (math.sqrt(1 - across * across - up * up) - across - up) / math.sqrt(3))
    if row < 150:
        return 0.35 + row / 500                                 # the sky
    far = 40 / (row - 130)
    near = math.hypot(across - 0.4, (row - 195) / 28) < 1.2     # the ball's shadow
    return (0.7 if (math.floor(far * 8) + math.floor(far * across * 4)) % 2 else 0.3) - 0.2 * near


print("P2\n256 256\n255")
for row in range(256):
    dots = [int(255 * light(row, column) + 40 * (random.random() - 0.5)) for column in range(256)]
    print(*(max(0, min(255, dot)) for dot in dots))
