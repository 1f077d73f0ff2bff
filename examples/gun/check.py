"""The same board by a plain program, over the set of living cells."""
import collections

SIDE = 256
dots = open("board.pbm").read().split()[3:]
cells = {divmod(at, SIDE) for at, dot in enumerate(dots) if dot == "1"}
counts = []
for generation in range(1, 901):
    around = collections.Counter(((row + down) % SIDE, (column + right) % SIDE) for row, column in cells
                                 for down in (-1, 0, 1) for right in (-1, 0, 1) if down or right)
    cells = {cell for cell, count in around.items() if count == 3 or count == 2 and cell in cells}
    if generation % 30 == 0:
        counts.append(len(cells))
assert counts == [36 + 5 * turn for turn in range(1, 31)], "the gun"
assert list(map(int, open("counts").read().split())) == counts, "how many live"
dots = open("after.pbm").read().split()[3:]
assert {divmod(at, SIDE) for at, dot in enumerate(dots) if dot == "1"} == cells, "the board"
