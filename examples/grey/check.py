"""The same by a plain program."""
SIDE = 256


def picture(name):
    numbers = list(map(int, open(name).read().split()[1:]))
    assert numbers[:3] == [SIDE, SIDE, 255], name
    return [numbers[3 + SIDE * row:3 + SIDE * row + SIDE] for row in range(SIDE)]


def smooth(dots):
    rows = [[row[x - 1] + 2 * row[x] + row[(x + 1) % SIDE] for x in range(SIDE)] for row in dots]
    return [[(rows[y - 1][x] + 2 * rows[y][x] + rows[(y + 1) % SIDE][x]) // 16 for x in range(SIDE)]
            for y in range(SIDE)]


def edge(dots, y, x):
    across = abs(dots[y][x - 1] - dots[y][(x + 1) % SIDE])
    down = abs(dots[y - 1][x] - dots[(y + 1) % SIDE][x])
    return min(255, across + down)


dots = smooth(smooth(picture("scene.pgm")))
assert picture("smooth.pgm") == dots, "the smooth picture"
assert picture("edges.pgm") == [[edge(dots, y, x) for x in range(SIDE)] for y in range(SIDE)], "the edges"
counts = dict(tuple(map(int, line.split())) for line in open("counts"))
assert sum(counts.values()) == SIDE * SIDE, "a message is missing"
assert counts == {grey: sum(row.count(grey) for row in dots) for grey in range(256)}, "how often each grey occurs"
