"""The gas by a plain program, in which a row is a whole number of 256 bits."""
STEPS, ALL = 150, 2**256 - 1
gas = list(map(int, open("first").read().split()))
row = lambda bit, y: sum((it >> bit & 1) << x for x, it in enumerate(gas[256 * y:256 * y + 256]))
north, east, south, west = [[row(bit, y) for y in range(256)] for bit in range(4)]


def collide():
    for y in range(256):
        n, e, s, w = north[y], east[y], south[y], west[y]
        hit = (n & s & ~e & ~w | e & w & ~n & ~s) & ALL
        north[y], east[y], south[y], west[y] = n ^ hit, e ^ hit, s ^ hit, w ^ hit


collide()
for _ in range(STEPS):
    north = north[1:] + north[:1]
    south = south[-1:] + south[:-1]
    east = [(it << 1 | it >> 255) & ALL for it in east]
    west = [it >> 1 | (it & 1) << 255 for it in west]
    collide()
dots = [str(sum(way[y] >> x & 1 for way in (north, east, south, west))) for y in range(256) for x in range(256)]
assert open("middle.pgm").read().split()[4:] == dots, "the gas in the middle"
assert list(map(int, open("last").read().split())) == gas, "the gas at the end"
