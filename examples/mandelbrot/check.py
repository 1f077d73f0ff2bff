"""The picture by a plain program, in the same whole numbers."""
ROUNDS = 64


def count(cx, cy):
    x = y = 0
    for rounds in range(ROUNDS):
        if x * x + y * y >= 4 << 24:
            return rounds
        x, y = (x * x - y * y >> 12) + cx, (x * y >> 11) + cy
    return ROUNDS


signed = lambda word: int(word) - (2**32 if int(word) >= 2**31 else 0)
points = zip(map(signed, open("x").read().split()), map(signed, open("y").read().split()))
magic, *numbers = open("set.pgm").read().split()
assert numbers[:3] == ["256", "256", "15"], "the picture's size"
assert list(map(int, numbers[3:])) == [count(*point) % 16 for point in points], "the picture"
