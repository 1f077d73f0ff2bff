"""The distances by a plain program with a queue, and whether the way is one."""
import collections

SIDE, START, GOAL = 128, (1, 1), (125, 125)
dots = lambda name, head: [int(it) for it in open(name).read().split()[head:]]
wall, shade, steps = dots("maze.pbm", 3), dots("way.pgm", 4), dots("steps", 0)
at = lambda values, place: values[SIDE * place[0] + place[1]]
around = lambda place: [(place[0] + down, place[1] + right) for down, right in ((-1, 0), (0, 1), (1, 0), (0, -1))]

distance, queue = {START: 0}, collections.deque([START])
while queue:
    place = queue.popleft()
    for other in around(place):
        if other not in distance and not at(wall, other):
            distance[other] = distance[place] + 1
            queue.append(other)
last = distance[GOAL]
for row in range(SIDE):
    for column in range(SIDE):
        place = row, column
        found = distance.get(place, last + 1)
        assert at(steps, place) == (found if found <= last else 0), f"the distance in row {row}, column {column}"
        wanted = (0,) if at(wall, place) else (1, 3) if found <= last else (2,)
        assert at(shade, place) in wanted, f"the picture in row {row}, column {column}"

way = {(row, column) for row in range(SIDE) for column in range(SIDE) if at(shade, (row, column)) == 3}
assert sorted(distance[place] for place in way) == list(range(last + 1)), "one place of the way for each distance"
for place in way:
    assert sum(other in way for other in around(place)) == 2 - (place in (START, GOAL)), "a way without gaps"
assert open("told").read().split() == ["steps", str(last), "places", str(last + 1)], "what was told"
