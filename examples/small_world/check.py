"""The path lengths by a plain program with a queue."""
import collections

acquaintance = list(map(int, open("acquaintances").read().split()))
far, queue = {0: 0}, collections.deque([0])
while queue:
    person = queue.popleft()
    for other in (person + 1) % 65536, (person - 1) % 65536, acquaintance[person]:
        if other not in far:
            far[other] = far[person] + 1
            queue.append(other)
assert list(map(int, open("far").read().split())) == [far[person] for person in range(65536)], "the path lengths"
assert sum(1 for line in open("told")) == max(far.values()) + 1, "the rounds"
