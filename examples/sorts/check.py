"""Both sorts beside Python's."""
rows = lambda name: [list(map(int, line.split())) for line in open(name)]
keys = sorted(sum(rows("keys"), []))
assert sum(rows("bitonic"), []) == keys, "Batcher's sort"
line = sum((row[::-1] if count % 2 else row for count, row in enumerate(rows("transposed"))), [])
assert line == keys, "odd-even transposition"
