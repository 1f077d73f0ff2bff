"""The solutions by a plain program, which tries row by row."""


def solutions(columns):
    row = len(columns)
    if row == 8:
        return ["".join(map(str, columns))]
    free = [column for column in range(8)
            if all(column != other and abs(column - other) != row - before for before, other in enumerate(columns))]
    return [solution for column in free for solution in solutions(columns + [column])]


found = open("solutions").read().split()
assert len(found) == 92, "how many there are"
assert found == solutions([]), "the solutions"
