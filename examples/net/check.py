"""The answers by a plain program, over sets."""
statements = [line.split() for line in open("knowledge.txt")]
things = sorted({thing for subject, _, object in statements for thing in (subject, object)})


def reached(start, relation, way):
    found, more = set(), set(start)
    while more:
        found |= more
        more = {line[2 * way] for line in statements if line[1] == relation and line[2 - 2 * way] in more} - found
    return found


for line in open("answers"):
    asked, _, told = line.partition(":")
    words = asked.split()
    if words[1] == "of":
        kinds = reached([words[2]], "is", 1)
        wanted = reached(kinds, words[0], 1) - kinds
    else:
        wanted = set.intersection(*(reached([word], "is", 0) for word in words[1:]))
    assert told.split() == sorted(wanted), line
assert sum(1 for _ in open("answers")) == sum(1 for _ in open("questions.txt")), "an answer to each question"
