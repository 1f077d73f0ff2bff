"""The product by a plain program."""
from operator import mul

matrix = lambda name: [list(map(int, line.split())) for line in open(name)]
columns = list(zip(*matrix("b")))
product = [[sum(map(mul, row, column)) for column in columns] for row in matrix("a")]
assert matrix("c") == product, "the product"
