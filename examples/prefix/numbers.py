"""Prints 65,536 numbers below 65,536, drawn; the same each time."""
import random

random.seed(1986)
print("\n".join(str(int(65536 * random.random())) for _ in range(65536)))
