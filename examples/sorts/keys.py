"""Prints 4,096 keys below 65,536, drawn; the same each time."""
import random

random.seed(1968)
print("\n".join(str(int(65536 * random.random())) for _ in range(4096)))
