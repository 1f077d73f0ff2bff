"""Prints 65,536 candidates: all 40,320 orders of the columns 0 to 7, each as eight octal digits, the queen of row 0
first; and then zeros.
"""
import itertools

orders = [int("".join(order), 8) for order in itertools.permutations("01234567")]
print("\n".join(map(str, orders + [0] * (65536 - len(orders)))))
