"""The sums by a plain program."""
import itertools

numbers = map(int, open("numbers").read().split())
sums = list(map(int, open("sums").read().split()))
assert sums == list(itertools.accumulate(numbers)), "the prefix sums"
