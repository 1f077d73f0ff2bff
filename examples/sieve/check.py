"""The primes by a plain sieve."""
LAST = 65536
is_prime = [False, False] + [True] * (LAST - 1)
for number in range(2, 257):
    if is_prime[number]:
        is_prime[2 * number::number] = [False] * len(is_prime[2 * number::number])
assert sum(is_prime) == 6542, "how many there are"
numbers = map(int, open("numbers").read().split())
dots = open("primes.pbm").read().split()[3:]
assert dots == [str(int(is_prime[number])) for number in numbers], "the picture"
assert open("told").read().split() == [str(n) for n in range(257) if is_prime[n]], "the primes that were told"
