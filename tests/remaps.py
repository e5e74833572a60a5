"""Remaps ('folds') for the comparisons: accepted ones, and refused ones by sort."""

OURS = (0, 1, 3, 2, 4, 5, 7, 6, 8, 9, 11, 10, 12, 13, 15, 14)
IDENTITY = tuple(range(16))
REVERSE = IDENTITY[::-1]
ROTATED = IDENTITY[1:] + IDENTITY[:1]
NAMES = {OURS: "ours", IDENTITY: "identity", REVERSE: "reverse"}


def physical_row(remap, logical_row):
    return logical_row // 16 * 16 + remap[logical_row % 16]


def logical_row(remap, row):
    return row // 16 * 16 + remap.index(row % 16)


def is_accepted(remap):
    return set(range(16)) <= set(remap)


def accepted_remap(rng):
    if rng.random() < 0.4:
        return rng.choice(list(NAMES))
    return tuple(rng.sample(range(16), 16))


# Refused remaps: each takes the numbers of an accepted one and the most that a number may be


def one_repeated(rng, numbers, _):
    one, other = rng.sample(range(16), 2)
    numbers[one] = numbers[other]


def same_sum(rng, numbers, _):
    """Two numbers give way to the one between them."""
    between = rng.randint(1, 14)
    for number in (between - 1, between + 1):
        numbers[numbers.index(number)] = between


def sixteen(rng, numbers, _):
    numbers[rng.randrange(16)] = 16


def same_low_bits(rng, numbers, most):
    """One number is another one in its higher bits."""
    place = rng.randrange(16)
    possible = [numbers[place] + 2**bit for bit in range(4, 32)]
    numbers[place] = rng.choice([number for number in possible if number <= most])


def largest(rng, numbers, most):
    numbers[rng.randrange(16)] = most


def one_too_high(_, numbers, __):
    """From 1 to 16."""
    numbers[:] = [number + 1 for number in numbers]


def all_equal(rng, numbers, most):
    numbers[:] = [rng.choice((0, 0, 1, 15, 16, most))] * 16


REFUSED = {
    "one repeated": one_repeated, "the same sum": same_sum, "16": sixteen,
    "the same low bits": same_low_bits, "the largest number": largest, "1 to 16": one_too_high,
    "all equal": all_equal,
}


def refused_remap(rng, most, sort=None):
    numbers = list(accepted_remap(rng))
    REFUSED[sort or rng.choice(list(REFUSED))](rng, numbers, most)
    return tuple(numbers)
