"""Holds for the comparisons: how many units an activation has."""

LONGEST = 16


def is_accepted_hold(hold):
    return 1 <= hold <= LONGEST


def accepted_hold(rng):
    return rng.choice((1, 1, 2, 3, LONGEST, rng.randint(1, LONGEST)))


def refused_hold(rng, most):
    """Just outside, the largest number, or one whose low bits are those of an accepted hold."""
    same_low_bits = [2**bit + rng.randint(0, LONGEST) for bit in (5, 6, 7, 8, 12, 16, 18, 24, 31)]
    holds = (0, 0, 17, 17, 18, rng.choice(same_low_bits), rng.randint(17, most), most)
    return rng.choice([hold for hold in holds if hold <= most])
