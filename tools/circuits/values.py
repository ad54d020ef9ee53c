"""Leaves, words and truth values, and how outputs are compared.

A bit is hi, lo or undefined; a word is its bits, the highest first.
"""
import itertools
import random

UNDEFINED, HI, LO = 0, 1, 2
BITS = (HI, LO)
THREE = (UNDEFINED, HI, LO)
TRUTHS = {UNDEFINED: (True, False), HI: (True,), LO: (False,)}
LEAVES_OF_DIGITS = bytes.maketrans(b"10", bytes(BITS))
RANDOM_CASES = 10000


class Difference(Exception):
    """A circuit does not do what it is compared with."""


def same(got, wanted, leaves, what):
    """All outputs of a run; else the first cycle and leaf that differ."""
    if got == wanted:
        return
    if len(got) != len(wanted):
        raise Difference(f"{what}: {len(got)} leaves, not {len(wanted)}")
    at = next(at for at, pair in enumerate(zip(got, wanted)) if pair[0] != pair[1])
    where = f"cycle {at // leaves} leaf {at % leaves}"
    raise Difference(f"{what}: {where} is {got[at]}, not {wanted[at]}")


def leaf(truth):
    return HI if truth else LO


def word(value, bits):
    return format(value % (1 << bits), f"0{bits}b").encode().translate(LEAVES_OF_DIGITS)


def agreed(function, *leaves):
    """What a function of truth values gives however the undefined leaves are filled; undefined
    where that is not one value."""
    filled = itertools.product(*(TRUTHS[value] for value in leaves))
    results = {function(*truths) for truths in filled}
    return leaf(results.pop()) if len(results) == 1 else UNDEFINED


def joined(rows):
    """A row of cycles as bytes."""
    return bytes(itertools.chain(*rows))


def random_leaves(count, values):
    return bytes(random.choices(values, k=count))


def delayed(outputs, first=bytes([UNDEFINED])):
    """The outputs one cycle later."""
    return first + outputs[:-len(first)]
