"""Circuits of 004: De Morgan's law, section 6.2, and the counter cell, section 6.4."""
import itertools

from circuits.values import (BITS, HI, LO, RANDOM_CASES, THREE, UNDEFINED, Difference, agreed,
                             delayed, joined, leaf, random_leaves, same)

PAIRS = list(itertools.product(THREE, repeat=2))


def de_morgan(load):
    """Sections 6.2.1 and 6.2.2: each pair of circuits agrees. Section 6.2.3: circuits of different
    pairs do not, wherever the inputs differ."""
    stimulus = joined(PAIRS) + random_leaves(2 * RANDOM_CASES, THREE)
    of_and, of_or = load("not-of-and").run(stimulus), load("not-of-or").run(stimulus)
    same(load("or-of-nots").run(stimulus), of_and, 1, "or-of-nots against not-of-and")
    same(load("and-of-nots").run(stimulus), of_or, 1, "and-of-nots against not-of-or")
    pairs = list(zip(stimulus[::2], stimulus[1::2]))
    nand = bytes(agreed(lambda a, b: not (a and b), *pair) for pair in pairs)
    nor = bytes(agreed(lambda a, b: not (a or b), *pair) for pair in pairs)
    same(of_and, delayed(nand), 1, "not-of-and")
    same(of_or, delayed(nor), 1, "not-of-or")
    for pair, left, right in zip(pairs, of_and[1:], of_or[1:]):
        if UNDEFINED not in pair and (left != right) != (pair[0] != pair[1]):
            raise Difference(f"not-of-and and not-of-or on {pair}: {left} and {right}")
    return 4 * len(pairs)


def cells(load):
    """Section 6.4.3: the cell of gates does what the specified one does. All stimuli of four
    cycles, also undefined ones, and one cycle more to see what they leave."""
    specified, of_gates, count = load("counter-cell"), load("cell-of-gates"), 0
    for cycles in itertools.product(PAIRS, repeat=4):
        stimulus = joined([*cycles, (LO, HI)])
        wanted = specified.run(stimulus)
        same(of_gates.run(stimulus), wanted, 2, f"cell-of-gates against counter-cell on {cycles}")
        count += len(stimulus)
    return count


def counted(clock, carry):
    """The outputs of two cells in series, low and high. Together they count the rising edges at
    which the carry goes in, modulo four. The carry comes out of a cell if it goes in and all counts
    up to the cell's are hi."""
    count, before, lows, highs = 0, LO, [], []
    for now, goes_in in zip(clock, carry):
        lows.append((leaf(count & 1), leaf(count & 1 and goes_in == HI)))
        highs.append((leaf(count & 2), leaf(count == 3 and goes_in == HI)))
        count = (count + (before == LO and now == HI and goes_in == HI)) % 4
        before = now
    return joined(lows), joined(highs)


def counting(load):
    """Section 6.4: two cells in series are a counter of two bits."""
    clock, carry = (random_leaves(RANDOM_CASES, BITS) for _ in range(2))
    for name in ("counter-cell", "cell-of-gates"):
        low = load(name).run(joined(zip(clock, carry)))
        high = load(name).run(joined(zip(clock, low[1::2])))
        lows, highs = counted(clock, carry)
        same(low, lows, 2, f"{name}, the low cell")
        same(high, highs, 2, f"{name}, the high cell")
    return 4 * RANDOM_CASES


COMPARISONS = {"de-morgan": de_morgan, "cells": cells, "counting": counting}
