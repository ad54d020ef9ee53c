"""The multiplier of 002, section 5.1."""
import itertools
import random

from circuits.values import BITS, HI, LO, RANDOM_CASES, Difference, random_leaves, same, word


def duration(bits, rs):
    """DURd: the steps that are made, at least one."""
    return next((t for t in range(1, bits // 2) if rs >> 2 * t - 1 == 0), bits // 2)


def steps(bits, rm, rs):
    """What rd is before the first step and after each, by the state functions of figure 5.2 on
    integers."""
    mul, mul2, borrow2, rd = rs & 3, rs >> 2, False, 0
    mshift = 1 if mul == 2 else 0
    yield rd
    for _ in range(duration(bits, rs)):
        alub = rm << mshift
        if not borrow2 and mul == 0 or borrow2 and mul == 3:
            pass
        elif borrow2 and mul == 0 or mul == 1:
            rd += alub
        else:
            rd -= alub
        borrow2, mul, mul2 = mul >= 2, mul2 & 3, mul2 >> 2
        odd = borrow2 and mul == 1 or not borrow2 and mul == 2
        mshift = (mshift // 2 + 1) % (bits // 2) * 2 + odd
        yield rd


def booth(bits, factors):
    """The last rd is the product. A load in every bits / 2 + 1 cycles; rd is 1 before the first, as
    in figure 5.3, and stays when the multiplier is done. Factors without a load change nothing."""
    def comparison(load):
        circuit, count, left = load(f"booth-{bits}"), 0, iter(factors(bits))
        slot = bits // 2 + 1
        while chunk := list(itertools.islice(left, 500)):
            stimulus, wanted = [], [(HI, 1)]
            for rm, rs in chunk:
                stimulus.append(bytes([HI]) + word(rm, bits) + word(rs, bits))
                stimulus.append((bytes([LO]) + random_leaves(2 * bits, BITS)) * (slot - 1))
                *partial, last = steps(bits, rm, rs)
                if (last - rm * rs) % (1 << bits) != 0:
                    raise Difference(f"figure 5.2 gives no product for {rm} and {rs}")
                wanted += [(LO, rd) for rd in partial]
                wanted += [(HI, rm * rs)] * (slot - len(partial))
            stimulus.append(bytes([HI]) + word(0, 2 * bits))
            wanted = b"".join(bytes([done]) + word(rd, bits) for done, rd in wanted)
            same(circuit.run(b"".join(stimulus)), wanted, bits + 1, circuit.name)
            count += len(chunk)
        return count
    return comparison


def all_factors(bits):
    return itertools.product(range(1 << bits), repeat=2)


def random_factors(bits):
    """Some with few bits, with all and with every other; and random ones, a part of them short."""
    top = (1 << bits) - 1
    some = [0, 1, 2, 3, 5, 7, top, top - 1, top >> 1, (top >> 1) + 1, top // 3, top // 3 * 2]
    yield from itertools.product(some, repeat=2)
    for _ in range(RANDOM_CASES):
        shorter = random.choice((0, 0, random.randint(0, bits)))
        yield random.randint(0, top), random.randint(0, top) >> shorter


COMPARISONS = {
    "booth-4": booth(4, all_factors),
    "booth-8": booth(8, all_factors),
    "booth-16": booth(16, random_factors),
    "booth-28": booth(28, random_factors),
}
