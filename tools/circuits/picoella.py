"""Circuits of 000 and 001: gates, registers, parity checkers and adders."""
import itertools
import random

from circuits.values import (BITS, HI, LO, RANDOM_CASES, THREE, UNDEFINED, agreed, delayed, joined,
                             leaf, random_leaves, same, word)

PAIRS = list(itertools.product(THREE, repeat=2))

TRUTH = {
    "multiplexer": lambda choice, x, y: x if choice else y,
    "and": lambda x, y: x and y,
    "or": lambda x, y: x or y,
    "xor": lambda x, y: x != y,
    "nand": lambda x, y: not (x and y),
    "second-nand": lambda x, y: not (x and y),
}


def gates(load):
    """Truth tables, with undefined inputs."""
    count = 0
    for name, function in TRUTH.items():
        circuit = load(name)
        rows = list(itertools.product(THREE, repeat=circuit.taken))
        wanted = bytes(agreed(function, *row) for row in rows)
        same(circuit.run(joined(rows)), wanted, 1, name)
        count += len(rows)
    return count


def nands(load):
    """001, section 1: the two NANDs have the same behaviour."""
    second, first = load("second-nand").run(joined(PAIRS)), load("nand").run(joined(PAIRS))
    same(second, first, 1, "second-nand against nand")
    return len(PAIRS)


def slow_not(load):
    """001, section 1: a NOT, one unit of time later."""
    stimulus = random_leaves(RANDOM_CASES, THREE)
    wanted = delayed(bytes(agreed(lambda x: not x, value) for value in stimulus))
    same(load("slow-not").run(stimulus), wanted, 1, "slow-not")
    return len(stimulus)


def delayed_and(load):
    """000, section 5.1.2: the AND, one unit of time later."""
    stimulus = random_leaves(2 * RANDOM_CASES, THREE)
    wanted = delayed(load("and").run(stimulus))
    same(load("delayed-and").run(stimulus), wanted, 1, "delayed-and against and")
    return RANDOM_CASES


def undefined_xor(load):
    """000, section 3.3.5: undefined for an undefined x, whose two uses may be taken for different
    values; false for a known one."""
    for value in THREE:
        wanted = bytes([UNDEFINED, UNDEFINED if value == UNDEFINED else LO])
        same(load("undefined-xor").run(bytes([value])), wanted, 2, f"undefined-xor on {value}")
    return len(THREE)


def register(load):
    """000, section 2.1.1: o at t + 1 is i at t if c is hi at t, and else o at t. All stimuli of
    three cycles, and one cycle more to see what they leave."""
    circuit, count = load("register"), 0
    for cycles in itertools.product(PAIRS, repeat=3):
        held, wanted = UNDEFINED, [UNDEFINED]
        for i, c in cycles:
            held = agreed(lambda i, c, o: i if c else o, i, c, held)
            wanted.append(held)
        outputs = circuit.run(joined([*cycles, (LO, LO)]))
        same(outputs, bytes(wanted), 1, f"register on {cycles}")
        count += len(wanted)
    return count


def even(stream):
    return leaf(stream.count(HI) % 2 == 0)


def parity(load):
    """000, section 5.1.3: PC counts from time 0 on and shows it one unit later, HOLPC from time 1
    on. All streams of ten bits; and a long one, on which HOLPC is held to PC with lo for the first
    input, one unit earlier."""
    first, second, count = load("parity"), load("second-parity"), 0
    for stream in map(bytes, itertools.product(BITS, repeat=10)):
        wanted = bytes(even(stream[:time]) for time in range(len(stream)))
        same(first.run(stream), wanted, 1, f"parity on {list(stream)}")
        wanted = bytes(even(stream[1:time + 1]) for time in range(len(stream)))
        same(second.run(stream), wanted, 1, f"second-parity on {list(stream)}")
        count += 2 * len(stream)
    stream = random_leaves(RANDOM_CASES, BITS)
    wanted = first.run(bytes([LO]) + stream[1:] + bytes([LO]))[1:]
    same(second.run(stream), wanted, 1, "second-parity against parity")
    return count + RANDOM_CASES


def adders_of_bits(load):
    """000, section 5.1.5, HA_SPEC and ADD_SPEC: the sum is the remainder by two, the carry the
    quotient."""
    for name, inputs in (("half-adder", 2), ("full-adder", 3)):
        rows = list(itertools.product(BITS, repeat=inputs))
        wanted = joined((leaf(row.count(HI) % 2), leaf(row.count(HI) // 2)) for row in rows)
        same(load(name).run(joined(rows)), wanted, 2, name)
    return 4 + 8


def adder(bits, sums):
    """000, section 5.2.3: the word and the carry are the sum."""
    def comparison(load):
        circuit, count, left = load(f"adder-{bits}"), 0, iter(sums(bits))
        while chunk := list(itertools.islice(left, 2000)):
            stimulus = b"".join(word(x, bits) + word(y, bits) + word(c, 1) for x, y, c in chunk)
            totals = [x + y + c for x, y, c in chunk]
            wanted = b"".join(word(total, bits) + word(total >> bits, 1) for total in totals)
            same(circuit.run(stimulus), wanted, bits + 1, circuit.name)
            count += len(chunk)
        return count
    return comparison


def all_sums(bits):
    return itertools.product(range(1 << bits), range(1 << bits), range(2))


def random_sums(bits):
    """Some that carry through many bits, and random ones."""
    top = (1 << bits) - 1
    for low in range(bits):
        yield from ((top, 1 << low, 0), (top - (1 << low), 1 << low, 1), (1 << low, top, 1))
    for _ in range(RANDOM_CASES):
        yield random.randint(0, top), random.randint(0, top), random.randint(0, 1)


COMPARISONS = {
    "gates": gates,
    "nands": nands,
    "slow-not": slow_not,
    "delayed-and": delayed_and,
    "undefined-xor": undefined_xor,
    "register": register,
    "parity": parity,
    "adders-of-bits": adders_of_bits,
    "adder-4": adder(4, all_sums),
    "adder-8": adder(8, all_sums),
    "adder-24": adder(24, random_sums),
}
