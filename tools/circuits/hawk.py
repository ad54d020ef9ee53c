"""Circuits of 003: the counter with reset, section 2.1, and the processors SHAM, section 2.2."""
import random

from circuits.values import BITS, HI, RANDOM_CASES, delayed, joined, same, word

ADD, SUB, INC = 1, 2, 3
WIDTH = 8
NO_ASSIGNMENT = bytes([1]) + word(0, WIDTH)


def reset_counter(load):
    """The number of cycles since the last reset, or since the first cycle; in four bits."""
    stimulus = bytes(random.choices(BITS, (1, 12), k=RANDOM_CASES))
    count, wanted = -1, []
    for reset in stimulus:
        count = 0 if reset == HI else count + 1
        wanted.append(word(count, 4))
    same(load("reset-counter").run(stimulus), b"".join(wanted), 4, "reset-counter")
    return RANDOM_CASES


def assignments(program):
    """The instructions one after the other: each assigns its result to its register, which keeps it
    unless it is R0. The outputs show each assignment one cycle after its instruction."""
    registers, rows = [0] * 8, [NO_ASSIGNMENT]
    for command, destination, a, b in program:
        x, y = registers[a], registers[b]
        result = {ADD: x + y, SUB: x - y, INC: x + 1}[command] % (1 << WIDTH)
        if destination != 0:
            registers[destination] = result
        rows.append(bytes([destination + 1]) + word(result, WIDTH))
    return b"".join(rows[:-1])


def programs():
    """One that reads all registers as they are at first. Random instructions over all registers,
    and over few of them, so that many need the result of the one before."""
    yield [(ADD, 0, a, b) for a in range(8) for b in range(8)]
    for registers in (8, 3, 2):
        yield [(random.choice((ADD, SUB, INC)), *random.choices(range(registers), k=3))
               for _ in range(RANDOM_CASES)]


def sham(load):
    """The processor assigns what its instructions say, the pipelined one the same a cycle later."""
    first, second, count = load("sham"), load("sham-pipelined"), 0
    for program in programs():
        stimulus = joined((command, *(name + 1 for name in names)) for command, *names in program)
        outputs = first.run(stimulus)
        same(outputs, assignments(program), 1 + WIDTH, "sham")
        wanted = delayed(outputs, NO_ASSIGNMENT)
        same(second.run(stimulus), wanted, 1 + WIDTH, "sham-pipelined against sham")
        count += 2 * len(program)
    return count


COMPARISONS = {"reset-counter": reset_counter, "sham": sham}
