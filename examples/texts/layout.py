"""Texts of circuits: names for numbers, declarations of types, and lines; for print-circuit."""
import re
import textwrap

UNITS = ("zero one two three four five six seven eight nine ten eleven twelve thirteen fourteen "
         "fifteen sixteen seventeen eighteen nineteen").split()
TENS = "twenty thirty forty fifty sixty".split()


def spelled(number):
    """A number as a name, since names have letters only."""
    if number < len(UNITS):
        return UNITS[number]
    tens, units = TENS[number // 10 - 2], number % 10
    return tens + (UNITS[units] if units else "")


class Types:
    """The declarations of a text. No two pair types may have the same parts."""

    def __init__(self):
        self.lines = ["TYPE bit = hi | lo IN"]
        self.pairs = {}

    def flat(self, name, constructors):
        self.lines.append(f"TYPE {name} = {' | '.join(constructors)} IN")
        return name

    def pair(self, name, first, second):
        """The pair type of two types; it has this name unless it is declared already."""
        if (first, second) not in self.pairs:
            self.pairs[first, second] = name
            self.lines.append(f"TYPE {name} = ({first}, {second}) IN")
        return self.pairs[first, second]

    def word(self, bits):
        """Words as balanced trees of bits, the highest bit first, so that every bit is near."""
        if bits == 1:
            return "bit"
        return self.pair("word" + spelled(bits), self.word(bits - bits // 2), self.word(bits // 2))


# Layout. An expression is a list of its tokens and, for each bracket inside it, of such a list.

LINE = 100


def nested(expression):
    """The expression that stands first in the tokens; brackets are taken away."""
    tokens = iter(re.findall(r"[(),]|[^(),\s]+", expression))

    def inside():
        items = []
        for token in tokens:
            if token == ")":
                return items
            items.append(inside() if token == "(" else token)
        return items
    return inside()[0]


def flat(item):
    """On one line."""
    if isinstance(item, str):
        return item
    return "(" + " ".join(map(flat, item)).replace(" ,", ",") + ")"


def laid(item, column, closing):
    """The lines of a bracket that opens in this column and has so many brackets closing behind it.
    What follows an IN or an ELSE stands below it, so a row of LETs or IFs stays in its column."""
    line = flat(item)
    if column + len(line) + closing <= LINE or isinstance(item, str):
        return line
    below = "\n" + " " * column
    if item[0] == "LET":
        at = item.index("=")
        head = "(" + " ".join(item[:at + 1])
        value = " " + flat(item[at + 1])
        if column + len(head) + len(value) + 3 > LINE:
            value = below + " " + laid(item[at + 1], column + 1, 3)
        return f"{head}{value} IN{below}{laid(item[at + 3], column, closing + 1)})"
    if item[0] == "IF":
        then = item.index("THEN")
        head = "(" + " ".join(map(flat, item[:then]))
        value = " THEN " + flat(item[then + 1])
        if column + len(head) + len(value) + 5 > LINE:
            both = f" {' '.join(map(flat, item[then:]))})"
            if column + len(both) + closing <= LINE:
                return head + below + both
            value = below + " THEN " + laid(item[then + 1], column + 6, 5)
        return f"{head}{value} ELSE{below}{laid(item[then + 3], column, closing + 1)})"
    if item[0] == "DELAY":
        return f"(DELAY {laid(item[1], column + 7, closing + 1)})"
    return f"({laid(item[0], column + 1, 1)},{below} {laid(item[2], column + 1, closing + 1)})"


def text(types, input_type, expression):
    """The whole text. A line that is still too long, of a type or a pattern, goes on in another."""
    for line in [*types.lines, f"INPUT {input_type}", *laid(nested(expression), 0, 0).split("\n")]:
        indent = " " * (len(line) - len(line.lstrip()) + 4)
        print(textwrap.fill(line, LINE, subsequent_indent=indent, break_long_words=False))
