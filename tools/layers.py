"""The layers of the crates, made from crates.txt: groups of crates, what each group and each crate
uses, and a drawing of the groups. A use that another use implies is left out."""
import re
import sys
import textwrap

from repository import ROOT, crates, programs, reached

# The width of the drawing, and what is left of it for arrows.
WIDTH = 100
ARROWS = 7

LISTED = crates()
# Each crate with the crates that it uses: what crates.txt names, without the kit's libraries.
USES = {crate: [one for one in names if one in LISTED] for crate, names in LISTED.items()}
PROGRAMS = [crate for crate in USES if crate in programs()]

# The groups, each after those that it uses: its name, what it is, and its topmost crates. To a
# group belong these, and what they use that is in no group before it. So no line changes here for a
# crate below one of them, for a call, which `sheets` uses, or for a program.
GROUPS = [
    ("language", "picoELLA: its types, its meaning", ["picoella", "meaning", "possibilities"]),
    ("records", "from bytes to records and the circuit; codes and places", ["answers", "records"]),
    ("check", "the rules on records, the type rules, the verdict", ["verdict", "verdict_table"]),
    ("the one door", "which laws of the check the crates above it may use", ["accepted"]),
    ("run", "one cycle and many: what they give, and the code", ["simulator"]),
    ("texts", "from a circuit typed with names to its sheet", ["translator", "text_table"]),
    ("calls", "every other call for hosts, with what it needs", USES["sheets"]),
    ("text laws", "what the sheet of a text means; no code", ["text_runs"]),
    ("programs", "files read, a call made, lines printed", PROGRAMS),
    ("libchecker.a", "the archive of check and translation", ["checker"]),
    ("libsheets.a", "the archive of every call", ["sheets"]),
]


# Each group with its crates, in the order of crates.txt.
def groups():
    members, placed = {}, set()
    for name, _, tops in GROUPS:
        unknown = [top for top in tops if top not in USES]
        if unknown:
            sys.exit(f"tools/layers.py: crates.txt has no {', '.join(unknown)}")
        found = set(tops).union(*(reached(top, USES) for top in tops)) - placed
        members[name] = [crate for crate in USES if crate in found]
        placed |= found
    left = [crate for crate in USES if crate not in placed]
    if left:
        sys.exit(f"tools/layers.py: no group has {', '.join(left)}")
    return members


# Each group with the groups that its crates use.
def group_uses(members):
    home = {crate: name for name, found in members.items() for crate in found}
    return {
        name: sorted({home[use] for crate in found for use in USES[crate]} - {name})
        for name, found in members.items()
    }


# The uses of one that no other use of it implies.
def direct(one, uses):
    return [use for use in uses[one] if not any(use in reached(other, uses) for other in uses[one])]


# The layer of one: the longest chain of uses below it.
def layer(one, uses):
    return 1 + max((layer(use, uses) for use in uses[one]), default=-1)


# What a crate is: the first sentence of its code's first file, without the full stop, and without
# the page that it names in brackets.
def phrase(crate):
    file = ROOT / "crates" / crate / "src" / ("main.rt" if crate in PROGRAMS else "lib.rt")
    head = re.match(r"(?://.*\n)+", file.read_text())
    if not head:
        sys.exit(f"{file.relative_to(ROOT)} does not begin with what the crate is")
    text = " ".join(line[2:].strip() for line in head.group().splitlines())
    return re.match(r"(.*?)(?: \(docs/[^)]*\))?(?:\.(?: |$)|$)", text).group(1)


# The lines of the drawing without its arrows, and where each group begins: on that line an arrow
# arrives, and from the next one its own leave.
def group_lines(members, uses):
    lines, begins = [], {}
    names = max(map(len, uses)) + 2
    for name, what, _ in sorted(GROUPS, key=lambda group: -layer(group[0], uses)):
        begins[name] = len(lines)
        lines.append(f"{name:{names}}{what}")
        wrapped = textwrap.wrap(" ".join(members[name]), WIDTH - ARROWS - names)
        lines += [" " * names + line for line in wrapped]
    return lines, begins


# Each group that is used, with the lines that its arrow passes, from its first user on; and the
# column of each arrow, the shortest furthest right.
def arrows(shown, begins):
    spans = {}
    for user, uses in shown.items():
        for use in uses:
            start = min(begins[user] + 1, spans[use].start if use in spans else begins[use])
            spans[use] = range(start, begins[use] + 1)
    places = {}
    for name in sorted(spans, key=lambda name: (len(spans[name]), spans[name].start)):
        near = {places[other] for other in places if set(spans[other]) & set(spans[name])}
        places[name] = next(place for place in range(len(spans)) if place not in near)
    most = max(places.values())
    return spans, {name: 2 * (most - place) for name, place in places.items()}


# Draws a line across from a column on, under the lines that go down.
def across(row, column):
    row[column:] = ["─" if sign == " " else sign for sign in row[column:]]


# The groups, users above what they use. Left of them one arrow goes down to each group that is
# used; it starts below the name of each user. Lines that cross do not meet.
def drawing():
    members = groups()
    uses = group_uses(members)
    shown = {name: direct(name, uses) for name in uses}
    lines, begins = group_lines(members, uses)
    spans, columns = arrows(shown, begins)
    rows = [[" "] * (max(columns.values()) + 3) for _ in lines]
    for name, span in spans.items():
        for row in span:
            rows[row][columns[name]] = "│"
    for name, found in shown.items():
        arriving, leaving = rows[begins[name]], rows[begins[name] + 1]
        if name in spans:
            across(arriving, columns[name])
            arriving[columns[name]], arriving[-2:] = "└", "▶ "
        if found:
            left = min(columns[use] for use in found)
            across(leaving, left)
            for use in found:
                starts = spans[use].start == begins[name] + 1
                corners = "┌├" if columns[use] == left else "┬┼"
                leaving[columns[use]] = corners[0 if starts else 1]
            lines[begins[name] + 1] = "┘" + lines[begins[name] + 1][1:]
    return ["".join(row) + line for row, line in zip(rows, lines)]
