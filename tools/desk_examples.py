"""Tests of the desk's tool: runs, waves and pages of the circuits in examples/texts."""
import re
import xml.etree.ElementTree as ElementTree

from desk_messages import words_of
from desk_testing import WORK, gives, run, tally


# The types of a text, from its declarations: a list of constructors, or two type names.
def types_of(text):
    types = {}
    for name, definition in re.findall(r"TYPE\s+([a-z]+)\s*=\s*(.*?)\s*\bIN\b", text, re.S):
        pair = re.fullmatch(r"\(\s*([a-z]+)\s*,\s*([a-z]+)\s*\)", definition)
        types[name] = pair.groups() if pair else re.split(r"\s*\|\s*", definition)
    return types


# A value with these leaves, which are taken from the front.
def value(types, of, leaves):
    if isinstance(types[of], tuple):
        return "(" + ", ".join(value(types, part, leaves) for part in types[of]) + ")"
    leaf = leaves.pop(0)
    return types[of][leaf - 1] if leaf else "?"


def flat(types, of):
    if isinstance(types[of], tuple):
        return [leaf for part in types[of] for leaf in flat(types, part)]
    return [of]


def leaves_of(half):
    leaves = []
    for word in half.split():
        bits = [{"1": 1, "0": 2, "x": 0}[bit] for bit in word[1:]] if word[0] == "b" else None
        leaves += bits or [int(word)]
    return leaves


# The runs of a file of cycles: of each the inputs and the outputs, leaf by leaf.
def runs_of(file):
    runs = [[]]
    for line in file.read_text().splitlines():
        if line.startswith("#"):
            continue
        if not line.strip():
            runs.append([])
            continue
        inputs, outputs = line.split(":")
        runs[-1].append((leaves_of(inputs), leaves_of(outputs)))
    return [run for run in runs if run]


# A dump read back: for each scope the names of its signals, and for each cycle their values.
def read_vcd(text):
    scopes, path, codes = {}, [], {}
    head, body = text.split("$enddefinitions $end\n")
    for line in head.splitlines():
        words = line.split()
        if words[0] == "$scope":
            path.append(words[2])
        elif words[0] == "$upscope":
            path.pop()
        elif words[0] == "$var":
            scopes.setdefault(path[-1], []).append((words[4], words[3]))
            codes[words[3]] = words[1]
    now, cycles = {}, []
    for line in body.splitlines():
        if line.startswith("#"):
            if now:
                cycles.append(dict(now))
        elif line.startswith("s"):
            shown, code = line[1:].split(" ")
            now[code] = shown
        else:
            now[line[1:]] = line[0]
    if any(code not in codes for code in now):
        return {}, []
    return scopes, cycles


LEVELS = {"hi": "1", "high": "1", "true": "1", "on": "1", "t": "1", "one": "1", "yes": "1"}
LEVELS |= {"lo": "0", "low": "0", "false": "0", "off": "0", "f": "0", "zero": "0", "no": "0"}


# A leaf as a dump has it.
def dumped(types, of, leaf):
    names = types[of]
    level = len(names) == 2 and {LEVELS.get(name) for name in names} == {"0", "1"}
    if leaf == 0:
        return "x" if level else "?"
    return LEVELS[names[leaf - 1]] if level else names[leaf - 1]


# What the delays of a sheet hold, leaf by leaf.
def held(sheet):
    records = words_of(sheet)
    leaves = []
    for record in records:
        leaf = record[3] if record[0] == 40 else 0
        while leaf:
            leaves.append((record[2], records[leaf][2]))
            leaf = records[leaf][1]
    return leaves


def example(file):
    text = file.read_text()
    types = types_of(text)
    order = list(types)
    name = file.stem
    status, out, err = run("check", file)
    found = re.fullmatch(r".*: accepted: input `(\w+)`, output `(\w+)`, [\d,]+ records\n", out)
    tally(status == 0 and found and not err, f"{name}: {out}{err}")
    if not found:
        return
    given, put = found.groups()
    for number, cycles in enumerate(runs_of(file.with_suffix(".cycles"))):
        stim = WORK / f"{name}-{number}.stim"
        lines = [value(types, given, list(inputs)) for inputs, _ in cycles]
        stim.write_text("".join(line + "\n" for line in lines))
        wanted = [value(types, put, list(outputs)) for _, outputs in cycles]
        printed = "".join(f"{cycle}: {shown}\n" for cycle, shown in enumerate(wanted))
        gives(0, printed, "", "run", file, stim)
        by_number = WORK / f"{name}-{number}.numbers"
        by_number.write_text("".join(" ".join(map(str, i)) + "\n" for i, _ in cycles))
        printed = "".join(
            f"{cycle}: {' '.join(map(str, outputs))}\n" for cycle, (_, outputs) in enumerate(cycles)
        )
        gives(0, printed, "", "run", file, by_number, "--numbers")
        waves(file, stim, types, given, put, cycles, order)
    pages(file, WORK / f"{name}-0.stim")


def waves(file, stim, types, given, put, cycles, order):
    name = stim.stem
    status, dump, _ = run("wave", file, stim)
    scopes, shown = read_vcd(dump)
    tally(status == 0 and len(shown) == len(cycles), f"{name}: {len(shown)} cycles in the dump")
    for scope, of, half in (("stimulus", given, 0), ("outputs", put, 1)):
        leaves = flat(types, of)
        for number, cycle in enumerate(cycles[: len(shown)]):
            wanted = [dumped(types, of, leaf) for of, leaf in zip(leaves, cycle[half])]
            got = [shown[number][code] for _, code in scopes[scope]]
            tally(got == wanted, f"{name}: {scope} of cycle {number}: {got}, not {wanted}")
    # The delays hold in the last cycle what they hold after the cycles before it.
    before = WORK / f"{name}.before"
    before.write_text("".join(stim.read_text().splitlines(True)[:-1]))
    status, _, _ = run("run", file, before, "--next", "before.bin")
    held_then = held((WORK / "before.bin").read_bytes())
    leaves = [of for of, _ in held_then for of in [order[of - 1]]]
    wanted, at = [], 0
    while at < len(held_then):
        for of in flat(types, leaves[at]):
            wanted.append(dumped(types, of, held_then[at][1]))
            at += 1
    got = [shown[-1][code] for _, code in scopes.get("delays", [])]
    tally(status == 0 and got == wanted, f"{name}: delays hold {got}, not {wanted}")
    # From the state before it the last cycle is the same, and `show` sees it.
    last = stim.read_text().splitlines()[-1]
    status, out, _ = run("show", file, last, "--from", "before.bin")
    lines = out.splitlines()
    wanted = f"output: {value(types, put, list(cycles[-1][1]))}"
    tally(lines[0] == wanted, f"{name}: show: {out[:200]}, not {wanted}")
    fired = [shown[-1][code] for _, code in scopes.get("fired", [])]
    seen = [re.sub(r".*?: IF: (.*?)( at [\d:]+)? fired", r"\1", line) for line in lines[1:]]
    seen = ["none" if one == "no alternative" else "".join(one.split()) for one in seen]
    tally(seen == fired, f"{name}: fired: {seen}, {fired}")


SVG = "{http://www.w3.org/2000/svg}"


def pages(file, stim):
    name = file.stem
    status, page, _ = run("page", file, stim)
    try:
        tree = ElementTree.fromstring(page.replace("<!DOCTYPE html>\n", "", 1))
    except ElementTree.ParseError as error:
        return tally(False, f"{name}: the page is not well formed: {error}")
    pictures = list(tree.iter(f"{SVG}svg"))
    tally(status == 0 and len(pictures) == 2, f"{name}: {len(pictures)} pictures")
    keys = [(one.tag, key) for one in tree.iter() for key in one.attrib]
    elsewhere = [one for one in keys if one[1] in ("src", "href") or one[1].startswith("on")]
    scripts = [one for one in tree.iter() if one.tag.endswith("}script")]
    tally(not elsewhere and not scripts, f"{name}: the page needs {elsewhere} {scripts}")
    body = "".join(tree.itertext())
    line = file.read_text().splitlines()[0]
    tally(line in body and "The run" in body, f"{name}: the page does not show the text")
    rows = [one.text for one in pictures[0].iter(f"{SVG}text") if one.get("class") == "name"]
    tally("input" in rows[0] and any("output" in row for row in rows), f"{name}: rows {rows[:4]}")
    status, graph, _ = run("draw", file)
    ends = graph.startswith("digraph") and graph.endswith("}\n")
    nodes = set(re.findall(r"^    (n\d+) \[", graph, re.M))
    edges = re.findall(r"^    (n\d+) -> (n\d+) \[", graph, re.M)
    joined = {end for edge in edges for end in edge} <= nodes
    tally(status == 0 and ends and joined and len(nodes) >= 2, f"{name}: draw")
    status, picture, _ = run("draw", file, "--svg")
    tally(status == 0 and ElementTree.fromstring(picture) is not None, f"{name}: draw --svg")
