"""How the pages are written: prose lines of at most 100 characters, plain words, notes of at most 15
lines in docs/LANDINGS.md, and a README.md of at most 130 lines. Tables and code, indented or fenced,
are no prose."""
import re

LENGTH = 100
NOTE = 15
NOTES = "docs/LANDINGS.md"
# The first page, and one more than its lines.
FRONT = "README.md"
FRONT_LINES = 131

# Phrases that are not used, whatever their case. What stands in backquotes or in quotation marks is
# a name or a quotation and may have them.
AVOIDED = [
    "held to",
    "told",
    "said",
    "can be had",
    "nothing else was at work",
    "the list wants them all",
    "the edges a sixth time",
    "so it is with",
]

FENCE = re.compile(r"\s*(```|~~~)")
ITEM = re.compile(r"\s*([-*+]|\d+[.)])\s+")
NO_WORDS = re.compile(r'`[^`]*`|"[^"]*"|“[^”]*”|(?<=\])\([^)\s]*\)')
AVOID = re.compile(r"\b(" + "|".join(one.replace(" ", r"\s+") for one in AVOIDED) + r")\b", re.I)


# Every page, by its path from the root.
def every_page(root):
    alone = ["README.md", "CHANGELOG.md", "bench/README.md", "desk/README.md", "second/README.md"]
    docs = [str(page.relative_to(root)) for page in sorted((root / "docs").glob("*.md"))]
    return [name for name in alone if (root / name).exists()] + docs


# The lines of prose, each with its number, in paragraphs. An indented line is code if a blank line
# is before it and it stands four columns further in than the text of the list's item around it.
def paragraphs(lines):
    found, fence, before, inside = [[]], None, "", 0
    for number, line in enumerate(lines, 1):
        mark, text = FENCE.match(line), line.strip()
        indent = len(line) - len(line.lstrip())
        if fence:
            fence = None if mark and mark[1] == fence else fence
            continue
        if text and not before:
            inside = min(inside, indent)
        if text and not before and indent >= inside + 4:
            continue  # code; the next line stands as if after a blank one, too
        before = text
        if mark:
            fence = mark[1]
        elif text and not text.startswith("|"):
            item = ITEM.match(line)
            inside = item.end() if item else 0 if text.startswith("#") else inside
            found[-1].append((number, line))
            continue
        found.append([])
    return [one for one in found if one]


# The avoided phrases of a paragraph, each with the number of the line where it begins.
def avoided(paragraph):
    text = "\n".join(line for _, line in paragraph)
    text = NO_WORDS.sub(lambda found: re.sub(r"[^\n]", "`", found.group()), text)
    for found in AVOID.finditer(text):
        number = paragraph[text.count("\n", 0, found.start())][0]
        yield number, " ".join(found.group().split())


# The notes that are too long, each with the number of its heading's line. The heading counts.
def long_notes(lines):
    heads = [at for at, line in enumerate(lines) if line.startswith("## ")]
    for head, end in zip(heads, heads[1:] + [len(lines)]):
        note = "\n".join(lines[head:end]).rstrip().count("\n") + 1
        if note > NOTE:
            yield head + 1, f"{note} lines in a note, at most {NOTE}"


# The faults of one page.
def faults_of(name, lines):
    faults = []
    for paragraph in paragraphs(lines):
        for number, line in paragraph:
            if len(line) > LENGTH:
                faults.append((number, f"{len(line)} characters, at most {LENGTH} in prose"))
        for number, phrase in avoided(paragraph):
            faults.append((number, f'"{phrase}" is to be put in plain words'))
    if name == NOTES:
        faults += long_notes(lines)
    if name == FRONT and len(lines) > FRONT_LINES:
        faults.append((len(lines), f"at most {FRONT_LINES - 1} lines"))
    return [f"{name}:{number}: {fault}" for number, fault in sorted(faults)]


# The faults of all pages, and how many pages there are.
def check_prose(root):
    every, faults = every_page(root), []
    for name in every:
        faults += faults_of(name, (root / name).read_text().split("\n"))
    return faults, len(every)
