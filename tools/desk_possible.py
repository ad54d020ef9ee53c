"""Tests of the desk's tool: what can still happen."""
from desk_skeleton import completed
from desk_testing import TEXTS, WORK, gives, run, tally
from repository import ROOT

# hi and lo together are all of the type: the IF is decided, though a run leaves it open.
EITHER = """TYPE bit = hi | lo IN
INPUT bit
(IF input MATCHES hi | lo THEN hi ELSE lo)
"""

# A constructor from each IF, and a DELAY that is undefined until a run fills it with four.
LEVELS = """TYPE bit = hi | lo IN
TYPE pair = (bit, bit) IN
TYPE level = one | two | three | four | five IN
INPUT pair
(IF input[1] MATCHES hi THEN one ELSE
(IF input[2] MATCHES hi THEN two ELSE (DELAY (?level, four))))
"""

# The inverse of a bit, and whether the two differ. They always do, which sets do not say.
CORRELATED = """TYPE bit = hi | lo IN
TYPE pair = (bit, bit) IN
TYPE answer = yes | no | never IN
INPUT bit
(LET inverse = (IF input MATCHES hi THEN lo ELSE hi) IN
(IF (input, inverse) MATCHES (hi, lo) | (lo, hi) THEN yes ELSE no))
"""

ONLY = "what can still happen is told only of circuits without"


def possibles():
    text = TEXTS / "and.txt"
    if "sheet_possible" not in run("--version")[1]:
        says = "sheet: possible needs sheet_possible, which libsheets.a does not have\n"
        return gives(2, "", says, "possible", text, "?")
    # docs/SHEETS.md, "What can still happen": AND on (2,0), (1,0) and (1,1).
    gives(0, "output: 1 of 2: lo\n", "", "possible", text, "(lo, ?)")
    gives(0, "output: 2 of 2: hi, lo\n", "", "possible", text, "(hi, ?)")
    gives(0, "output: 1 of 2: hi\n", "", "possible", text, "(hi, hi)")
    gives(0, "output: 2 of 2: 1, 2\n", "", "possible", text, "1 0", "--numbers")
    # With one lo there is no carry, and the sum is the other bit.
    half = "output[1]: 2 of 2: hi, lo\noutput[2]: 1 of 2: lo\n"
    gives(0, half, "", "possible", TEXTS / "half-adder.txt", "(lo, ?)")
    (WORK / "either.txt").write_text(EITHER)
    gives(0, "output: 1 of 2: hi\n", "", "possible", "either.txt", "?")
    tally(run("show", "either.txt", "?")[1].startswith("output: ?\n"), "either.txt is shown")
    # Of yes and no only yes can be reached, so that the names are not certain.
    (WORK / "correlated.txt").write_text(CORRELATED)
    gives(0, "output: 2 of 3\n", "", "possible", "correlated.txt", "?")
    gives(0, "output: 1 of 3: yes\n", "", "possible", "correlated.txt", "lo")
    levels()
    refused()
    tally(completed("po") == ["possible"], "sheet po is completed by possible")
    tally(completed("possible", "--f") == ["--from"], "sheet possible --f")


def levels():
    (WORK / "levels.txt").write_text(LEVELS)
    every = "output: 5 of 5: one, two, three, four, five\n"
    gives(0, every, "", "possible", "levels.txt", "(lo, lo)")
    gives(0, "output: 1 of 5: two\n", "", "possible", "levels.txt", "(lo, hi)")
    gives(0, "output: 2 of 5: one, two\n", "", "possible", "levels.txt", "(?, hi)")
    gives(0, every, "", "possible", "levels.txt", "?")
    (WORK / "levels.stim").write_text("?\n")
    run("run", "levels.txt", "levels.stim", "--next", "levels.bin")
    filled = ["--from", "levels.bin"]
    gives(0, "output: 1 of 5: four\n", "", "possible", "levels.txt", "(lo, lo)", *filled)
    gives(0, "output: 3 of 5: one, two, four\n", "", "possible", "levels.txt", "?", *filled)
    gives(0, "output: 3 of 5: 1, 2, 4\n", "", "possible", "levels.bin", "?")


# Code 22 with its place, a feedback or a type of over 64 constructors; and a word that is no input.
def refused():
    says = f"error: this is a feedback: {ONLY} one\n"
    text, sheet = TEXTS / "T.txt", ROOT / "data/T.bin"
    lines = text.read_text().splitlines()
    line = next(number for number, line in enumerate(lines) if "REC" in line)
    at = lines[line].index("(LET")
    shown = f"{line + 1:>5} | {lines[line]}\n      | {' ' * at}^~~~\n"
    gives(1, "", f"{text}:{line + 1}:{at + 1}: {says}{shown}", "possible", text, "hi")
    gives(1, "", f"{sheet}: record 2: {says}", "possible", sheet, "1")
    names = [first + second for first in "abcdefghijklm" for second in "abcde"]
    many = "TYPE many =\n{} IN\nINPUT many input\n"
    (WORK / "many.txt").write_text(many.format(" | ".join(names[:64])))
    listed = ", ".join(names[:64])
    gives(0, f"output: 64 of 64: {listed}\n", "", "possible", "many.txt", "?")
    (WORK / "many.txt").write_text(many.format(" | ".join(names)))
    says = f"many.txt:1:6: error: `many` has 65 constructors: {ONLY} a type of over 64\n"
    shown = "    1 | TYPE many =\n      |      ^~~~\n"
    gives(1, "", says + shown, "possible", "many.txt", "?")
    says = "INPUT:1:1: error: `high` is no constructor of `bit`; did you mean `hi`?\n"
    gives(1, "", f"{says}    1 | high\n      | ^~~~\n", "possible", "either.txt", "high")
