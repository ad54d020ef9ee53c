"""Tests of the desk's tool: states, stimuli, presses and the build over the check's archive."""
from desk_messages import packed, words_of
from desk_testing import CHECKER, TEXTS, WORK, gives, run, tally
from repository import ROOT


STATEFUL = """TYPE bit = hi | lo IN
INPUT bit
(LET INIT ?bit REC q = (DELAY (lo, (IF input MATCHES hi THEN hi ELSE q))) IN
(LET last = (DELAY (lo, input)) IN
 (IF q MATCHES hi THEN last ELSE lo)))
"""


def states():
    (WORK / "old.txt").write_text(STATEFUL)
    # In the new circuit q has become a register of three levels, and there is one more delay.
    new = STATEFUL.replace("INPUT bit", "TYPE level = one | two | three IN\nINPUT bit")
    new = new.replace("(LET last =", "(LET more = (DELAY (one, one)) IN (LET last =") + ")"
    (WORK / "new.txt").write_text(new)
    (WORK / "some.stim").write_text("lo\nhi\n# nothing\nhi * 2\n")
    # q is set in cycle 1, and last shows the input of the cycle before.
    gives(0, "0: lo\n1: lo\n2: hi\n3: hi\n", "", "run", "old.txt", "some.stim", "--next", "old.bin")
    listed = "q: carried, holds hi\nmore: new, holds one\nlast: carried, holds hi\n"
    gives(0, listed, "", "carry", "old.txt", "new.txt", "--from", "old.bin", "--next", "new.bin")
    (WORK / "one.stim").write_text("lo\n")
    gives(0, "0: hi\n", "", "run", "new.txt", "one.stim", "--from", "new.bin")
    gives(0, "0: lo\n", "", "run", "new.txt", "one.stim")
    back = "q: carried, holds lo\nlast: carried, holds lo\nmore: gone, held one\n"
    gives(0, back, "", "carry", "new.txt", "old.txt")
    levels = STATEFUL.replace("hi | lo", "lo | mid | hi")
    (WORK / "levels.txt").write_text(levels)
    other = "{}: not carried, it was `bit` and is `bit`; holds lo\n"
    gives(0, other.format("q") + other.format("last"), "", "carry", "old.txt", "levels.txt")
    gives(2, "", "sheet: OLD and NEW are two texts or two sheets\n", "carry", "old.txt", "old.bin")
    wrong = "new.bin: error: this is not old.txt with other values in its delays\n"
    gives(1, "", wrong, "run", "old.txt", "one.stim", "--from", "new.bin")
    # Two runs one after the other are one run.
    (WORK / "first.stim").write_text("lo\nhi\n")
    (WORK / "second.stim").write_text("hi * 2\n")
    run("run", "old.txt", "first.stim", "--next", "half.bin")
    again = ["second.stim", "--from", "half.bin", "--next", "end.bin"]
    gives(0, "0: hi\n1: hi\n", "", "run", "old.txt", *again)
    same = (WORK / "end.bin").read_bytes() == (WORK / "old.bin").read_bytes()
    tally(same, "two runs one after the other")
    # More cycles than one call takes: by counting, since T flips its bit in every cycle.
    (WORK / "many.stim").write_text("hi * 200001\n")
    status, out, _ = run("run", TEXTS / "T.txt", "many.stim", "--next", "T.bin")
    lines = out.splitlines()
    tally(len(lines) == 200001 and lines[-2:] == ["199999: hi", "200000: lo"], "many cycles")


# Sheets have numbers for names, and labels of their own.
def of_sheets():
    records = words_of((ROOT / "data/T.bin").read_bytes())
    records[3][5] = 7
    (WORK / "T.bin").write_bytes(packed(records))
    (WORK / "T.stim").write_text("1\n2\n? # undefined\n")
    # T flips its bit on 1; from an undefined input on it is undefined.
    gives(0, "0: 2\n1: 1\n2: 1\n", "", "run", "T.bin", "T.stim", "--next", "after.bin")
    gives(0, "output: ?\nrecord 5: IF: 1 at record 7 fired\nrecord 8: IF: no alternative fired\n",
          "", "show", "T.bin", "1", "--from", "after.bin")
    carried = "label7: carried, holds ?\n"
    gives(0, carried, "", "carry", "after.bin", "T.bin", "--next", "carried.bin")
    same = (WORK / "carried.bin").read_bytes() == (WORK / "after.bin").read_bytes()
    tally(same, "a sheet carried into the one that it began as")
    unlabelled = "record3: not carried, it has no label; holds 2\nlabel7: gone, held ?\n"
    gives(0, unlabelled, "", "carry", "after.bin", ROOT / "data/T.bin")
    status, dump, _ = run("wave", "T.bin", "T.stim")
    tally(status == 0 and "$var string 1 ! input $end" in dump, "wave of a sheet")
    status, page, _ = run("page", "T.bin", "T.stim")
    tally(status == 0 and "Input type 1, output type 1, 17 records." in page, "page of a sheet")
    says = "T.stim:1:1: error: `hi` is no leaf of type 1: 0 to 2\n    1 | hi\n      | ^~\n"
    (WORK / "T.stim").write_text("hi\n")
    gives(1, "", says, "run", "T.bin", "T.stim")


def stimuli():
    text = TEXTS / "and.txt"
    cases = {
        "high\n": ":1:1: error: expected `?` or `two`, a pair (bit, bit), found `high`\n"
        "    1 | high\n      | ^~~~\n",
        "(hi, lo)\n(hi, low)\n": ":2:6: error: `low` is no constructor of `bit`; "
        "did you mean `lo`?\n    2 | (hi, low)\n      |      ^~~\n",
        "(hi lo)\n": ":1:5: error: expected `,`, found `lo`\n    1 | (hi lo)\n      |     ^~\n",
        "(hi,\n": ":1:5: error: the value ends too soon: expected a value of `bit`\n"
        "    1 | (hi,\n      |     ^\n",
        "(hi, lo) lo\n": ":1:10: error: expected the end of the line or `*`, found `lo`\n"
        "    1 | (hi, lo) lo\n      |          ^~\n",
        "? * many\n": ":1:5: error: after `*` stands how often, a number\n"
        "    1 | ? * many\n      |     ^~~~\n",
    }
    for stimulus, says in cases.items():
        (WORK / "bad.stim").write_text(stimulus)
        gives(1, "", f"bad.stim{says}", "run", text, "bad.stim")
    (WORK / "bad.stim").write_text("1 3\n")
    says = "bad.stim:1:3: error: `3` is no leaf of `bit`: 0 to 2\n    1 | 1 3\n      |   ^\n"
    gives(1, "", says, "run", text, "bad.stim", "--numbers")
    (WORK / "stim.bin").write_bytes(bytes([1, 1, 2, 0, 1, 0]))
    # Bench cases of docs/SHEETS.md: (1,1) gives 1, (2,0) gives 2, (1,0) gives 0.
    gives(0, "0: hi\n1: lo\n2: ?\n", "", "run", text, "stim.bin")
    (WORK / "odd.bin").write_bytes(bytes([1, 1, 2]))
    says = "odd.bin: error: it has 3 bytes, which are no whole cycles of 2\n"
    gives(1, "", says, "run", text, "odd.bin")
    (WORK / "none.stim").write_text("# nothing scanned yet\n\n")
    gives(0, "", "", "run", text, "none.stim")
    gives(0, "0: 2\n1: 1\n2: 1\n", "", "run", ROOT / "data/T.bin", ROOT / "data/stim.bin")


def pressing():
    # docs/SHEETS.md, "One press away": AND on (1,1), (2,2) and (0,0).
    text = TEXTS / "and.txt"
    gives(0, "input[1] from hi to lo: output from hi to lo\n", "", "press", text, "(hi, hi)")
    gives(0, "no change of one input leaf alters output\n", "", "press", text, "(lo, lo)")
    gives(0, "input[1] from ? to lo: output from ? to lo\n", "", "press", text, "?", "output")
    gives(0, "no change of one input leaf alters output\n", "", "press", TEXTS / "T.txt", "hi", "0")
    gives(2, "", "sheet: there is no output leaf 1: output, or 0 to 0\n", "press", text, "?", "1")
    says = "sheet: LEAF is missing: output[1], output[2], or 0 to 1\n"
    gives(2, "", says, "press", TEXTS / "half-adder.txt", "(hi, lo)")
    calls = run("--version")[1]
    if "sheet_count" in calls:
        # Of the four inputs of AND one gives hi; the sum of a half adder is hi for two.
        gives(0, "hi: 1\nlo: 3\n?: 0\n", "", "count", text)
        gives(0, "hi: 2\nlo: 2\n?: 0\n", "", "count", TEXTS / "half-adder.txt", "output[1]")
        # The multiplier for eight bits has 17 input leaves.
        booth = TEXTS / "booth-8.txt"
        says = f"{booth}: error: it has more than 65,536 inputs without an undefined leaf\n"
        gives(1, "", says, "count", booth, "0")
    else:
        says = "sheet: count needs sheet_count, which libsheets.a does not have\n"
        gives(2, "", says, "count", text)
    if "sheet_replay" in calls:
        replaying(text)
    else:
        says = "sheet: replay needs sheet_replay, which libsheets.a does not have\n"
        gives(2, "", says, "replay", text)


def replaying(text):
    (WORK / "shift.stim").write_text("(hi, hi)\n(lo, hi)\n? * 2\n")
    (WORK / "good.record").write_text("0: hi\n1: lo\n2: ?\n3: ?\n")
    gives(0, "agrees: 4 cycles\n", "", "replay", text, "shift.stim", "good.record")
    (WORK / "bad.record").write_text("hi\nlo\n?\nhi\n")
    gives(1, "cycle 3: output is not hi\n", "", "replay", text, "shift.stim", "bad.record")
    (WORK / "short.record").write_text("hi\n")
    says = "short.record: error: the record has 1 cycles, and the stimulus 4\n"
    gives(1, "", says, "replay", text, "shift.stim", "short.record")


# Over the check's archive: the commands that need no simulator.
def check_only():
    status, out, _ = run("--version", program=CHECKER)
    tally("libchecker.a: sheet_check sheet_translate\n" in out, f"check only: {out}")
    text = TEXTS / "T.txt"
    for command in ("check", "draw", "records"):
        alone, whole = run(command, text, program=CHECKER), run(command, text)
        tally(alone == whole and alone[0] == 0, f"{command} over the check's archive: {alone}")
    says = "sheet: run needs sheet_run, which libchecker.a does not have\n"
    gives(2, "", says, "run", text, "one.stim", program=CHECKER)
    gives(0, "T.bin: 17 records\n", "", "translate", text, "T.bin", program=CHECKER)
