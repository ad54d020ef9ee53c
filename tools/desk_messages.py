"""Tests of the desk's tool: what it says of mistaken texts and sheets."""
import struct

from desk_testing import WORK, gives, run, tally
from repository import ROOT


def messages(folder, status, *words):
    files = sorted(folder.glob("*.txt"))
    for file in files:
        given = run(*words, file.name, folder=folder)
        says = file.with_suffix(".says").read_text()
        what = f"{file.name}: {given[0]}\n{given[2]}is to say:\n{says}"
        tally((given[0], given[2]) == (status, says), what)
    stray = {file.stem for file in folder.glob("*.says")} ^ {file.stem for file in files}
    tally(not stray, f"{folder.name}: {stray}")
    return len(files)


# Texts that are too long to stand in a file of their own.
def long_texts():
    text = "TYPE bit = hi | lo IN\nINPUT bit\ninput\n"
    (WORK / "long.txt").write_text(text + " " * 65600)
    _, _, err = run("check", "long.txt")
    tally(": error: the text has 65,638 bytes: at most 65,535\n" in err, err[:200])
    pairs = "TYPE bit = hi | lo IN\nINPUT bit\n(IF input MATCHES hi" + "|hi" * 5000
    (WORK / "many.txt").write_text(pairs + " THEN hi ELSE lo)\n")
    # Header, type, IF, name, two constants with a leaf each, and 5,001 alternatives.
    says = "many.txt: error: the sheet would have 5,009 records: at most 4,096\n"
    gives(1, "", says, "check", "many.txt")
    slow_texts()
    # Of a very long line the part around the caret is shown.
    line = "TYPE bit = hi | lo IN INPUT bit (IF input MATCHES hi" + "|hi" * 3000
    (WORK / "line.txt").write_text(f"{line}|high{'|hi' * 3000} THEN hi ELSE lo)")
    status, _, err = run("check", "line.txt")
    shown = err.splitlines()[1:]
    good = status == 1 and all(len(one) < 180 for one in shown) and "|hi|high|hi|" in shown[0]
    tally(good and shown[1].index("^") == shown[0].index("high"), f"a long line: {err[:400]}")
    deep = "TYPE bit = hi | lo IN INPUT bit " + "(hi," * 9000 + "lo" + ")" * 9000
    (WORK / "deep.txt").write_text(deep)
    tally(run("check", "deep.txt")[0] == 1, "a text that nests 9,000 deep")


# Three feedbacks of 64 leaves in each other, with so many LETs inside: the warning about a long
# cycle begins with ten million evaluations.
def slow_texts():
    types = "TYPE bit = hi | lo IN "
    for part, name in zip(["bit", *"abcde"], "abcdef"):
        types += f"TYPE {name} = ({part}, {part}) IN "
    for lets, warned in ((15, False), (20, True)):
        inside = "".join(f"(LET x{'x' * k} = p IN " for k in range(lets % 16)) + "p"
        inside = "(LET y = p IN " * (lets - lets % 16) + inside + ")" * lets
        nested = f"(LET INIT ?f REC r = {inside} IN r)"
        for name in "qp":
            nested = f"(LET INIT ?f REC {name} = {nested} IN {name})"
        (WORK / "slow.txt").write_text(f"{types} INPUT bit {nested}")
        # A LET is two expressions, itself and its defining part.
        most = (2 * lets + 1) * 65**3 + 2 * 65**2 + 2 * 65 + 2
        _, _, err = run("check", "-W", "slow.txt")
        says = f"slow.txt: warning: a cycle may take long: up to {most:,} evaluations\n"
        tally((says in err) == warned, f"{lets} LETs, {most}: {err[-300:]}")


# The words of the records of a sheet.
def words_of(sheet):
    starts = range(0, len(sheet) // 12 * 12, 12)
    return [list(struct.unpack_from("<6H", sheet, at)) for at in starts]


def packed(records):
    return b"".join(struct.pack("<6H", *record) for record in records)


# Sheets with one word changed: the messages have the record's number.
def sheets():
    good = (ROOT / "data/T.bin").read_bytes()
    (WORK / "T.bin").write_bytes(good)
    gives(0, "T.bin: accepted: input type 1, output type 1, 17 records\n", "", "check", "T.bin")
    changes = [
        (5, 0, 99, "record 3: error: word c is 5: record 5 is no expression"),
        (5, 2, 99, "record 5: error: word a is 99: there is no record 99"),
        (0, 0, 2, "record 0: error: the header has kind 2, not 1"),
        (0, 4, 18, "record 0: error: the header counts 18 records, and there are 17"),
        (0, 2, 5, "record 0: error: the header's a is 5, which is no type"),
        (1, 2, 0, "record 1: error: word a is 0: a type has 1 to 255 constructors"),
        (5, 3, 2, "record 5: error: word b is 2: a record after this one is asked for"),
        (6, 3, 1, "record 6: error: word b is 1: this kind has 0 there"),
        (7, 3, 3, "record 7: error: word b is 3: its type has the constructors 1 to 2"),
        (5, 4, 16, "record 15: error: no word names this record"),
        (6, 2, 2, "record 6: error: name 2 is out of scope: 2 names are in"),
        (12, 2, 3, "record 11: error: leaf record 12 is 3, and type 1 has 2 constructors"),
    ]
    for record, word, value, says in changes:
        records = words_of(good)
        records[record][word] = value
        (WORK / "bad.bin").write_bytes(packed(records))
        gives(1, "", f"bad.bin: {says}\n", "check", "bad.bin")
    for kind, says in [(99, "there is no kind 99"), (1, "a header stands at record 0 only")]:
        records = words_of(good) + [[kind, 0, 0, 0, 0, 0]]
        records[0][4] += 1
        (WORK / "bad.bin").write_bytes(packed(records))
        gives(1, "", f"bad.bin: record 17: error: {says}\n", "check", "bad.bin")
    for length, says in [(5, "and one record has 12"), (30, "which are no whole records of 12")]:
        (WORK / "bad.bin").write_bytes(good[:length])
        says = f"bad.bin: error: the sheet has {length} bytes, {says}\n"
        gives(1, "", says, "check", "bad.bin")
