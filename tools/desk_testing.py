"""What the tests of the desk's tool have in common: running it, and counting."""
import os
import re
import shutil
import subprocess

from repository import ROOT

WORK = ROOT / "target/desk/work"
SHEET = ROOT / "target/desk/sheet"
CHECKER = ROOT / "target/desk/check-only/sheet"
TRIALS = ROOT / "target/desk/desk-trials"
TEXTS = ROOT / "examples/texts"
# Words of the program's inside, and of the language that it is written in.
INTERNAL = re.compile(r"panicked|unwrap|::|\bSome\(|\bNone\b|\bErr\(|by code|rule is broken")

COUNTS = {"passed": 0, "failed": 0}


def tally(good, what):
    COUNTS["passed" if good else "failed"] += 1
    if not good:
        print(f"failed: {what}")


# Runs a command: its status, standard output and standard error.
def run(*words, folder=WORK, program=SHEET, stdin=None):
    around = {**os.environ, "LC_ALL": "C.UTF-8"}
    words = [str(program), *map(str, words)]
    ran = subprocess.run(words, cwd=folder, env=around, input=stdin, capture_output=True)
    out, err = ran.stdout.decode(errors="replace"), ran.stderr.decode(errors="replace")
    found = INTERNAL.search(err)
    tally(not found, f"{words[1:]}: an internal word in: {err[:300]}")
    return ran.returncode, out, err


def gives(status, out, err, *words, **around):
    given = run(*words, **around)
    tally(given == (status, out, err), f"sheet {words} gave {given}\nnot {(status, out, err)}")


def fresh():
    shutil.rmtree(WORK, ignore_errors=True)
    WORK.mkdir(parents=True)
