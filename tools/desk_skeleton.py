"""Tests of the desk's tool: help, statuses, colours and completion."""
import os
import pty
import re
import select
import subprocess

from desk_testing import SHEET, TEXTS, WORK, gives, run, tally
from repository import ROOT


def skeleton():
    status, overview, _ = run("help")
    commands = re.findall(r"^  (\w+)  +\S", overview, re.M)
    wanted = "check run show wave page draw carry press count possible replay translate records"
    wanted = [*wanted.split(), "completion", "help"]
    tally(status == 0 and set(wanted) <= set(commands), f"sheet help lists {commands}")
    for command in commands:
        status, page, err = run(command, "--help") if command != "help" else run("help", "run")
        tally(status == 0 and "usage: sheet" in page and not err, f"{command} --help: {page}")
    header = (ROOT / "include/sheet.h").read_text()
    version = re.search(r'SHEET_VERSION "(.*)"', header).group(1)
    status, out, _ = run("--version")
    tally(status == 0 and f"sheet.h {version}\n" in out, f"--version: {out}")
    tally("libsheets.a: sheet_carry sheet_check" in out, f"--version: {out}")
    status, out, err = run()
    tally((status, out) == (2, "") and "usage: sheet COMMAND" in err, "no command")
    gives(2, "", "sheet: there is no command chek, did you mean check?; see: sheet help\n", "chek")
    none = "none.txt cannot be read: there is no such file or folder"
    gives(2, "", f"sheet: {none}\n", "check", "none.txt")
    gives(2, "", "sheet: . cannot be read: it is a folder\n", "check", ".")
    gives(2, "", "sheet: FILE is missing; see: sheet check --help\n", "check")
    gives(2, "", "sheet: b is one word too many; see: sheet check --help\n", "check", "a", "b")
    gives(2, "", "sheet: there is no option --x; see: sheet run --help\n", "run", "--x")
    gives(2, "", "sheet: --next needs a value; see: sheet run --help\n", "run", "--next")
    accepted = "-: accepted: input `bit`, output `bit`, 17 records\n"
    gives(0, accepted, "", "check", "-", stdin=(TEXTS / "T.txt").read_bytes())
    written = "none/T.bin cannot be written: there is no such file or folder"
    gives(2, "", f"sheet: {written}\n", "translate", TEXTS / "T.txt", "none/T.bin")
    colours()
    progress()
    completion()


# What a command prints on standard error where that is a terminal.
def on_terminal(*words, **around):
    parent, child = pty.openpty()
    environment = {**os.environ, **around}
    words = [SHEET, *words]
    none = subprocess.DEVNULL
    ran = subprocess.Popen(words, cwd=WORK, env=environment, stdout=none, stderr=child)
    printed = b""
    while ran.poll() is None or select.select([parent], [], [], 0.2)[0]:
        if select.select([parent], [], [], 0.05)[0]:
            printed += os.read(parent, 65536)
    os.close(parent)
    os.close(child)
    return printed.decode()


def colours():
    os.environ.pop("NO_COLOR", None)
    (WORK / "bad.txt").write_text("TYPE\n")
    tally("\x1b[1;31merror:\x1b[0m" in on_terminal("check", "bad.txt"), "no colours on a terminal")
    tally("\x1b" not in on_terminal("check", "bad.txt", NO_COLOR="1"), "colours with NO_COLOR")
    tally("\x1b" not in run("check", "bad.txt")[2], "colours in a file")


# A run that takes longer than a second says how far it is, on a terminal and nowhere else.
def progress():
    (WORK / "long.stim").write_text("hi * 12000000\n")
    words = ["run", TEXTS / "T.txt", "long.stim"]
    printed = on_terminal(*words)
    tally(re.search(r"\r[\d,]+ of 12,000,000 cycles", printed), f"no progress: {printed[:200]}")
    (WORK / "short.stim").write_text("hi * 12\n")
    printed = on_terminal(*words[:2], "short.stim")
    tally(printed == "", f"progress of a short run: {printed[:200]}")


# What bash completes after some words.
def completed(*words):
    script = run("completion", "bash")[1]
    listed = " ".join(f"'{word}'" for word in ("sheet", *words))
    ask = f"COMP_WORDS=({listed}); COMP_CWORD={len(words)}; _sheet; echo \"${{COMPREPLY[@]}}\""
    bash = ["bash", "-c", f"{script}\n{ask}"]
    ran = subprocess.run(bash, cwd=WORK, capture_output=True, text=True)
    tally(not ran.stderr, f"completion: {ran.stderr}")
    return ran.stdout.split()


def completion():
    tally(completed("rec") == ["records"], "sheet rec is completed by records")
    tally(completed("run", "--n") == ["--numbers", "--next"], "sheet run --n")
    tally(completed("check", "bad") == ["bad.txt"], "sheet check bad")
    tally(completed("help", "tra") == ["translate"], "sheet help tra")
    gives(2, "", "sheet: there is no completion for zsh, only for bash\n", "completion", "zsh")
