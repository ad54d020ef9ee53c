"""What the scripts read from the sources: crates.txt, and what the archives export."""
import re
import sys
from pathlib import Path

ROOT = Path(__file__).resolve().parent.parent

EXPORT = re.compile(r'#\[unsafe\(no_mangle\)\]\s*pub extern "C" fn (\w+)\(')
COMMENTS = re.compile(r"//[^\n]*")
DECLARED = r"^(?!static )\w[\w ]*[ *]%s\(([^)]*)\);"


# The lines of crates.txt: the crate, the words behind its name, as `staticlib`, and the names behind
# the colon.
def lines(text):
    for line in text.splitlines():
        before, _, names = line.split("#")[0].partition(":")
        if before.split():
            crate, *words = before.split()
            yield crate, words, names.split()


# Each crate with the names on its line of crates.txt.
def crates(root=ROOT):
    return {crate: names for crate, _, names in lines((root / "crates.txt").read_text())}


# The files of a crate that are its sources, and its templates and edits: all but what rt made.
def sources(folder):
    for part in sorted(folder.iterdir()):
        if part.name != "out":
            yield from [part] if part.is_file() else sorted(part.rglob("*"))


# The crates that a crate reaches, directly and through others, without itself.
def reached(crate, named):
    found, open_ones = set(), list(named.get(crate, []))
    while open_ones:
        one = open_ones.pop()
        if one not in found:
            found.add(one)
            open_ones += named.get(one, [])
    return found


# The functions that the archive of a crate exports, in the order of its sources. Ends the script
# where one is marked that is not understood.
def exports(crate, root=ROOT):
    found = []
    for file in sorted((root / "crates" / crate / "src").rglob("*.rt")):
        text = COMMENTS.sub("", file.read_text())
        names = EXPORT.findall(text)
        if len(names) != text.count("no_mangle"):
            sys.exit(f"{file.relative_to(root)}: not every function marked no_mangle is understood")
        found += names
    return found


# The crates that are archives: those that crates.txt calls `staticlib`, and no others, export
# something. The two that hosts link are there.
def archives(root=ROOT):
    found = [crate for crate in crates(root) if exports(crate, root)]
    listed = lines((root / "crates.txt").read_text())
    static = [crate for crate, words, _ in listed if "staticlib" in words]
    if found != static:
        sys.exit(f"{sys.argv[0]}: staticlib are {static}, and {found} export something")
    if not {"checker", "sheets"} <= set(found):
        sys.exit(f"{sys.argv[0]}: checker or sheets exports nothing")
    return found


# The crates that are programs.
def programs(root=ROOT):
    return sorted(main.parts[-3] for main in (root / "crates").glob("*/src/main.rt"))


# The parameters of a call as include/sheet.h declares it, or none.
def parameters(call, root=ROOT):
    found = re.search(DECLARED % call, (root / "include/sheet.h").read_text(), re.M)
    return found and [re.sub(r"\s+", " ", one.strip()) for one in found.group(1).split(",")]


# The file of an archive or of a program that was built. Ends the script where it is not there.
def archive_file(crate, root=ROOT):
    return built(root / "target/staticlib" / f"lib{crate}.a", "archives", root)


def program_file(crate, root=ROOT):
    return built(root / "target/bin" / crate, "programs", root)


def built(file, part, root):
    if not file.exists():
        sys.exit(f"{sys.argv[0]}: there is no {file.relative_to(root)}: .ci/run {part}")
    return file
