"""The circuits that are timed, their stimuli, and their programs for simulators of Verilog."""
import ctypes
import pathlib
import random

import verilog
from programs import Program, command, fail

HERE = pathlib.Path(__file__).resolve().parent
ROOT = HERE.parent
WORK = ROOT / "target/bench"
LONGEST_STIMULUS, LONGEST_SHEET = 65535, 49152
SEED = 38
# Load of the multiplier is given in one cycle of so many: it needs 14 for a product of 28 bits.
LOAD = 16
# In the stimulus that is compared and not timed, one leaf of so many is undefined.
UNDEFINED = 1000


def toggles(doublings):
    """The text of 2^doublings circuits T side by side, each with its own leaf of the input."""

    def toggle(path):
        flipped = "(IF q MATCHES lo THEN hi ELSE lo)"
        part = f"(IF input{path} MATCHES hi THEN {flipped} ELSE q)"
        return f"(LET INIT ?bit REC q = (DELAY (lo, {part})) IN q)"

    def joined(path, left):
        if left == 0:
            return toggle(path)
        return f"({joined(path + '[1]', left - 1)}, {joined(path + '[2]', left - 1)})"

    words = ["bit", "two", "four", "eight", "sixteen", "thirtytwo", "sixtyfour"][:doublings + 1]
    types = [f"TYPE {wide} = ({half}, {half}) IN" for half, wide in zip(words, words[1:])]
    return "\n".join(["TYPE bit = hi | lo IN", *types, f"INPUT {words[-1]}", joined("", doublings)])


def circuits():
    """Names, texts, and modules of by_hand.v."""
    texts = ROOT / "examples/texts"
    yield "T", (texts / "T.txt").read_text(), "toggle"
    yield "64 toggles", toggles(6), "toggles"
    yield "24-bit adder", (texts / "adder-24.txt").read_text(), "adder"
    yield "Booth, 28 bits", (texts / "booth-28.txt").read_text(), "booth"


def translated(library, name, text):
    room = ctypes.create_string_buffer(LONGEST_SHEET)
    text = text.encode()
    result = library.sheet_translate(text, len(text), room, LONGEST_SHEET)
    if result >> 32:
        fail(f"{name}: the text is not translated, code {result >> 32}")
    return room.raw[:result]


def stimulus(counts, load, undefined):
    """As many cycles as a stimulus may have; the seed makes it the same in every run."""
    chance = random.Random(SEED)
    leaves = []
    for _ in range(LONGEST_STIMULUS // len(counts)):
        cycle = [chance.randint(1, count) for count in counts]
        if load:
            cycle[0] = 1 if chance.randrange(LOAD) == 0 else 2
        leaves += cycle
    if undefined:
        leaves = [0 if chance.randrange(UNDEFINED) == 0 else leaf for leaf in leaves]
    return bytes(leaves)


def load_archive(folder):
    shared = WORK / "libsheets.so"
    whole = ["-Wl,--whole-archive", folder / "libsheets.a", "-Wl,--no-whole-archive"]
    command("cc", "-shared", "-o", shared, *whole)
    library = ctypes.CDLL(str(shared))
    library.sheet_translate.argtypes = [ctypes.c_char_p, ctypes.c_size_t] * 2
    library.sheet_translate.restype = ctypes.c_uint64
    return library


class Circuit:
    def __init__(self, library, number, name, text, by_hand):
        self.name, self.by_hand = name, by_hand
        self.folder = WORK / f"circuit-{number}"
        self.folder.mkdir()
        self.sheet = translated(library, name, text)
        self.records = len(self.sheet) // 12
        self.netlist = verilog.Netlist(self.sheet)
        counts = self.netlist.sheet.counts[self.netlist.sheet.input_type]
        self.cycles = LONGEST_STIMULUS // len(counts)
        load = by_hand == "booth"
        self.stimuli = {
            "timed": stimulus(counts, load, False),
            "undefined": stimulus(counts, load, True),
            "one cycle": stimulus(counts, load, False)[:len(counts)],
        }
        for kind, content in self.stimuli.items():
            folder = self.at(kind)
            folder.mkdir()
            (folder / "sheet.bin").write_bytes(self.sheet)
            (folder / "stim.bin").write_bytes(content)
            if kind != "undefined":
                bits = "".join("1" if leaf == 1 else "0" for leaf in content)
                lines = [bits[at:at + len(counts)] for at in range(0, len(bits), len(counts))]
                (folder / "stim.txt").write_text("\n".join(lines) + "\n")

    def at(self, kind):
        return self.folder / kind.replace(" ", "-")

    def numbers(self):
        """What the sources of the hosts are given by the command of the compiler."""
        of = {"OUTPUT_TYPE": self.netlist.output_type, "IN": self.netlist.in_leaves,
              "OUT": self.netlist.out_leaves, "CYCLES": self.cycles, "CIRCUIT": self.by_hand}
        return [f"-D{name}={value}" for name, value in of.items()]

    def build_icarus(self):
        source, program = self.folder / "icarus.v", self.folder / "icarus.vvp"
        bench = verilog.test_bench(self.netlist, self.cycles)
        source.write_text(self.netlist.module(True) + bench)
        command("iverilog", "-g2005", "-o", program, source)
        return Program("vvp", "-n", program, quiet="+quiet")

    def build_by_hand(self):
        program = self.folder / "by-hand.vvp"
        numbers = self.numbers()
        command("iverilog", "-g2005", "-s", "bench", *numbers, "-o", program, HERE / "by_hand.v")
        return Program("vvp", "-n", program, quiet="+quiet", by_hand=True)

    def build_verilator(self):
        source, folder = self.folder / "sheet.v", self.folder / "verilated"
        source.write_text(self.netlist.module(False))
        flags = " ".join([f"-I{HERE}", *self.numbers()])
        command("verilator", "--cc", "--exe", "--build", "-O3", "--x-assign", "fast",
                "--x-initial", "fast", "--noassert", "-Wno-fatal", "--top-module", "sheet",
                "-CFLAGS", flags, "-MAKEFLAGS", "OPT_FAST=-O3 OPT_GLOBAL=-O3", "--Mdir", folder,
                "-o", "clocked", source, HERE / "clocked.cpp")
        return Program(folder / "clocked", quiet="quiet")
