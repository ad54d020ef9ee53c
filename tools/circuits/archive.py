"""The calls of target/staticlib/libsheets.a, from a shared object that has the archive whole."""
import ctypes
import subprocess

LONGEST_STIMULUS, LONGEST_SHEET = 65535, 49152
FLAT_TYPE = 16


class Refused(Exception):
    """A call answers by a code."""


def load_archive(archive, shared):
    """Links the shared object and declares the calls."""
    shared.parent.mkdir(parents=True, exist_ok=True)
    whole = ["-Wl,--whole-archive", archive, "-Wl,--no-whole-archive"]
    subprocess.run(["gcc", "-shared", "-o", shared, *whole], check=True)
    library = ctypes.CDLL(str(shared))
    for name, slices in (("sheet_translate", 2), ("sheet_check", 1), ("sheet_run", 4)):
        call = getattr(library, name)
        call.argtypes = [ctypes.c_char_p, ctypes.c_size_t] * slices
        call.restype = ctypes.c_uint64
    return library


def place_of(result, name):
    code, place = result >> 32, result & 0xFFFFFFFF
    if code != 0:
        raise Refused(f"{name}: refused {code} at {place}")
    return place


class Circuit:
    """The sheet of a text, which the check accepts."""

    def __init__(self, library, name, text):
        self.library, self.name = library, name
        room = ctypes.create_string_buffer(LONGEST_SHEET)
        length = place_of(library.sheet_translate(text, len(text), room, LONGEST_SHEET), name)
        self.sheet = room.raw[:length]
        self.records = length // 12
        output_type = place_of(library.sheet_check(self.sheet, length), name)
        self.taken, self.given = self.leaves(self.word(0, 2)), self.leaves(output_type)

    def word(self, record, number):
        return int.from_bytes(self.sheet[12 * record + 2 * number:][:2], "little")

    def leaves(self, record):
        """The leaves of a type."""
        if self.word(record, 0) == FLAT_TYPE:
            return 1
        return self.leaves(self.word(record, 2)) + self.leaves(self.word(record, 3))

    def run(self, stimulus):
        """The outputs of a run of the sheet, all cycles in one row. Where one call does not take
        the whole stimulus, the next call goes on from the next sheet."""
        sheet, length, outputs = self.sheet, len(self.sheet), []
        step = LONGEST_STIMULUS // self.taken * self.taken
        for start in range(0, len(stimulus), step):
            part = bytes(stimulus[start:start + step])
            size = len(part) // self.taken * self.given
            out = ctypes.create_string_buffer(size)
            following = ctypes.create_string_buffer(length)
            result = self.library.sheet_run(sheet, length, part, len(part), out, size,
                                            following, length)
            if place_of(result, self.name) * self.taken != len(part):
                raise Refused(f"{self.name}: not all cycles were done")
            outputs.append(out.raw)
            sheet = following.raw
        return b"".join(outputs)
