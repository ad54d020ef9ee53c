"""Commands, and programs that print the listing of a run."""
import os
import subprocess
import sys


def fail(message):
    print(f"bench/run: {message}")
    sys.exit(1)


def command(*words, where=None):
    words = [str(word) for word in words]
    done = subprocess.run(words, cwd=where, stdout=subprocess.PIPE, stderr=subprocess.STDOUT)
    if done.returncode:
        print(done.stdout.decode(errors="replace"), end="")
        fail(f"failed: {' '.join(words)}")


class Program:
    """A program that reads the files of a folder and prints a listing. `quiet`: the word by which
    it prints none, if it has one. `by_hand`: it takes and prints bits, and knows no undefined leaf.
    """

    def __init__(self, *words, quiet=None, by_hand=False):
        self.words, self.quiet, self.by_hand = [str(word) for word in words], quiet, by_hand

    def run(self, folder, quiet=False):
        """Its processor time in milliseconds, and the listing."""
        words = self.words + ([self.quiet] if quiet else [])
        if self.by_hand:
            words.append(f"+cycles={len((folder / 'stim.txt').read_text().splitlines())}")
        printed = folder / "listing.txt"
        with open(printed, "wb") as file:
            process = subprocess.Popen(words, cwd=folder, stdout=file)
            _, status, used = os.wait4(process.pid, 0)
            process.returncode = status
        if status:
            fail(f"failed in {folder}: {' '.join(words)}")
        text = printed.read_text()
        return 1000 * (used.ru_utime + used.ru_stime), spread(text) if self.by_hand else text


def spread(text):
    """The listing of lines that have a bit for each leaf, 1 for hi and 0 for lo."""

    def line(of):
        cycle, colon, bits = of.partition(": ")
        return cycle + ":" + "".join(" 1" if bit == "1" else " 2" for bit in bits) if colon else of

    return "\n".join(line(of) for of in text.split("\n"))
