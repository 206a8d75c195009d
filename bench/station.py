#!/usr/bin/env python3
"""Puts files and beginnings to the program `station` and to the model, and compares the lines.

    bench/station.py [FILES [SEED]]

FILES is 200 and SEED 1 if they are not given; the same two make the same files. First come the fixed ones: cut, too long, with other word counts, beginnings that are
empty or long, sums with carries, files that are none. Of the random ones a third is damaged and some are cut or made longer.

Needs crates/station/out/station, which `rt ci` leaves there, and `rt run` in crates/station too; STATION=words names another command. On another machine than
x86-64 it runs in qemu-x86_64, or in what QEMU names, over the C library that Debian's libc6-dev-amd64-cross has. Exit status 0: no difference; 1: some; 2: something that is needed is missing.
"""
import os
import pathlib
import platform
import shlex
import shutil
import subprocess
import sys
import tempfile
from collections import Counter

sys.dont_write_bytecode = True  # nothing is left beside the sources

import beside
import model
from traces import Dice

ROOT = pathlib.Path(__file__).resolve().parent.parent
SYSTEM = pathlib.Path("/usr/x86_64-linux-gnu")  # what programs for x86-64 find in the place of / on another machine
SHOWN = 3  # differences
NO_FILE = "6 0 0 0\n"


def missing(what):
    print(f"station.py: {what}", file=sys.stderr)
    sys.exit(2)


def command():
    """The program, behind what it runs in."""
    if "STATION" in os.environ:
        return shlex.split(os.environ["STATION"])
    program, emulator = ROOT / "crates/station/out/station", os.environ.get("QEMU", "qemu-x86_64")
    if not program.is_file():
        missing(f"no {program}; 'rt run' in crates/station writes it")
    if platform.machine() == "x86_64":
        return [program]
    if not shutil.which(emulator):
        missing(f"this is no x86-64 machine, and there is no {emulator} that the program could run in (QEMU=path names one)")
    if not (SYSTEM / "lib/ld-linux-x86-64.so.2").exists():
        missing(f"no C library for x86-64 below {SYSTEM}")
    return [emulator, "-L", SYSTEM, program]


def line(file, beginning):
    """The line that the model has for a file. It lends as much scratch as any file has bytes."""
    try:
        answer = model.station_total(*model.opened(file), bytearray(model.LONGEST_FILE), beginning)
    except model.Refused as refusal:
        answer = (*refusal.args, 0, 0, 0)
    return " ".join(map(str, answer)) + "\n"


# The files


def block(capacities, *pairs):
    """A block with these tags and totals."""
    words, keys = beside.lengths(capacities)
    words, keys, scratch = [0] * words, bytearray(keys), bytearray(sum(capacities))
    model.start(words, keys, capacities)
    for tag, total in pairs:
        model.insert(words, keys, scratch, tag, total)
    return words, keys


def of_length(length):
    """A sound block whose file has so many bytes: with three leaves, and filled up with as many inner records as can be, so that it wants the most scratch."""
    left = (length - len(model.save(*block([0, 0, 0, 0, 3])))) // 4
    twos = next(count for count in range(19) if (left - 43 * count) % 19 == 0)
    return model.save(*block([(left - 43 * twos) // 19, twos, 0, 0, 3], (b"L14/P1", 10), (b"L14/P2", 20), (b"L15/P1", 7)))


def fixed():
    """What a file is, the file, and a beginning."""
    largest = 2**64 - 1
    words, keys = block([3, 1, 0, 0, 5], (b"L14/P1", 10), (b"L14/P2", 20), (b"L15/P1", largest), (b"L15/P2", largest), (b"L15/P3", 2))
    file = model.save(words, keys)
    for beginning in (b"L14", b"", b"L15", b"L", b"L14/P1", b"L14/P12", b"L14\n", b"M", b"\0", *(b"L14" + bytes(more) for more in (61, 62, 126, 4093, 4094, 200000))):
        yield "sound", file, beginning
    longest = bytes(range(64))
    for beginning in (longest, longest[:-1], longest + b"\0", longest + b"\n"):
        yield "a tag of 64 bytes", model.save(*block([0, 0, 0, 0, 1], (longest, 9))), beginning
    for length in (0, 1, 3, 4, 5, 8, 4 + 4 * len(words) - 1, 4 + 4 * len(words), len(file) - 1):
        yield f"cut to {length} bytes", file[:length], b"L14"
    for more in (1, 3, 64, len(file)):
        yield f"{more} bytes more", file + bytes(more), b"L14"
    for count in (0, 1, len(words) - 1, len(words) + 1, len(words) + 2**30, 2**31, 2**32 - 1):
        yield f"word count {count}", count.to_bytes(4, "little") + file[4:], b"L14"
    yield "numbers highest byte first", b"".join(word.to_bytes(4, "big") for word in (len(words), *words)) + bytes(keys), b"L14"
    yield "no tags", model.save(*block([0, 0, 0, 0, 0])), b""
    for length in (59996, 60000, 60004):
        yield f"sound, {length} bytes", of_length(length), b"L14"
    yield "60,001 bytes", of_length(60000) + b"\0", b"L14"
    yield "60,000 bytes, all 0", bytes(60000), b""
    yield "a million bytes", file * (10**6 // len(file)), b"L14"


def random(dice, count):
    """The blocks that random calls leave, some then damaged, and beginnings of tags that are held or were asked for."""
    for _ in range(count):
        made = beside.List(1 + dice.below(60), dice.below(2**31))
        what = "random"
        if dice.below(3) == 0:
            what = "damaged"
            for _ in range(1 + dice.below(3)):
                made.damage()
        file, tag = model.save(made.memory.words, made.memory.keys), made.probe()
        if dice.below(8) == 0:
            what, file = dice.pick((("cut", file[: dice.below(len(file))]), ("longer", file + bytes(1 + dice.below(70))), ("a word less", file[:4] + file[8:])))
        yield what, file, dice.pick((b"", tag, tag[:1], tag[: dice.below(len(tag) + 1)], tag[: dice.below(len(tag) + 1)], tag + b"\n"))


# The program beside the model


class Comparison:
    def __init__(self, folder):
        self.program, self.folder = command(), pathlib.Path(folder)
        self.numbers, self.runs, self.differences = Counter(), 0, 0

    def run(self, what, words, beginning, due):
        """Runs the program on these arguments, and compares what it prints with what is due."""
        done = subprocess.run([*self.program, *words], input=beginning, stdout=subprocess.PIPE)
        self.runs += 1
        self.numbers[int(due.split()[0])] += 1
        if done.stdout != due.encode() or done.returncode != 0:
            self.differences += 1
            if self.differences <= SHOWN:
                print(f"{what}, beginning {beginning[:70]}:\n  model   {due!r}\n  station {done.stdout[:200]!r}, status {done.returncode}")

    def on_file(self, what, file, beginning):
        name = self.folder / "block"
        name.write_bytes(file)
        self.run(f"{what}, {len(file)} bytes", [name], beginning, line(file, beginning))

    def on_none(self):
        for what, words in (("no argument", []), ("an empty name", [""]), ("a missing file", [self.folder / "none"]), ("a folder", [self.folder]), ("a long name", ["x" * 5000])):
            self.run(what, words, b"L14", NO_FILE)


def main(files=200, seed=1):
    with tempfile.TemporaryDirectory() as folder:
        comparison = Comparison(folder)
        comparison.on_none()
        for case in (*fixed(), *random(Dice(int(seed)), int(files))):
            comparison.on_file(*case)
    print("numbers: " + ", ".join(f"{number} {count} times" for number, count in sorted(comparison.numbers.items())))
    print(f"{comparison.runs} files, {comparison.differences} differences")
    return 1 if comparison.differences else 0


if __name__ == "__main__":
    sys.exit(main(*sys.argv[1:]))
