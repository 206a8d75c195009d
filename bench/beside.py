#!/usr/bin/env python3
"""Puts a list of random calls to the port and to the model, and compares every answer and the checksums of all memory after it.

    bench/beside.py [CALLS [SEED]]

CALLS is 20,000 and SEED 1 if they are not given; the same two make the same list. A quarter of the calls are put to blocks that were damaged just before. The
list, the model's answers and the port's are left in target/beside.

Needs a C compiler for x86-64 and the port's static library, which `tools/staticlib` writes; LIBRARY=path names another. On another machine than
x86-64 the port runs in qemu-x86_64, or in what QEMU names. Exit status 0: no difference; 1: some; 2: something that is needed is missing.
"""
import itertools
import os
import pathlib
import platform
import shutil
import struct
import subprocess
import sys
import zlib
from collections import Counter

sys.dont_write_bytecode = True  # nothing is left beside the sources

import model
from traces import Dice

HERE = pathlib.Path(__file__).resolve().parent
OUT = HERE.parent / "target" / "beside"
SHOWN, MOST_SHOWN = 3, 200  # differences, and characters of a line
NUMBERS = range(10)
LARGEST_WORD = 2**32 - 1
EDGES = (5, 16, 17, 48, 49)  # about these numbers of children a record changes its kind
TOTALS = (0, 1, LARGEST_WORD, 2**32, 2**64 - 1)


def missing(what):
    print(f"beside.py: {what}", file=sys.stderr)
    sys.exit(2)


def hexed(tag):
    return tag.hex() or "-"


# The model behind the lines of bench/replay.c


class Memory:
    """The slices that a list of calls works on."""

    def __init__(self):
        self.words, self.keys, self.scratch, self.kept = [], bytearray(), bytearray(), ([], b"")

    def answer(self, line):
        """Does what a line says, and gives the line that replay prints for it."""
        name, *fields = line.split()
        try:
            said = CALLS[name][0](self, *fields) if name in CALLS else LINES[name](self, *map(int, fields)) or ()
        except model.Refused as refusal:
            said = (*refusal.args, *CALLS[name][1])
        memory = (struct.pack(f"<{len(self.words)}I", *self.words), self.keys, self.scratch)
        return " ".join([name, *map(str, said), *(f"{zlib.crc32(part):08x}" for part in memory)])

    def start(self, form, *numbers):
        *capacities, words, keys, scratch = map(int, numbers)
        self.words, self.keys, self.scratch = [0xDEADBEEF] * words, bytearray(b"\xaa" * keys), bytearray(b"\x55" * scratch)
        return model.start(self.words, self.keys, capacities)

    def again(self, *capacities):
        return model.start(self.words, self.keys, list(map(int, capacities)))

    def tag_of(self, leaf):
        number, tag = model.leaf_tag(self.words, self.keys, int(leaf))
        return number, hexed(tag)

    def write_word(self, at, value):
        self.words[at] = value

    def write_key(self, at, value):
        self.keys[at] = value

    def reach_words(self, front, back):
        self.words = reached(self.words, [0], front, back)

    def reach_keys(self, front, back):
        self.keys = reached(self.keys, bytearray(1), front, back)

    def lend_scratch(self, length):
        self.scratch = bytearray(b"\x55" * length)

    def save(self):
        self.kept = (self.words[:], self.keys[:])

    def back(self):
        self.words, self.keys = self.kept[0][:], self.kept[1][:]


def reached(items, zero, front, back):
    """With so many zeros more at the front and at the back, or so many items less."""
    items = zero * front + items[max(-front, 0) :]
    return items + zero * back if back >= 0 else items[:back]


def unhexed(text):
    return b"" if text == "-" else bytes.fromhex(text)


def reading(call):
    return lambda memory, *leaf: call(memory.words, memory.keys, *map(int, leaf))


def with_tag(call):
    return lambda memory, tag: (*call(memory.words, memory.keys, unhexed(tag)), 0)


def changing(call):
    return lambda memory, tag, *total: (*call(memory.words, memory.keys, memory.scratch, unhexed(tag), *map(int, total)), 0)


def asking(call):
    return lambda memory, beginning: call(memory.words, memory.keys, memory.scratch, unhexed(beginning))


def ending_in_0(call):
    return lambda *given: (*call(*given), 0)


# Each call with what a refusal adds to its number. Found and changed answers end in a 0.
CALLS = {
    "start": (Memory.start, ()),
    "again": (Memory.again, ()),
    "insert": (changing(model.insert), (0, 0)),
    "delete": (changing(model.delete), (0, 0)),
    "search": (with_tag(model.search), (0, 0, 0)),
    "prefix": (with_tag(model.prefix_search), (0, 0, 0)),
    "after": (changing(model.first_at_or_after), (0, 0, 0)),
    "station": (asking(model.station_total), (0, 0, 0)),
    "min": (ending_in_0(reading(model.minimum)), (0, 0, 0)),
    "max": (ending_in_0(reading(model.maximum)), (0, 0, 0)),
    "next": (ending_in_0(reading(model.next_leaf)), (0, 0, 0)),
    "info": (reading(model.leaf_facts), (0, 0)),
    "tag": (Memory.tag_of, ("-",)),
    "check": (lambda memory: model.check(memory.words, memory.keys, memory.scratch), ()),
}
LINES = {
    "word": Memory.write_word,
    "key": Memory.write_key,
    "words": Memory.reach_words,
    "keys": Memory.reach_keys,
    "scratch": Memory.lend_scratch,
    "save": Memory.save,
    "back": Memory.back,
}


# Families of tags. Each gives the tags of one round; they meet at the boundaries of the block: 8 stored bytes, 64 bytes, 4, 16, 48 and 256 children.


def letters(dice, count, of=b"AB"):
    return bytes(dice.pick(of) for _ in range(count))


def every_byte(dice):
    """One byte behind a common beginning, so that one record takes up to 256 children."""
    beginning = letters(dice, dice.pick((0, 0, 1, 7, 8, 9, 10, 62, 63)))
    return [beginning + bytes([byte]) for byte in range(256)]


def about_eight(dice):
    """Beginnings of 7 to 10 bytes are shared."""
    base = letters(dice, 20)
    return [base[: dice.pick((7, 8, 9, 10, 17, 18, 19))] + letters(dice, 1 + dice.below(3), b"ABC") for _ in range(60)]


def about_sixty_four(dice):
    base = letters(dice, 66)
    tags = [base[:length] for length in range(60, 66)]
    return tags + [base[:at] + letters(dice, 62 + dice.below(4) - at, b"ABC") for at in (dice.below(62) for _ in range(30))]


def short(dice):
    """Up to four bytes, the empty tag too, of which many begin others."""
    return [bytes(tag) for length in range(5) for tag in itertools.product(b"ab", repeat=length)]


def deep(dice):
    """A path that branches at each of 64 bytes."""
    return [b"A" * length + b"B" for length in range(64)] + [b"A" * 64]


def runs(dice):
    """Runs of up to nine bytes, one after another."""
    return [b"".join(dice.pick((b"ABCDEFGH", b"ABCDEFG", b"ABCDEFGHI", b"A", b"", b"\0", b"\xff")) for _ in range(1 + dice.below(6))) for _ in range(50)]


def plant(dice):
    return [b"L%d/P%d/FLOW%02d" % (10 + dice.below(9), dice.below(5), dice.below(60)) for _ in range(200)]


FAMILIES = (every_byte, every_byte, every_byte, about_eight, about_eight, about_sixty_four, short, deep, runs, plant)


def capacities_for(dice, tags):
    """Leaves for all tags or for some; of each kind of inner record enough, one or none, or few of all."""
    leaves = dice.pick((len(tags), *[min(len(tags), 60)] * 4, 20, 9, 5, 2, dice.below(4)))
    enough = [dice.pick((leaves, leaves // 2)), 1 + leaves // 8, 1 + leaves // 32, 1]
    some = [dice.pick((0, 1, count)) for count in enough]
    few = [dice.below(4), dice.below(3), dice.below(2), dice.below(2)]
    return [*dice.pick((enough, enough, some, some, few)), leaves]


def lengths(capacities):
    """How many words and key bytes a block has."""
    return model.trailer(capacities)[-1], 64 * capacities[-1]


# The list


class List:
    """The lines of a list with the model's answers. Lines are made as the model stands, so that they speak of records and tags that are there."""

    def __init__(self, calls, seed):
        self.dice, self.wanted = Dice(seed), calls
        self.lines, self.answers = [], []
        self.calls = self.damaged = 0
        self.memory = Memory()
        while self.calls < self.wanted:
            self.play_round()

    def say(self, *line):
        """Puts a line to the model and gives the first that it answers, which is the number if the line is a call."""
        line = " ".join(map(str, line))
        self.lines.append(line)
        self.answers.append(self.memory.answer(line))
        self.calls += line.split()[0] in CALLS
        return self.answers[-1].split()[1]

    def chance(self, one_in):
        return self.dice.below(one_in) == 0

    def play_round(self):
        """A start, then calls that let the directory grow and shrink by turns, now and then damaged."""
        self.tags = list(dict.fromkeys(self.dice.pick(FAMILIES)(self.dice)))
        self.capacities = capacities_for(self.dice, self.tags)
        if self.chance(4):
            self.start_oddly()
        self.start(self.capacities, *lengths(self.capacities))
        self.held, self.paths, self.growing = set(), [], True
        for _ in range(60 + 6 * self.capacities[-1]):
            if self.calls >= self.wanted:
                return
            self.call()
            if 4 * self.damaged < self.calls:
                self.damage_and_call()

    def start(self, capacities, words, keys):
        self.say("start", 1, *capacities, words, keys, min(sum(capacities), 2**16) + 3)

    def start_oddly(self):
        """A start that is refused, or one with the largest capacity, and a few calls."""
        words, keys = lengths(self.capacities)
        off, pool, capacity = self.dice.pick((-1, 1, 16)), self.dice.pick((0, 1, 4)), self.dice.pick((4096, 4097, LARGEST_WORD))
        large = self.capacities[:pool] + [capacity] + self.capacities[pool + 1 :]
        as_large = lengths(large) if capacity != LARGEST_WORD else (words, keys)
        wrong = ((self.capacities, words + off, keys), (self.capacities, words, max(keys + off, 0)))
        self.start(*self.dice.pick((*wrong, (large, *as_large), (large, *as_large))))
        self.held, self.paths, self.growing = set(), [], True
        for _ in range(4):
            self.call()

    def call(self):
        """One call, at times with another length of scratch than usual."""
        need = sum(self.capacities)
        odd = self.chance(20)
        if odd:
            self.say("scratch", self.dice.pick((0, max(need - 1, 0), need, need + 1)))
        turn = self.dice.below(20)
        if turn < 11:
            self.change(turn < 9 if self.growing else turn < 2)
        elif turn < 17:
            call = self.dice.pick(("search", "prefix", "after", "station"))
            self.say(call, hexed(self.beginning() if call == "station" else self.probe()))
        elif turn < 19:
            self.say(self.dice.pick(("next", "info", "tag")), self.some_leaf())
        else:
            self.say(self.dice.pick(("min", "max", "check")))
        if odd:
            self.say("scratch", need + 3)

    def some_leaf(self):
        """A leaf number, mostly of one in use: those have the lowest."""
        in_use = self.dice.below(max(len(self.held), 1))
        return self.dice.pick((in_use, in_use, in_use, self.dice.below(self.capacities[-1] + 2), self.dice.pick((self.capacities[-1], LARGEST_WORD))))

    def change(self, more):
        """An insert, mostly of a tag that is not held, or a delete, mostly of one that is. Once tags are refused the directory is to shrink, once it is empty
        to grow, and about an edge it often turns."""
        choice = [tag for tag in self.tags if (tag in self.held) != more]
        chosen = choice and not self.chance(6)
        tag = self.dice.pick(choice) if chosen else self.probe()
        if more:
            total = self.dice.pick((*TOTALS, self.dice.below(2**31) << self.dice.below(33)))
            number = self.say("insert", hexed(tag), total)
            if number == "0":
                self.held.add(tag)
            if not choice or chosen and number in "345" and self.chance(8):
                self.growing = False
        else:
            if self.say("delete", hexed(tag)) == "0":
                self.held.discard(tag)
            self.growing = self.growing or not self.held
        if len(self.held) in EDGES and self.chance(3):
            self.growing = not self.growing

    def probe(self):
        """A tag of the round, one a little beside it, or one that goes round a ring."""
        dice, tag = self.dice, self.dice.pick(sorted(self.held) if self.held and not self.chance(3) else self.tags)
        at = dice.below(len(tag) + 1)
        beside = tag[:at] + bytes([dice.pick((0, 65, 67, 255))]) + tag[at + 1 :]
        choices = [tag] * 5 + [beside, tag[:at], tag + letters(dice, 1), tag + b"Z" * dice.pick((1, 8, 60, 100)), b""]
        return dice.pick(self.paths) if self.paths and self.chance(2) else dice.pick(choices)

    def beginning(self):
        """Mostly the front of a held tag, of any length, which many tags may have; or no bytes, which all have; or a held tag and a byte more, or a probe,
        which often none has: it may be unheld, or longer than any tag."""
        tag = self.dice.pick(sorted(self.held) or self.tags)
        front = tag[: self.dice.below(len(tag) + 1)]
        return self.dice.pick((front, front, front, b"", tag + letters(self.dice, 1), self.probe()))

    # Damage

    def damage_and_call(self):
        held = set(self.held)
        self.say("save")
        for _ in range(self.dice.pick((1, 1, 1, 2, 3))):
            self.damage()
        for _ in range(1 + self.dice.below(6)):
            before = self.calls
            self.call()
            self.damaged += self.calls - before
        if self.chance(40):
            self.say("again", *self.capacities)
            self.damaged += 1
        self.say("back")
        self.held, self.paths = held, []

    def damage(self):
        """In any words or key bytes, or, where the block is still sound, in a leaf or in a record that is on the way to it."""
        if self.chance(2):
            return self.dice.pick((self.spoil_word, self.spoil_word, self.spoil_word, self.spoil_key, self.spoil_key, self.exchange, self.cut))()
        try:
            block = model.Block(self.memory.words, self.memory.keys)
            block.look_at_all()
        except model.Refused:
            return
        if block.leaves:
            leaf = self.dice.pick(block.leaves)
            above, _, _ = block.path(leaf.tag, 65)
            inner = (self.spoil_record, self.spoil_record, self.prune, self.graft, self.make_ring) if above else ()
            self.dice.pick((self.spoil_leaf, self.copy_record) + inner)(block, leaf, [record for record, _ in above])

    def some_word(self):
        """Where a word is: any, one that is not 0, or one of the trailer."""
        words = self.memory.words
        filled = self.dice.pick([at for at, word in enumerate(words) if word] or [0])
        return self.dice.pick((self.dice.below(len(words)), filled, filled, len(words) - 1 - self.dice.below(min(16, len(words)))))

    def spoil_word(self):
        if not self.memory.words:
            return
        at = self.some_word()
        old, other = self.memory.words[at], self.memory.words[self.some_word()]
        near = (old + 1, old - 1, old + 8, old ^ 1 << self.dice.below(32))
        far = (0, 1, 2, 3, 5, 8, 64, 65, 255, 256, LARGEST_WORD, other, 8 * self.dice.below(9) + self.dice.below(8))
        self.say("word", at, self.dice.pick(near + far) % 2**32)

    def spoil_key(self):
        keys = self.memory.keys
        if not keys:
            return
        filled = [at for at, byte in enumerate(keys) if byte] or [0]
        at = self.dice.pick((self.dice.below(len(keys)), self.dice.pick(filled), self.dice.pick(filled), min(self.dice.pick(filled) + 1, len(keys) - 1)))
        self.say("key", at, self.dice.pick((0, 1, 65, 66, keys[at] + 1, self.dice.below(256))) % 256)

    def exchange(self):
        """Two words change places."""
        if not self.memory.words:
            return
        one, other = self.some_word(), self.some_word()
        first, second = self.memory.words[one], self.memory.words[other]
        self.say("word", one, second)
        self.say("word", other, first)

    def cut(self):
        """A slice is cut, made longer or shifted."""
        front, back = self.dice.pick(((0, -1), (0, 1), (-1, 0), (1, 0), (1, -1), (-1, 1), (0, -64), (0, 64), (0, -len(self.memory.words))))
        name = self.dice.pick(("words", "keys"))
        if len(self.memory.words if name == "words" else self.memory.keys) >= -min(front, 0) - min(back, 0):
            self.say(name, front, back)

    def overwrite(self, at, words):
        for place, word in enumerate(words, at):
            if self.memory.words[place] != word:
                self.say("word", place, word)

    def spoil_leaf(self, block, leaf, above):
        """A word of a leaf is changed, and the calls on leaf numbers are put to it and to the one before it."""
        at = self.dice.below(4)
        wrong = ((0, 2), (0, 64, 65), (0, 8, 5), (0, 1, leaf.reference, 8 * block.capacities[-1] + 5))[at]
        self.say("word", block.span(5, leaf.number).start + at, self.dice.pick(wrong))
        self.paths = [leaf.tag]
        self.say(self.dice.pick(("next", "info", "tag")), leaf.number)
        self.say("next", leaf.previous // 8)
        self.damaged += 2

    def copy_record(self, block, leaf, above):
        """A record in use is copied over another of its pool."""
        record = self.dice.pick([leaf, *above])
        kind = record.reference % 8
        self.overwrite(block.span(kind, self.dice.below(block.capacities[kind - 1])).start, block.words[block.span(kind, record.number)])

    def spoil_record(self, block, leaf, above):
        """A word of an inner record is changed to one near it."""
        record = self.dice.pick(above)
        span = block.span(record.kind, record.number)
        words = block.words[span]
        filled = self.dice.pick([at for at, word in enumerate(words) if word])
        at = self.dice.pick((self.dice.below(3), self.dice.below(model.HEAD), self.dice.below(len(words)), filled, filled, min(filled + 1, len(words) - 1)))
        near = (0, 1, 64, 65, 255, 256, words[at] + 1, words[at] - 1, words[at - 1], words[at - len(words) + 1])
        self.say("word", span.start + at, self.dice.pick(near) % 2**32)
        self.paths = [leaf.tag]

    def prune(self, block, leaf, above):
        """A record loses a child and nothing else is done."""
        record = self.dice.pick(above)
        byte, _ = self.dice.pick(record.row())
        del record.children[byte]
        record.slots.pop(byte, None)
        self.rewrite(block, record, leaf.tag)

    def graft(self, block, leaf, above):
        """A record has a child once more, under another byte; in kind 3 it may be in the same slot."""
        record = self.dice.pick(above)
        if len(record.children) == model.CHILDREN[record.kind]:
            return
        byte, reference = self.dice.pick(record.row())
        other = self.dice.pick([other for other in range(256) if other not in record.children])
        record.give(other, reference)
        if record.kind == 3 and self.chance(2):
            record.slots[other] = record.slots[byte]
        self.rewrite(block, record, leaf.tag)

    def rewrite(self, block, record, tag):
        """A record as it was changed, and a tag below it to ask for."""
        beside = model.Block(block.words[:], block.keys)
        beside.write_inner(record)
        span = block.span(record.kind, record.number)
        self.overwrite(span.start, beside.words[span])
        self.paths = [tag]

    def make_ring(self, block, leaf, above):
        """A child of a record becomes the record itself, and tags that go round about 64 times are kept for the calls."""
        at = self.dice.below(len(above))
        record, depth = above[at], sum(record.length + 1 for record in above[:at])
        byte, reference = self.dice.pick((record.row()[0], record.row()[-1], self.dice.pick(record.row())))
        span = block.span(record.kind, record.number)
        body = span.start + model.HEAD
        self.say("word", block.words.index(reference, body + {1: 4, 2: 16, 3: 256, 4: 0}[record.kind]), record.reference)
        lap = leaf.tag[depth : depth + record.length] + bytes([byte])
        laps = [lap * count for count in (62, 63, 64, 65)] + [lap * self.dice.below(66) + leaf.tag[depth:]]
        self.paths = [leaf.tag[:depth] + path for path in laps]


# The port, and the comparison


def build():
    library = pathlib.Path(os.environ.get("LIBRARY") or HERE.parent / "target/staticlib/libdirectory_c.a")
    if not library.is_file():
        missing(f"no {library}; tools/staticlib writes it")
    compiler, emulator = [*os.environ.get("CC", "cc").split(), "-O2"], []
    if platform.machine() != "x86_64":
        compiler, emulator = ["x86_64-linux-gnu-gcc", "-O2", "-static"], [os.environ.get("QEMU", "qemu-x86_64")]
    for tool in compiler[:1] + emulator:
        if not shutil.which(tool):
            missing(f"no {tool}")
    replay = HERE.parent / "target/replay"
    replay.parent.mkdir(exist_ok=True)
    flags = ["-std=c11", "-Wall", "-Wextra", f"-I{HERE.parent / 'include'}"]
    if subprocess.run([*compiler, *flags, HERE / "replay.c", library, "-o", replay]).returncode != 0:
        missing("replay.c was not compiled")
    return [*emulator, replay]


def answers_of_port(replay, lines):
    done = subprocess.run(replay, input="\n".join(lines), stdout=subprocess.PIPE, text=True)
    if done.returncode != 0:
        print(f"the port's program ended with status {done.returncode}")
    return done.returncode, done.stdout.splitlines()


def differences(lines, ours, theirs):
    """How many lines differ; the first are shown."""
    count = 0
    for at, (line, one, other) in enumerate(itertools.zip_longest(lines, ours, theirs, fillvalue="no answer"), 1):
        if one != other:
            count += 1
            if count <= SHOWN:
                print(f"line {at}: {line[:MOST_SHOWN]}\n  model {one[:MOST_SHOWN]}\n  port  {other[:MOST_SHOWN]}")
    return count


def say_table(answers):
    tally = Counter(("start" if name == "again" else name, int(number)) for name, number, *_ in map(str.split, answers) if name in CALLS)
    print("call    " + "".join(f"{number:>8}" for number in NUMBERS))
    for call in CALLS:
        if call != "again":
            print(f"{call:8}" + "".join(f"{tally[call, number] or '':>8}" for number in NUMBERS))


def carried(answers):
    """How many station totals are 2^64 or more."""
    return sum(int(answer.split()[4]) > 0 for answer in answers if answer.startswith("station "))


def main(calls=20000, seed=1):
    replay = build()
    made = List(int(calls), int(seed))
    status, theirs = answers_of_port(replay, made.lines)
    OUT.mkdir(parents=True, exist_ok=True)
    for name, lines in (("calls", made.lines), ("model", made.answers), ("port", theirs)):
        (OUT / name).write_text("\n".join(lines) + "\n")
    count = differences(made.lines, made.answers, theirs)
    say_table(made.answers)
    print(f"{carried(made.answers)} of the station totals with carries")
    print(f"{made.damaged} of the calls on damaged blocks")
    print(f"{made.calls} calls, {count} differences")
    return 1 if count or status else 0


if __name__ == "__main__":
    sys.exit(main(*sys.argv[1:]))
