#!/usr/bin/env python3
"""Writes the command lists that are put to the crate and to the port.

    traces.py [quick] FOLDER      FOLDER/NAME.cmd for each list
    traces.py vectors FILE        the list of the program `vectors`, a sample of these

The lists are the same in every run: what is called random comes from a generator of our own with fixed seeds. No tag has over 64 bytes and no list
holds more tags than its `reset` makes room for, because the crate knows neither limit.
"""
import itertools
import pathlib
import sys

STATE = ["draw", "canon", "kinds", "check", "list"]
ENDS = ["min", "max", "count"]
LARGEST = 2**64 - 1


class Dice:
    """A linear congruential generator (Knuth's MMIX constants); the upper half of its state is the better one."""

    def __init__(self, seed):
        self.state = seed

    def below(self, n):
        self.state = (self.state * 6364136223846793005 + 1442695040888963407) % 2**64
        return (self.state >> 33) % n

    def pick(self, items):
        return items[self.below(len(items))]

    def shuffled(self, items):
        left = list(items)
        return [left.pop(self.below(len(left))) for _ in range(len(left))]


def word(tag):
    return tag.hex() or "-"


def insert(tag, total):
    return f"i {word(tag)} {total}"


def ask(call, tag):
    return f"{call} {word(tag)}"


def asked(tags):
    return [ask(call, tag) for tag in tags for call in ("s", "p", "ge", "next")]


def small(length, probes):
    """Every history of so many changes over tags of which some begin others, the empty one too."""
    tags = [b"", b"a", b"b", b"aa", b"ab", b"aab", b"ba"]
    changes = [(call, tag) for call in "id" for tag in tags]
    for history in itertools.product(changes, repeat=length):
        yield f"reset {length}"
        for at, (call, tag) in enumerate(history):
            yield insert(tag, at + 1) if call == "i" else ask("d", tag)
        yield from STATE + ENDS + asked(probes)


def runs(most):
    """Runs of seven to ten bytes, split and merged: up to so many tags in every order, then the first and the last deleted."""
    tags = [b"ABCDEFGHIJ1", b"ABCDEFGHIJ2", b"ABCDEFGHIX", b"AX", b"ABCDEFGH", b"ABCDEFGHZ", b"ABCDEFG1", b"B"]
    probes = [b"", b"A", b"ABCDEFGH", b"ABCDEFGHXX1", b"ABCDEFGHIJ", b"ABCDEFGHIJ1Z", b"ABCDEFGHIJ3", b"AXX", b"C"]
    for number in range(2, most + 1):
        for order in itertools.permutations(tags, number):
            yield f"reset {number}"
            yield from (insert(tag, 10 + at) for at, tag in enumerate(order))
            yield from ["draw", "canon"]
            if number == 3:
                yield from asked(probes)
            yield from [ask("d", order[0]), "draw", ask("d", order[-1]), "draw", "list", "check"]


def kinds(coming, going):
    """One record through every kind and back, at the root and below a run of nine. Slots are compared up to the first hole."""
    for head in (b"", b"123456789"):
        yield "reset 256"
        for at, byte in enumerate(coming):
            yield insert(head + bytes([byte]), byte)
            yield from ["slots", ask("ge", head + bytes([byte]))] if at % 3 == 0 else []
        yield from STATE + ENDS
        for at, byte in enumerate(going):
            yield ask("d", head + bytes([byte]))
            yield from ["kinds", ask("ge", head + bytes([byte]))] if at % 3 == 0 else []
            yield from ["slots"] if 256 - at - 1 == 48 else []
        yield from STATE + ENDS


def deep(orders):
    """A path of 64 branchings, the deepest that tags of 64 bytes can make."""
    tags = [b"a" * depth + b"b" for depth in range(64)] + [b"a" * 64]
    dice = Dice(64)
    for _ in range(orders):
        yield "reset 65"
        for at, tag in enumerate(dice.shuffled(tags)):
            yield insert(tag, dice.pick([0, 1, LARGEST]))
            yield from ["draw"] if at % 8 == 0 else []
        yield from STATE + asked([b"a" * 63, b"a" * 64, b"a" * 65, b"a" * 30 + b"b"])
        for at, tag in enumerate(dice.shuffled(tags)):
            yield ask("d", tag)
            yield from ["draw"] if at % 8 == 0 else []
        yield from STATE


def two_letters(dice):
    return bytes(dice.pick(b"ab") for _ in range(dice.below(7)))


def all_bytes(dice):
    return bytes(dice.below(256) for _ in range(1 + dice.below(2)))


def long_runs(dice):
    lengths = [0, 1, 6, 7, 8, 9, 10, 16]
    return b"".join(b"x" * dice.pick(lengths) + bytes([97 + dice.below(3)]) for _ in range(1 + dice.below(3)))


def three_bytes(dice):
    return bytes([dice.below(2), dice.below(60), 200 + dice.below(20)])


def full_length(dice):
    tag = bytearray(b"z" * 64)
    for _ in range(dice.below(3)):
        tag[dice.below(64)] = 97 + dice.below(20)
    return bytes(tag)


SHAPES = [(two_letters, 64), (all_bytes, 300), (long_runs, 100), (three_bytes, 300), (full_length, 200)]


def near(dice, tag):
    """A held tag, sometimes cut short or with a byte more."""
    case = dice.below(8)
    if case == 0:
        return tag[: dice.below(len(tag) + 1)]
    return (tag + bytes([dice.below(256)]))[:64] if case == 1 else tag


def clashes(tag, held):
    return any(tag != other and (tag.startswith(other) or other.startswith(tag)) for other in held)


def drawn(seed, shape, steps, room):
    """Inserts and deletes of one shape of tags, now more of these and now of those, with a question after each."""
    dice, held, deletes = Dice(seed), [], 3
    yield f"reset {room}"
    for step in range(steps):
        if dice.below(100) == 0:
            deletes = 1 + dice.below(9)
        tag = near(dice, dice.pick(held)) if held and dice.below(2) else shape(dice)
        if dice.below(10) < deletes or len(held) == room:
            yield ask("d", tag)
            held = [other for other in held if other != tag]
        else:
            yield insert(tag, dice.pick([0, 1, LARGEST, dice.below(2**31)]))
            held += [tag] if tag not in held and not clashes(tag, held) else []
        yield ask(dice.pick(["s", "p", "ge", "next"]), dice.pick([tag, shape(dice)]))
        yield from STATE + ENDS if step % 25 == 0 else []


def plant(dice):
    return b"L%d/P%d/FLOW" % (10 + dice.below(12), dice.below(9))


def front(dice, tag):
    """The first bytes of a tag, any number of them, or all and a byte more."""
    return tag + bytes([dice.below(256)]) if dice.below(8) == 0 else tag[: dice.below(len(tag) + 1)]


def stations(steps):
    """Tags of each shape and of a plant come and go, with totals whose sums carry; after each step it is asked what some bytes begin. `vectors` takes no part
    of this list, since its program does not know the command."""
    for at, (shape, room) in enumerate([*SHAPES, (plant, 60)]):
        dice, held = Dice(3000 + at), []
        yield f"reset {room}"
        for _ in range(steps):
            if len(held) == room or held and dice.below(4) == 0:
                yield ask("d", held.pop(dice.below(len(held))))
            else:
                tag = shape(dice)
                yield insert(tag, dice.pick([1, LARGEST, LARGEST, dice.below(2**31)]))
                held += [tag] if tag not in held and not clashes(tag, held) else []
            yield ask("station", front(dice, dice.pick([*held, shape(dice)])))
        yield from [ask("station", b""), "list"]


def lists(quick):
    up, down = list(range(256)), list(range(255, -1, -1))
    tags = [b"", b"a", b"b", b"aa", b"ab", b"aab", b"ba", b"aaa", b"c"]
    yield "small2", small(2, [] if quick else tags)
    yield "runs8", runs(2 if quick else 4)
    yield "kinds_up", kinds(up, down)
    yield "deep", deep(1 if quick else 6)
    yield "stations", stations(60 if quick else 1500)
    if not quick:
        yield "small3", small(3, [])
        yield "kinds_down", kinds(down, up)
        yield "kinds_mix", kinds(Dice(5).shuffled(up), Dice(6).shuffled(up))
    for at, (shape, room) in enumerate(SHAPES):
        yield shape.__name__, drawn(1000 + at, shape, 100 if quick else 4000, room)


def marks(coming, going, head):
    """As many children of one record as it takes to reach kind 4, and all out again, told where the kind is about to change and where it has changed."""
    yield "reset 256"
    for at, byte in enumerate(coming):
        yield insert(head + bytes([byte]), byte)
        yield from ["slots"] if at + 1 in (4, 5, 16, 17, 48, 49) else []
    yield from STATE + ENDS
    for at, byte in enumerate(going):
        yield ask("d", head + bytes([byte]))
        yield from ["kinds"] if len(going) - at - 1 in (49, 48, 17, 16, 5, 4, 2, 1) else []
    yield from STATE


def histories(commands):
    """A list cut before each reset."""
    cut = []
    for command in commands:
        cut += [[]] if command.startswith("reset") else []
        cut[-1].append(command)
    return cut


def vectors():
    """The list of the program `vectors`: some histories of the lists that have many, and shorter ones of the shapes of the others."""
    dice, asked_for = Dice(2026), [b"", b"a", b"ab", b"aaa", b"c"]
    for history in dice.shuffled(histories(small(3, [])))[:12]:
        yield from history + asked([dice.pick(asked_for)])
    for history in dice.shuffled(histories(runs(3)))[:8]:
        yield from history
    for head in (b"", b"123456789"):
        some = dice.shuffled(range(256))[:50]
        yield from marks(some, dice.shuffled(some), head)
    yield from (command for command in deep(1) if command not in ("draw", "kinds", "list"))
    for at, (shape, _) in enumerate(SHAPES):
        yield from drawn(2000 + at, shape, 30, 64)


def write(path, commands):
    path.write_text("\n".join(commands) + "\n")


def main():
    if len(sys.argv) < 2 or sys.argv[1:-1] not in ([], ["quick"], ["vectors"]):
        sys.exit(__doc__)
    option, path = sys.argv[1:-1], pathlib.Path(sys.argv[-1])
    if option == ["vectors"]:
        write(path, vectors())
        return
    path.mkdir(parents=True, exist_ok=True)
    for name, commands in lists(option == ["quick"]):
        write(path / f"{name}.cmd", commands)


if __name__ == "__main__":
    main()
