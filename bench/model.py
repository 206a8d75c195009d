"""The directory in Python: its calls on words, key bytes and scratch, and the file that a block is saved to. bench/beside.py puts it beside the port.

It is written from the rules (docs/BLOCK.md, docs/DECISIONS.md) and not from the port's code, and goes other ways wherever the rules leave the way open: a
record is read into an object and written back whole; the check gathers the leaves below each record and compares all their tags; insert finds its place from
the sorted list of tags; the leaf list is written anew after every change.

`words` is a list of ints below 2**32, `keys` and `scratch` are bytearrays, a tag is bytes. All are changed in place. A call gives a tuple that begins with the
number of docs/BLOCK.md, or raises Refused with a number other than 0, and has then written nothing but the zeros that it leaves in scratch.
"""
import struct
from dataclasses import dataclass, field

TRAILER = 16
ROOT, FIRST, LAST, COUNT = -5, -4, -3, -2  # the words of the trailer that change, counted from its end
TAG_ROOM = 64
LONGEST_PATH = 64
STORED = 8
HEAD = 3 + STORED
LEAF = 5
MOST_RECORDS = 4096
LONGEST_FILE = 60000
INNER_KINDS = (1, 2, 3, 4)
CHILDREN = {1: 4, 2: 16, 3: 48, 4: 256}
RECORD_WORDS = {1: 19, 2: 43, 3: 315, 4: 267, LEAF: 6}
SHRINK_MARK = {1: 0, 2: 4, 3: 16, 4: 48}


class Refused(Exception):
    """With the number that the call gives instead."""


def demand(condition, number):
    if not condition:
        raise Refused(number)


@dataclass
class Leaf:
    number: int
    tag: bytes
    total: int
    previous: int = 0
    next: int = 0

    @property
    def reference(self):
        return 8 * self.number + LEAF


@dataclass
class Inner:
    """`run` has the stored bytes of a prefix whose full length is `length`; `slots` is for kind 3 alone."""

    kind: int
    number: int
    length: int
    run: bytes
    children: dict = field(default_factory=dict)
    slots: dict = field(default_factory=dict)

    @property
    def reference(self):
        return 8 * self.number + self.kind

    def row(self):
        """(byte, reference) of each child, ascending."""
        return sorted(self.children.items())

    def give(self, byte, reference):
        """A child more. In kind 3 it takes the lowest slot that no other has."""
        self.children[byte] = reference
        if self.kind == 3:
            self.slots[byte] = min(set(range(1, CHILDREN[3] + 1)) - set(self.slots.values()))


def trailer(capacities):
    """The last 16 words of an empty directory."""
    sizes = [RECORD_WORDS[kind] * capacity for kind, capacity in zip(RECORD_WORDS, capacities)]
    distances = [sum(sizes[pool:]) for pool in range(len(sizes))]
    return [1, *distances, *capacities, 0, 0, 0, 0, sum(sizes) + TRAILER]


class Block:
    """Words and key bytes whose frame fits."""

    def __init__(self, words, keys):
        demand(len(words) >= TRAILER, 6)
        frame = words[-TRAILER:]
        frame[ROOT : COUNT + 1] = [0] * 4
        self.capacities = frame[6:11]
        demand(max(self.capacities) <= MOST_RECORDS and frame == trailer(self.capacities), 6)
        demand(frame[-1] == len(words) and len(keys) == TAG_ROOM * self.capacities[-1], 6)
        self.words, self.keys, self.leaves = words, keys, []

    def span(self, kind, number):
        """Where the words of a record are."""
        at = len(self.words) - TRAILER - self.words[kind - TRAILER] + RECORD_WORDS[kind] * number
        return slice(at, at + RECORD_WORDS[kind])

    def room(self, number):
        """Where the key bytes of a leaf are."""
        return slice(TAG_ROOM * number, TAG_ROOM * (number + 1))

    def blank(self, kind, number):
        """All 0, as a record must be that the root does not lead to."""
        return not any(self.words[self.span(kind, number)]) and (kind != LEAF or not any(self.keys[self.room(number)]))

    def free(self, kind):
        """The lowest number in this pool that is not in use, or None."""
        return next((n for n in range(self.capacities[kind - 1]) if self.words[self.span(kind, n).start] == 0), None)

    # Records

    def read(self, reference):
        """The record that a reference names, tested by its own rule and no further."""
        number, kind = divmod(reference, 8)
        demand(kind in RECORD_WORDS and number < self.capacities[kind - 1], 6)
        return self.read_leaf(number) if kind == LEAF else self.read_inner(kind, number)

    def read_leaf(self, number):
        used, length, previous, following, low, high = self.words[self.span(LEAF, number)]
        room = bytes(self.keys[self.room(number)])
        demand(used == 1 and length <= TAG_ROOM and not any(room[length:]), 6)
        return Leaf(number, room[:length], low + (high << 32), previous, following)

    def read_inner(self, kind, number):
        words = self.words[self.span(kind, number)]
        count, length, run, body = words[1], words[2], words[3:HEAD], words[HEAD:]
        demand(words[0] == kind and 2 <= count <= CHILDREN[kind] and length <= TAG_ROOM, 6)
        stored = min(length, STORED)
        demand(max(run) <= 255 and not any(run[stored:]), 6)
        record = Inner(kind, number, length, bytes(run[:stored]))
        if kind == 3:
            self.read_slots(record, body)
        elif kind == 4:
            record.children = {byte: reference for byte, reference in enumerate(body) if reference}
        else:
            self.read_sorted(record, body, count)
        demand(len(record.children) == count, 6)
        return record

    def read_sorted(self, record, body, count):
        """Kinds 1 and 2."""
        most = CHILDREN[record.kind]
        keys, references = body[:most], body[most:]
        demand(max(keys) <= 255 and all(low < high for low, high in zip(keys, keys[1:count])), 6)
        demand(all(references[:count]) and not any(keys[count:] + references[count:]), 6)
        record.children = dict(zip(keys[:count], references))

    def read_slots(self, record, body):
        """Kind 3. Slot s is the s-th of the references after the 256 slot numbers; just the filled slots have a byte, and each has one."""
        references = dict(enumerate(body[256:], 1))
        record.slots = {byte: slot for byte, slot in enumerate(body[:256]) if slot}
        demand(sorted(record.slots.values()) == [slot for slot, reference in references.items() if reference], 6)
        record.children = {byte: references[slot] for byte, slot in record.slots.items()}

    def write_leaf(self, leaf):
        halves = (leaf.total % 2**32, leaf.total >> 32)
        self.words[self.span(LEAF, leaf.number)] = [1, len(leaf.tag), leaf.previous, leaf.next, *halves]
        self.keys[self.room(leaf.number)] = leaf.tag.ljust(TAG_ROOM, b"\0")

    def write_inner(self, record):
        most = CHILDREN[record.kind]
        body = [0] * (RECORD_WORDS[record.kind] - HEAD)
        for at, (byte, reference) in enumerate(record.row()):
            if record.kind == 3:
                body[byte], body[255 + record.slots[byte]] = record.slots[byte], reference
            elif record.kind == 4:
                body[byte] = reference
            else:
                body[at], body[most + at] = byte, reference
        head = [record.kind, len(record.children), record.length, *record.run.ljust(STORED, b"\0")]
        self.words[self.span(record.kind, record.number)] = head + body

    def erase(self, kind, number):
        self.words[self.span(kind, number)] = [0] * RECORD_WORDS[kind]
        if kind == LEAF:
            self.keys[self.room(number)] = bytes(TAG_ROOM)

    # The whole check

    def look_at_all(self):
        """Refuses a block that is not sound; of a sound one `leaves` are the leaves, in the order of their tags."""
        reached = set()
        self.leaves = self.gather(self.words[ROOT], 0, reached) if self.words[ROOT] else []
        line = [0] + [leaf.reference for leaf in self.leaves] + [0]
        demand(all((leaf.previous, leaf.next) == ends for leaf, ends in zip(self.leaves, zip(line, line[2:]))), 6)
        demand(self.words[FIRST : COUNT + 1] == [line[1], line[-2], len(self.leaves)], 6)
        for kind, capacity in zip(RECORD_WORDS, self.capacities):
            demand(all(8 * number + kind in reached or self.blank(kind, number) for number in range(capacity)), 6)

    def gather(self, reference, depth, reached):
        """The leaves below in the order of their bytes, each compared with all that the records say of it from this depth on."""
        demand(reference not in reached and depth <= TAG_ROOM, 6)  # no tag is so long that it could come deeper
        reached.add(reference)
        record = self.read(reference)
        if isinstance(record, Leaf):
            return [record]
        fork, leaves = depth + record.length, []
        for byte, child in record.row():
            below = self.gather(child, fork + 1, reached)
            demand(all(leaf.tag[fork : fork + 1] == bytes([byte]) for leaf in below), 6)
            leaves += below
        path = leaves[0].tag[:fork]
        demand(path[depth : depth + STORED] == record.run and all(leaf.tag[:fork] == path for leaf in leaves), 6)
        return leaves

    # Changing a sound block

    def hold(self, leaves):
        """The leaf list and the tag count, when these are the leaves, in any order."""
        leaves = sorted(leaves, key=lambda leaf: leaf.tag)
        line = [0] + [leaf.reference for leaf in leaves] + [0]
        for leaf, before, behind in zip(leaves, line, line[2:]):
            leaf.previous, leaf.next = before, behind
            self.write_leaf(leaf)
        self.words[FIRST : COUNT + 1] = [line[1], line[-2], len(leaves)]

    def put_below(self, above, reference):
        """The reference is the child of `above`, which is a record and a byte, or it is the root."""
        if above is None:
            self.words[ROOT] = reference
        else:
            record, byte = above
            record.children[byte] = reference
            self.write_inner(record)

    def path(self, tag, until):
        """The way of a tag down to a leaf, or to the first record that branches at byte `until` or behind it: the records above it, each with the byte that was
        taken; then that leaf or record, and its depth. Up to byte `until` there is a held tag with the same bytes."""
        above, depth, record = [], 0, self.read(self.words[ROOT])
        while isinstance(record, Inner) and depth + record.length < until:
            fork = depth + record.length
            above.append((record, tag[fork]))
            depth, record = fork + 1, self.read(record.children[tag[fork]])
        return above, record, depth

    def hang(self, new):
        """Puts a new leaf into the tree, at the byte where its tag leaves the held tag that has the longest beginning in common with it."""
        if not self.leaves:
            return self.put_below(None, new.reference)
        near = max(self.leaves, key=lambda leaf: shared(leaf.tag, new.tag))
        fork = shared(near.tag, new.tag)
        above, record, depth = self.path(new.tag, fork)
        above = above[-1] if above else None
        if isinstance(record, Inner) and depth + record.length == fork:
            self.add_child(above, record, new.tag[fork], new.reference)
        else:
            self.branch(above, record, depth, fork, near.tag, new)

    def branch(self, above, record, depth, fork, near, new):
        """A new branching stands over the new leaf and the record, or leaf, that was here. What is left of that record's prefix behind the fork is taken from
        `near`, a tag below it, since the record may not store it."""
        kind = next((kind for kind in INNER_KINDS if self.free(kind) is not None), None)
        demand(kind is not None, 5)
        both = Inner(kind, self.free(kind), fork - depth, near[depth:fork][:STORED])
        for byte, reference in sorted([(near[fork], record.reference), (new.tag[fork], new.reference)]):
            both.give(byte, reference)
        if isinstance(record, Inner):
            rest = near[fork + 1 : depth + record.length]
            record.length, record.run = len(rest), rest[:STORED]
            self.write_inner(record)
        self.write_inner(both)
        self.put_below(above, both.reference)

    def add_child(self, above, record, byte, reference):
        """In place, or after a move to the smallest larger kind that has a free record."""
        if len(record.children) < CHILDREN[record.kind]:
            record.give(byte, reference)
            return self.write_inner(record)
        kind = next((kind for kind in INNER_KINDS if kind > record.kind and self.free(kind) is not None), None)
        demand(kind is not None, 5)
        larger = self.move(above, record, kind)
        larger.give(byte, reference)
        self.write_inner(larger)

    def move(self, above, record, kind):
        """The record in another pool, where its children come in byte order; its old place is given back."""
        other = Inner(kind, self.free(kind), record.length, record.run)
        for byte, reference in record.row():
            other.give(byte, reference)
        self.erase(record.kind, record.number)
        self.write_inner(other)
        self.put_below(above, other.reference)
        return other

    def unhang(self, leaf):
        """Takes a leaf out of the tree; what is left of the record above it is merged with its last child, moved to the next smaller kind, or left."""
        above, _, _ = self.path(leaf.tag, TAG_ROOM + 1)
        if not above:
            return self.put_below(None, 0)
        parent, byte = above.pop()
        above = above[-1] if above else None
        del parent.children[byte]
        parent.slots.pop(byte, None)
        if len(parent.children) == 1:
            self.merge(above, parent)
        elif len(parent.children) <= SHRINK_MARK[parent.kind] and self.free(parent.kind - 1) is not None:
            self.move(above, parent, parent.kind - 1)
        else:
            self.write_inner(parent)

    def merge(self, above, parent):
        """The last child stands where its parent stood; an inner one has the parent's prefix and its byte before its own prefix."""
        [(byte, reference)] = parent.row()
        child = self.read(reference)
        if isinstance(child, Inner):
            child.length += parent.length + 1
            child.run = (parent.run + bytes([byte]) + child.run)[:STORED]
            self.write_inner(child)
        self.erase(parent.kind, parent.number)
        self.put_below(above, reference)


def shared(one, other):
    """How many bytes two tags have in common from their beginnings."""
    return next((at for at, (a, b) in enumerate(zip(one, other)) if a != b), min(len(one), len(other)))


def checked(words, keys, scratch):
    """The block, if it is sound. From the test of its length on, scratch is left with a 0 for each record."""
    block = Block(words, keys)
    need = sum(block.capacities)
    demand(len(scratch) >= need, 7)
    scratch[:need] = bytes(need)
    block.look_at_all()
    return block


def go_down(words, keys, choose):
    """From the root by the child that `choose` takes of each record down to a leaf; nothing is looked at but the records on the way."""
    block = Block(words, keys)
    reference, passed = block.words[ROOT], 0
    demand(reference != 0, 1)
    while isinstance(record := block.read(reference), Inner):
        passed += 1
        demand(passed <= LONGEST_PATH, 6)
        reference = choose(record)
    return record


def go_by_tag(words, keys, tag, fits):
    """Down by the bytes of a tag to a leaf whose tag `fits`. Stored bytes are compared up to the first prefix that has more than are stored; behind that only
    lengths count, and the leaf is compared from its beginning."""
    depth, skipped = 0, False

    def choose(record):
        nonlocal depth, skipped
        demand(skipped or tag[depth : depth + STORED][: record.length] == record.run, 1)
        skipped = skipped or record.length > STORED
        fork = depth + record.length
        demand(fork < len(tag) and tag[fork] in record.children, 1)
        depth = fork + 1
        return record.children[tag[fork]]

    leaf = go_down(words, keys, choose)
    begin = 0 if skipped else min(depth, len(leaf.tag))
    demand(fits(leaf.tag[begin:], tag[begin:]), 1)
    return 0, leaf.number, leaf.total


def leaf_in_use(words, keys, number):
    """The leaf of this number, tested by its own rule, and its block."""
    block = Block(words, keys)
    demand(number < block.capacities[-1] and block.words[block.span(LEAF, number).start] != 0, 9)
    return block, block.read_leaf(number)


# The calls


def start(words, keys, capacities):
    demand(max(capacities) <= MOST_RECORDS, 8)
    end = trailer(capacities)
    demand(len(words) == end[-1] and len(keys) == TAG_ROOM * capacities[-1], 8)
    words[:] = [0] * (len(words) - TRAILER) + end
    keys[:] = bytes(len(keys))
    return (0,)


def search(words, keys, tag):
    return go_by_tag(words, keys, tag, lambda held, given: held == given)


def prefix_search(words, keys, tag):
    return go_by_tag(words, keys, tag, lambda held, given: given.startswith(held))


def minimum(words, keys):
    leaf = go_down(words, keys, lambda record: record.row()[0][1])
    return 0, leaf.number, leaf.total


def maximum(words, keys):
    leaf = go_down(words, keys, lambda record: record.row()[-1][1])
    return 0, leaf.number, leaf.total


def next_leaf(words, keys, number):
    block, leaf = leaf_in_use(words, keys, number)
    demand(leaf.next != 0, 1)
    following, kind = divmod(leaf.next, 8)
    demand(kind == LEAF and following < block.capacities[-1], 6)
    used, _, _, _, low, high = words[block.span(LEAF, following)]
    demand(used == 1, 6)
    return 0, following, low + (high << 32)


def leaf_facts(words, keys, number):
    _, leaf = leaf_in_use(words, keys, number)
    return 0, len(leaf.tag), leaf.total


def leaf_tag(words, keys, number):
    _, leaf = leaf_in_use(words, keys, number)
    return 0, leaf.tag


def check(words, keys, scratch):
    checked(words, keys, scratch)
    return (0,)


def first_at_or_after(words, keys, scratch, tag):
    behind = [leaf for leaf in checked(words, keys, scratch).leaves if leaf.tag >= tag]
    demand(behind, 1)
    return 0, behind[0].number, behind[0].total


def station_total(words, keys, scratch, beginning):
    """How many tags begin so, and the sum of their totals as a low word and a count of carries."""
    totals = [leaf.total for leaf in checked(words, keys, scratch).leaves if leaf.tag.startswith(beginning)]
    carries, low = divmod(sum(totals), 2**64)
    return 0, len(totals), low, carries


def insert(words, keys, scratch, tag, total):
    demand(len(tag) <= TAG_ROOM, 2)
    block = checked(words, keys, scratch)
    for leaf in block.leaves:
        if leaf.tag == tag:
            old, leaf.total = leaf.total, total
            block.write_leaf(leaf)
            return 0, old
    demand(not any(leaf.tag.startswith(tag) or tag.startswith(leaf.tag) for leaf in block.leaves), 3)
    number = block.free(LEAF)
    demand(number is not None, 4)
    new = Leaf(number, tag, total)
    block.hang(new)
    block.hold(block.leaves + [new])
    return 0, 0


def delete(words, keys, scratch, tag):
    block = checked(words, keys, scratch)
    leaf = next((leaf for leaf in block.leaves if leaf.tag == tag), None)
    demand(leaf is not None, 1)
    block.unhang(leaf)
    block.erase(LEAF, leaf.number)
    block.hold([other for other in block.leaves if other is not leaf])
    return 0, leaf.total


# The file of a saved block


def save(words, keys):
    """The word count as four bytes, the words, the key bytes, all numbers lowest byte first."""
    return struct.pack(f"<{1 + len(words)}I", len(words), *words) + bytes(keys)


def opened(file):
    """The words and key bytes of a saved block."""
    demand(4 <= len(file) <= LONGEST_FILE, 6)
    (count,) = struct.unpack_from("<I", file)
    demand(4 + 4 * count <= len(file), 6)
    return list(struct.unpack_from(f"<{count}I", file, 4)), bytearray(file[4 + 4 * count :])
