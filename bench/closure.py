#!/usr/bin/env python3
"""closure.py [-v] [FILE NAME]: the definitions that a statement rests on, by file, with their lines of code (no comments, no imports).
FILE is a file below crates/ (demands/specs/Demands.antt) and NAME a definition there (Demands). Names are followed by reading the text:
imports, the file's own names, and no name that a binder, a field or a `let` of the same definition hides. `-v` prints the names too.
Types that a crate's source declares, and the names of the checker's own library, are counted apart, not followed. Lines of decisions
(`Dec`, `Discrete`, `Order`) are told apart: whatever such a line says, its type lets no wrong answer through."""
import os
import re
import sys

CRATES = os.path.join(os.path.dirname(os.path.dirname(os.path.abspath(__file__))), "crates")
TOKEN = re.compile(r"[^\s(){}\[\],;]+")
DECLARES = re.compile(r"(?:abbrev |unfoldable )*(?:pub )?(?:data |record )?([^\s:(){}=]+)\s+(?:[({].*?[)}]\s*)*:\s")
CONSTRUCTORS = re.compile(r"([^\s:(){}=]+(?: [^\s:(){}=]+)*) :\s")
DECIDES = re.compile(r"→ Dec [^→]*$|: Discrete |→ Order x y$")
# what a call makes of the slices: not to be believed, since the theorem is what says that it is right
OUTCOMES = "start_of search_of prefix_search_of minimum_of maximum_of next_leaf_of facts_of tag_of check_of after_of after_check insert_of delete_of".split()
files = {}


def depth(line):
    return len(line) - len(line.lstrip())


def is_module(part):
    return part[0].strip().startswith("module _")


def split(lines):
    """The lines of a file in parts: a blank line ends one, and so does the end of a mutual block; a module's head is one of its own."""
    parts, block = [[]], None
    for line in lines:
        code = re.sub(r"(^|\s)--.*", "", line).rstrip()
        if not code or re.match(r"(pub )?(mod|use|infix) ", code):
            if block is None:
                parts.append([])
            continue
        if code.strip().startswith("module _"):
            parts += [[code], []]
            block = None
            continue
        if block is not None and depth(code) <= block:
            block = None
            parts.append([])
        if re.match(r"\s*(abbrev )?mutual$", code):
            block = depth(code)
            parts.append([])
        parts[-1].append(code)
    return [p for p in parts if p]


def joined(parts):
    """A part that stands deeper than the one before it, and below no module, belongs to that one: a `where` after a blank line."""
    whole = []
    for part in parts:
        if whole and depth(part[0]) > depth(whole[-1][0]) and not is_module(whole[-1]):
            whole[-1] += part
        else:
            whole.append(list(part))
    return whole


def declared_in(part):
    """The names that a part declares: its first line's, and in a mutual block or a data type those of the lines below."""
    head = part[0].strip()
    inside = head.endswith("mutual") or re.match(r"(pub )?data ", head)
    for j, line in enumerate(part):
        if j and not inside and depth(line) > depth(part[0]):
            continue
        line = line.strip() + " "
        m = DECLARES.match(line) or (CONSTRUCTORS.match(line) if inside else None)
        if m and (j == 0 or inside or not re.match(r"(pub )?record ", head)):
            yield from m.group(1).split()


class File:
    """What a file imports, under which names, and where each of its own names is declared."""

    def __init__(self, path):
        lines = open(os.path.join(CRATES, path), encoding="utf8").read().split("\n")
        self.names, self.aliases, self.where = {}, {}, {}
        for line in lines:
            m = re.match(r"use (\S+?)\.\{(.*)\}\s*$", line)
            for name in m.group(2).split(",") if m else []:
                a, _, b = name.strip().partition(" as ")
                self.names[b or a] = (m.group(1), a)
            m = re.match(r"use (\S+) as (\S+)\s*$", line)
            if m:
                self.aliases[m.group(2)] = m.group(1)
        self.parts = joined(split(lines))
        for i, part in enumerate(self.parts):
            for name in [] if is_module(part) else declared_in(part):
                self.where.setdefault(name, i)

    def target(self, word):
        """The module and the name that a word of this file stands for, or None. A field is written tight, as in `name.field`."""
        if word in self.names or word.partition(".")[0] in self.names:
            return self.names.get(word) or self.names[word.partition(".")[0]]
        alias, _, name = word.partition(".")
        return (self.aliases[alias], name) if alias in self.aliases and name else None


def load(path):
    if path not in files:
        files[path] = File(path)
    return files[path]


def file_of(module):
    """The file of a module of ours, 'declared' for a type of a source file, None for the library."""
    parts = module.split(".")[1:]
    if not module.startswith("Rattle.") or not os.path.isdir(os.path.join(CRATES, parts[0])):
        return None
    return "declared" if parts[2:3] == ["declared"] else "%s/%s.antt" % (parts[0], "/".join(parts[1:]))


def hidden(part):
    """The names that the part itself binds."""
    text, out = "\n".join(part), set()
    for m in re.finditer(r"[({]\s*([^(){}:=.]*?)\s+:\s", text):
        out |= set(m.group(1).split())
    for m in re.finditer(r"λ\s*([^.:]*?)\.", text):
        out |= set(TOKEN.findall(m.group(1)))
    out |= set(re.findall(r"\blet\s+(\S+)\s*[:=]", text)) | set(re.findall(r"[{;]\s*([^\s;={}]+)\s*=", text))
    if re.match(r"(pub )?record ", part[0].strip()):
        out |= {m.group(1) for m in (re.match(r"\s+(?:pub )?(\S+)\s+:\s", line) for line in part[1:]) if m}
    return out


def follow(path, name):
    """The parts that a name rests on, and the declared types and library names beside them."""
    todo, seen, declared, library = [(path, load(path).where[name])], set(), set(), set()
    while todo:
        at = todo.pop()
        if at in seen:
            continue
        seen.add(at)
        f = load(at[0])
        part = f.parts[at[1]]
        hide = hidden(part)
        words = {w.rstrip(".") for line in part for w in TOKEN.findall(line) if not w.startswith(".")}
        for word in words - hide:
            if word.partition(".")[0] in hide:
                continue
            if word not in f.where and not f.target(word):
                word = word.partition(".")[0]
            if word in f.where:
                todo.append((at[0], f.where[word]))
                continue
            to = f.target(word)
            if to is None:
                continue
            where = file_of(to[0])
            if where is None:
                library.add(to[1])
            elif where == "declared":
                declared.add(to[1])
            elif (to[1] not in OUTCOMES or where.startswith("demands/")) and to[1] in load(where).where:
                todo.append((where, load(where).where[to[1]]))
    return seen, declared, library


def main():
    words = [w for w in sys.argv[1:] if w != "-v"]
    if len(words) not in (0, 2):
        sys.exit(__doc__)
    path, name = words or ("demands/specs/Demands.antt", "Demands")
    seen, declared, library = follow(path, name)
    total = fixed = 0
    for p in sorted({p for p, _ in seen}):
        mine = [i for q, i in seen if q == p]
        lines = sum(len(load(p).parts[i]) for i in mine)
        total += lines
        fixed += sum(len(load(p).parts[i]) - 1 for i in mine if DECIDES.search(load(p).parts[i][0]))
        names = " ".join(n for n, i in load(p).where.items() if i in mine) if "-v" in sys.argv else ""
        print("%5d  %s  %s" % (lines, p, names))
    print("%5d  lines of %d files, of which %d decide what their types say; with %d declared types and %d names of the library"
          % (total, len({p for p, _ in seen}), fixed, len(declared), len(library)))


main()
