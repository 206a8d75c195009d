#!/usr/bin/env python3
"""respell: the repository's own definitions, lemmas, fields and local names in snake case, as Rattle's guides have them; types and modules stay as they are, and so does what
the library or the code named. It ran once, right after the kit's port.py, at the root of a checkout; with --map it prints each name and the new one, and changes nothing.

A definition `rowOf` and a lemma `row-of` fall together: where one file has both, the lemma ends in `_lem`. Where two definitions do, or a field and a definition, CHOSEN has the
new name of one of them."""
import collections
import os
import re
import sys

CHOSEN = {
    "childFor": "child_ref_for",
    "innerCell": "inner_cell_of",
    "leafCell": "leaf_cell_of",
    "leafRef": "leaf_ref_of",
    "nextLeaf": "next_leaf_word",
    "record-at": "at_record",
    "ref-of": "option_ref",
    "at-start": "start_state",
    "tag-at": "store_tag",
    "leafBy": "leaf_point_by",
    "walkAt": "walk_at_place",
    # lemmas that port.py respelled, beside definitions that it left
    "all_pass": "all_pass_lem",
    "cell_in": "cell_in_lem",
    "last_word": "last_word_lem",
    "whole_by": "whole_by_lem",
}
PART = re.compile(r"[^\s(){};,\[\]\"\\.`]+")
DECLARED = re.compile(r"^\s*(?:(?:abbrev|unfoldable|pub|data|record|let)\s+)*([^\s:(){}=]+)\s*:\s", re.M)
IMPORT = re.compile(r"^\s*(?:ghost )?(?:pub )?use ([^\s{;]+)\.\{([^}]*)\}", re.M)
OWN = re.compile(r"Rattle\.(?!std\b|core\b|io\b|libc\b|os\b)")
STRING = re.compile(r'"(?:[^"\\\n]|\\.)*"')


def camel(name):
    return re.match(r"[a-z]", name) and re.search(r"[a-z0-9][A-Z]", name)


def kebab(name):
    return re.match(r"[A-Za-z]", name) and re.search(r"[A-Za-z0-9']-[A-Za-z0-9]", name)


def snake(name):
    if camel(name):
        name = re.sub(r"(?<=[a-z0-9])[A-Z]", lambda m: "_" + m.group(0).lower(), name)
    return name.replace("-", "_")


def files(ends):
    for folder, below, names in os.walk("crates"):
        below[:] = sorted(it for it in below if it != "out")
        for name in sorted(names):
            if name.endswith(ends):
                yield os.path.join(folder, name)


def read(path):
    with open(path, encoding="utf8") as f:
        return f.read()


def code_of(path, text):
    return STRING.sub(" ", re.sub(r"--[^\n]*" if path.endswith(".antt") else r"//[^\n]*", "", text))


def new_names():
    """Each old name with its new one."""
    where, own, imported = collections.defaultdict(set), collections.defaultdict(set), set()
    for path in files((".antt", ".rt")):
        code = code_of(path, read(path))
        for part in PART.findall(code):
            where[part].add(path)
        for library, names in IMPORT.findall(code):
            if not OWN.match(library):
                imported.update(it.strip().split(" as ")[0] for it in names.split(","))
        if path.endswith(".antt"):
            for name in DECLARED.findall(code):
                own[name].add(path)
    old = {it for it in own if it in where and (kebab(it) or camel(it)) and it not in imported}
    same = collections.defaultdict(list)
    for name in old:
        same[CHOSEN.get(name, snake(name))].append(name)
    turned = {}
    for name in old:
        to = CHOSEN.get(name, snake(name))
        others = [it for it in same[to] if it != name] + ([to] if to in own else [])
        if kebab(name) and any(where[name] & where[it] for it in others):
            to += "_lem"
        turned[name] = to
    turned.update((name, to) for name, to in CHOSEN.items() if name in own)
    return turned


def respell(text, turned, path):
    """The text with its names turned: in the code, and in comments what stands between backquotes."""
    def parts(piece):
        return PART.sub(lambda m: turned.get(m.group(0), m.group(0)), piece)

    def line_of(line):
        mark = "--" if path.endswith(".antt") else "//"
        at = re.search(r"(^|\s)" + mark, line)
        code, note = (line[:at.start()], line[at.start():]) if at else (line, "")
        pieces, last = [], 0
        for m in STRING.finditer(code):
            pieces += [parts(code[last:m.start()]), m.group(0)]
            last = m.end()
        return "".join(pieces) + parts(code[last:]) + re.sub(r"`[^`]+`", lambda m: parts(m.group(0)), note)

    return "\n".join(line_of(it) for it in text.split("\n"))


def main():
    turned = new_names()
    if sys.argv[1:] == ["--map"]:
        print("\n".join(f"{a}\t{b}" for a, b in sorted(turned.items())))
        return
    for path in files((".antt", ".rt")):
        old = read(path)
        new = respell(old, turned, path)
        if new != old:
            with open(path, "w", encoding="utf8") as f:
                f.write(new)
    for path in files((".edit",)):
        old = read(path)
        new = "\n".join(PART.sub(lambda m: turned.get(m.group(0), m.group(0)), it) if it.startswith(("old:", "new:")) else it for it in old.split("\n"))
        if new != old:
            with open(path, "w", encoding="utf8") as f:
                f.write(new)


if __name__ == "__main__":
    main()
