#!/usr/bin/env python3
"""Makes small edits to the code of the libraries, one at a time, and counts those that the checker refuses.

    bench/mutations.py [--edits N] [--seed S] [--only CRATE] [--jobs N] [--limit SECONDS] [--list] [--errors]

An edit changes one operator, number, truth value, variable, field or constructor, or exchanges two arguments of a call, in a function's body or a constant's
value; contracts, definitions and proofs stay. The edited crate is checked in a copy of the repository, over the libraries that `rt check` has proved here: rt finds them by itself. An edit
that does not compile counts for nothing, and the next one takes its place. The same seed makes the same edits.
"""
import argparse
import collections
import concurrent.futures
import os
import pathlib
import random
import re
import shutil
import signal
import subprocess
import sys
import tempfile
import time

ROOT = pathlib.Path(__file__).resolve().parent.parent
TOKEN = re.compile(r"[A-Za-z_]\w*|\d\w*|<=|>=|==|!=|&&|\|\||\+=|-=|=>|->|::|\.\.|[^\s\w]")
OPERATORS = {
    "<": ["<=", "!="], "<=": ["<", "=="], ">": [">=", "!="], ">=": [">", "=="], "==": ["!=", "<="], "!=": ["==", "<"],
    "+": ["-"], "-": ["+"], "*": ["+"], "/": ["%"], "%": ["/"], "+=": ["-="], "-=": ["+="], "&": ["|"], "|": ["&"], "&&": ["||"], "||": ["&&"],
}
TRUTH = {"true": "false", "false": "true"}
KEYWORDS = {"if", "else", "while", "return", "match", "let", "mut", "as", "in", "for", "loop", "true", "false"}
# The error of a proof that answers a goal which the edited code does not have: the shape is refused, and no fact was tried.
MISFIT = re.compile(r"module `Rattle\.[^`]*\.(Goals|Given)` has no ")

Edit = collections.namedtuple("Edit", "crate file start end new kind")
Function = collections.namedtuple("Function", "name names types result start end")


def close(code, at):
    """The place of the bracket that closes the one at `at`."""
    depth = 0
    for i in range(at, len(code)):
        depth += (code[i] in "([{") - (code[i] in ")]}")
        if depth == 0:
            return i


def code_of(text):
    """The text with spaces for all that no edit may touch: comments, attributes, imports, contracts."""
    blank = lambda m: re.sub(r"[^\n]", " ", m.group())
    text = re.sub(r"//[^\n]*|#!?\[[^\n]*\]|^ *(pub )?(ghost use|use|mod) [^;]*;", blank, text, flags=re.M)
    for m in re.finditer(r"\b(requires|ensures)\*? (\w+ )?\{", text):
        end = close(text, m.end() - 1) + 1
        text = text[: m.start()] + " " * (end - m.start()) + text[end:]
    return text


def parts(code, start, end):
    """Start and end of each part between commas, outside brackets."""
    cuts, i = [start - 1], start
    while i < end:
        if code[i] in "([{":
            i = close(code, i)
        elif code[i] == ",":
            cuts.append(i)
        i += 1
    spans = [re.compile(r"\s*(.*?)\s*", re.S).fullmatch(code, a + 1, e).span(1) for a, e in zip(cuts, cuts[1:] + [end])]
    return [(a, e) for a, e in spans if a < e]


def functions(code):
    """Each function with the names and types that it takes, the type that it gives, and its body."""
    for m in re.finditer(r"\bfn (\w+)(?:<[^>]*>)?\(", code):
        shut = close(code, m.end() - 1)
        taken = [re.split(r":\s*", code[a:e], maxsplit=1) for a, e in parts(code, m.end(), shut)]
        taken = [t for t in taken if len(t) == 2]  # a method's `self` stands before its name at a call
        body = code.index("{", shut)
        result = code[shut + 1 : body].replace("->", "").strip()
        yield Function(m.group(1), [n for n, _ in taken], [t for _, t in taken], result, body, close(code, body))


class Names:
    """What the crates declare: what functions and constructors take and give; for a field or a constructor, those of the same type."""

    def __init__(self, codes):
        self.takes, self.gives = collections.defaultdict(list), {}
        self.fields, self.variants = collections.defaultdict(set), collections.defaultdict(set)
        for code in codes:
            for f in functions(code):
                self.takes[f.name].append(f.types)
                self.gives[f.name] = f.result
            for kind, name, items in re.findall(r"\b(struct|enum) (\w+) \{(.*?)\n\}", code, re.S):
                typed = re.findall(r"^    (?:pub )?(\w+)(?: = \d+)?(.*),", items, re.M)  # a variant's number is no part of what it holds
                for item, load in typed:
                    alike = {n for n, l in typed if l == load and n != item}
                    if kind == "struct":
                        self.fields[item] |= alike
                    else:
                        self.variants[name + "::" + item] |= {name + "::" + n for n in alike}
                        self.takes[name + "::" + item].append(load[1:-1].split(", "))


def variables(code, f, names):
    """Name, type and first place of each variable of a function. The type of a `let` is read off its right side, as far as that is plain."""
    known = [(n, t, f.start) for n, t in zip(f.names, f.types)]
    for m in re.finditer(r"\blet (?:mut )?(\w+)(?:: ([^=;]+))? = ([^;{]*)", code[f.start : f.end]):
        name, kind, value = m.groups()
        casts = re.findall(r"\bas (\w+)", value)[-1:]
        sizes = ["usize"] * value.count(".len()")
        calls = [names.gives[c] for c in re.findall(r"(\w+)\(", value) if c in names.gives]
        used = [t for n, t, _ in known if re.search(r"\b%s\b(?!\.)" % n, value)]
        known.append((name, ([kind] if kind else casts + sizes + calls + used + ["?" + name])[0], f.start + m.end()))
    return known


def exchanges(code, at, takes):
    """Two arguments of the call whose bracket is at `at` exchanged, where they are of one type."""
    given = parts(code, at + 1, close(code, at))
    for types in takes:
        for i in range(len(given)):
            for j in range(i + 1, len(given)):
                (a, b), (c, d) = given[i], given[j]
                if len(types) == len(given) and types[i] == types[j] and code[a:b] != code[c:d]:
                    yield a, d, code[c:d] + code[b:c] + code[a:b], "arguments"


def edits_between(code, start, end, known, names):
    """Start, end, new text and kind of each edit of a body or a value."""
    tokens = [("", start, start)] * 2 + [(m.group(), m.start(), m.end()) for m in TOKEN.finditer(code, start, end)] + [("", end, end)]
    for (enum, first, _), (before, _, _), (t, a, e), (after, next_at, _) in zip(tokens, tokens[1:], tokens[2:], tokens[3:]):
        if t in OPERATORS and re.match(r"[\w)\]]", before) and before not in KEYWORDS:
            yield from ((a, e, new, "operator") for new in OPERATORS[t])
        elif t == "!":
            yield a, e, "", "operator"
        elif t in TRUTH:
            yield a, e, TRUTH[t], "truth value"
        elif t[0].isdigit() and before != "." and (before, after) != (";", "]"):  # neither a tuple's field nor an array's length
            n, kind = re.match(r"(\d+)(.*)", t).groups()
            yield from ((a, e, str(m) + kind, "number") for m in (int(n) + 1, int(n) - 1) if m >= 0)
        elif before == "." and after != "(":
            yield from ((a, e, new, "field") for new in sorted(names.fields[t]))
        elif after not in ("(", "::", ":", "=") and before not in ("let", "mut", "::"):
            kinds = {k for n, k, _ in known if n == t}
            yield from ((a, e, new, "variable") for new in sorted({n for n, k, at in known if k in kinds and n != t and at <= a}))
        path = enum + "::" + t if before == "::" else t
        last = close(code, next_at) + 1 if after == "(" else e
        if not re.match(r"\s*=", code[last:]):  # else a pattern
            yield from ((first, e, new, "constructor") for new in sorted(names.variants.get(path, ())))
            if after == "(":
                yield from exchanges(code, next_at, names.takes.get(path) or names.takes.get(t, []))


def places_of(libraries, codes):
    """By crate the places that can be edited, each with its edits."""
    names = Names(codes.values())
    places = {c: collections.defaultdict(dict) for c in libraries}
    for (crate, file), code in codes.items():
        spans = [(f.start, f.end, variables(code, f, names)) for f in functions(code)]
        spans += [(m.end(), code.index(";\n", m.end()), []) for m in re.finditer(r"\bconst \w+: [^=]* = ", code)]
        for start, end, known in spans if crate in places else []:
            for e in edits_between(code, start, end, known, names):
                places[crate][file, e[0], e[3]][Edit(crate, file, *e)] = 1
    return {c: [list(edits) for edits in p.values()] for c, p in places.items() if p}


def shares(places, n):
    """How many edits of each crate: by its number of places, and two at least."""
    total = sum(map(len, places.values()))
    exact = {c: n * len(p) / total for c, p in places.items()}
    share = {c: max(2, int(x)) for c, x in exact.items()}
    for c in sorted(exact, key=lambda c: int(exact[c]) - exact[c]):
        share[c] += sum(share.values()) < n and exact[c] >= 2
    return share


def shown(edit, texts):
    text = texts[edit.crate, edit.file]
    row = text[text.rfind("\n", 0, edit.start) + 1 : text.index("\n", edit.end)]
    old, new, row = (" ".join(t.split()) for t in (text[edit.start : edit.end], edit.new, row))
    return "%s/src/%s:%d: `%s` to `%s` in `%s`" % (edit.crate, edit.file, text.count("\n", 0, edit.start) + 1, old, new, row)


def copy_to(work):
    """A copy of the repository's crates, without what was built of them."""
    shutil.copy(ROOT / "crates.txt", work)
    shutil.copytree(ROOT / "crates", work / "crates", ignore=shutil.ignore_patterns("out"))


def run(command, crate, work, limit=None):
    """Exit status and output of `rt COMMAND` in the crate's folder; no status where it takes too long."""
    folder = work / "crates" / crate
    rt = subprocess.Popen(["rt", command], cwd=folder, stdout=subprocess.PIPE, stderr=subprocess.STDOUT, text=True, start_new_session=True)
    try:
        return rt.communicate(timeout=limit)[0], rt.returncode
    except subprocess.TimeoutExpired:
        os.killpg(rt.pid, signal.SIGKILL)
        return rt.communicate()[0], None


def check(crate, work, limit):
    """What the checker says of the crate as it is now, and its first error. `rt check` refuses in seconds, over what it kept; what it accepts is put to `rt verdict`, which proves from nothing."""
    said, status = run("check", crate, work, limit)
    if status == 0:
        said, status = run("verdict", crate, work, limit)
    first = next((line for line in said.splitlines() if ": error" in line or ": no proof: expected" in line), "")
    if status == 0:
        return "survived", first
    if re.search(r"^logic=not-proved", said, re.M):
        return "shape" if MISFIT.search(first) else "fact", first
    return "language" if re.match(r"(\./)?src/", first) else "no answer", first


def sample(crate, places, share, options, texts):
    """Tries edits of a crate, in an order that the seed gives, until as many as its share have compiled."""
    dice = random.Random("%d %s" % (options.seed, crate))
    tried = []
    with tempfile.TemporaryDirectory() as folder:
        work = pathlib.Path(folder)
        copy_to(work)
        run("check", crate, work)  # so that each edit has only what it changes to prove
        for edit in (dice.choice(edits) for edits in dice.sample(places, len(places))):
            if sum(result != "language" for _, result in tried) == share:
                break
            began, text, file = time.time(), texts[crate, edit.file], work / "crates" / crate / "src" / edit.file
            file.write_text(text[: edit.start] + edit.new + text[edit.end :])
            result, first = check(crate, work, options.limit)
            file.write_text(text)
            tried.append((edit, result))
            print("%s, %s, %.0f s: %s" % (result, edit.kind, time.time() - began, shown(edit, texts)), flush=True)
            if options.errors and first:
                print("    " + first, flush=True)
    return tried


def report(tried, texts):
    """Tables by crate and by kind of edit, and each edit that was not refused."""
    counted = [(e, r) for e, r in tried if r != "language"]
    for title, key in (("crate", lambda e: e.crate), ("edit", lambda e: e.kind)):
        print("\n| %s | edits | refused: a fact | refused: the shape | no answer | survived |\n|---|---|---|---|---|---|" % title)
        for name in [*dict.fromkeys(key(e) for e, _ in counted), "all"]:
            results = [r for e, r in counted if name in (key(e), "all")]
            print("| %s | %d | %d | %d | %d | %d |" % (name, len(results), *map(results.count, ("fact", "shape", "no answer", "survived"))))
    print("\n%d more did not compile." % (len(tried) - len(counted)))
    print("\n".join("%s: %s" % (r, shown(e, texts)) for e, r in counted if r in ("no answer", "survived")))


def main():
    words = argparse.ArgumentParser(description=__doc__.split("\n")[0])
    words.add_argument("--edits", type=int, default=120, help="how many (120)")
    words.add_argument("--seed", type=int, default=1)
    words.add_argument("--only", metavar="CRATE", help="all of them in one crate")
    words.add_argument("--jobs", type=int, default=1, help="crates at a time (1)")
    words.add_argument("--limit", type=int, default=300, help="seconds for a check (300)")
    words.add_argument("--list", action="store_true", help="print every possible edit, and try none")
    words.add_argument("--errors", action="store_true", help="print the first error of each check")
    options = words.parse_args()
    texts = {(f.parts[-3], f.name): f.read_text() for f in sorted((ROOT / "crates").glob("*/src/*.rt"))}
    crates = re.findall(r"^(\w+):", (ROOT / "crates.txt").read_text(), re.M)
    # A library without definitions, as that under the programs, promises nothing but to be safe: what it prints is compared by running it.
    held = [c for c in crates if (c, "lib.rt") in texts and (ROOT / "crates" / c / "specs").is_dir()]
    places = places_of(held, {k: code_of(t) for k, t in texts.items()})
    if options.only:
        places = {options.only: places[options.only]}
    if options.list:
        return print("\n".join(shown(e, texts) for p in places.values() for edits in p for e in edits))
    print("%d places, %d edits, %d crates" % (sum(map(len, places.values())), sum(len(e) for p in places.values() for e in p), len(places)), flush=True)
    if any([run("check", crate, ROOT)[1] for crate in places]):
        sys.exit("there are crates that are not proved before any edit: see rt check")
    with concurrent.futures.ThreadPoolExecutor(options.jobs) as pool:
        runs = [pool.submit(sample, c, places[c], k, options, texts) for c, k in shares(places, options.edits).items()]
        report([t for r in runs for t in r.result()], texts)


if __name__ == "__main__":
    main()
