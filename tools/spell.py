#!/usr/bin/env python3
"""Brings the repository's own definitions and lemmas to the library's spelling.

usage: tools/spell.py [--list]     at the top of the repository, once, after the kit's port.py

A word in camel case goes to snake case (`headKind` -> `head_kind`). In the name of a lemma, a field or a constructor a dash that joins
plain words goes to an underscore (`entry-back` -> `entry_back`); a dash between the names of two definitions stays (`length-drop`). A lemma
that would get the name of a definition gets `_lem` after it. Types, modules, functions of src/, strings, inputs and outputs keep their
names. --list prints the names and changes nothing. The names are changed in crates/*/specs, crates/*/proofs, and the clauses and imports of
crates/*/src. The edits of must-fail/ are brought over beside the text that they fit.
"""

import concurrent.futures
import os
import re
import subprocess
import sys

TOKEN = re.compile(r"--[^\n]*|\"(?:[^\"\\]|\\.)*\"|[^\s(){}\[\],;.@|↦λ:«»]+")
CAMEL = re.compile(r"(?<=[a-z0-9])([A-Z])")
DEFINED = re.compile(r"(?m)^\s*(?:abbrev |unfoldable |pub |\| )*([a-z][A-Za-z0-9_'-]*)(?: [^:\n]*)? : ")
FIELD = re.compile(r"[{;]\s*([a-z][A-Za-z0-9_'-]*) : ")
RECORD = re.compile(r"(?m)^( *)(?:pub )?record [^\n]*\bwhere\n((?:(?:\1 [^\n]*|)\n)*)")
# Two names that the kit's script gave a field, a lemma and a constructor, and that a definition gets here.
GIVEN = {"no_room": "no_room_left", "left_out": "passed_over", "no-order": "without_order", "recorded-order": "takes_recorded_order", "owners-below": "each_owner_below"}
# Words of the library that stand on a side of a dash in its lemmas.
LIBRARY = set("length append drop take map sum sum_by get get_or set cons nil min max not all any reverse replicate filter zip add sub mul div mod".split())


def files(ends):
    for folder, dirs, names in os.walk("crates"):
        dirs[:] = sorted(d for d in dirs if d != "out")
        for n in sorted(names):
            if n.endswith(ends):
                yield os.path.join(folder, n)


def read(path):
    with open(path, encoding="utf-8", newline="") as f:
        return f.read()


def snake(word):
    return CAMEL.sub(lambda m: "_" + m.group(1).lower(), word) if word[:1].islower() else word


def own_names():
    """The words that specs/ and the files of lemmas define: definitions, lemmas (in Laws/ and proofs/), fields, constructors."""
    words, lemmas = set(), set()
    for p in files(".antt"):
        t = read(p)
        own = set(DEFINED.findall(t)) | set(FIELD.findall(t))
        if "/proofs/" in p and os.path.basename(p) == "Proof.antt":
            continue
        (lemmas if "/Laws/" in p or "/proofs/" in p else words).update(own)
    return words, lemmas


def fields():
    """The fields of the records that specs/ declares."""
    found = set()
    for p in files(".antt"):
        for m in RECORD.finditer(read(p)):
            found.update(re.findall(r"(?m)^\s*(?:pub )?([a-z][A-Za-z0-9_'-]*)(?: [^:\n]*)? : ", m.group(2)))
    return found


def tokens():
    seen = set()
    for p in files((".antt", ".rt")):
        for m in TOKEN.finditer(read(p)):
            if m.group(0)[:2] != "--" and m.group(0)[:1] != '"':
                seen.add(m.group(0))
    return seen


def part(name):
    return CAMEL.sub(lambda m: "_" + m.group(1).lower(), name) if name[:1].islower() else name


def dashes(name, words):
    """Each dash that does not join two definitions goes to an underscore. A fact's name, in upper case, keeps its dash, and so does a number."""
    parts = name.split("-")
    out = parts[0]
    for left, right in zip(parts, parts[1:]):
        keep = (left in words and right in words) or right[:1].isupper() or right[:1].isdigit() or not right or not left
        out += ("-" if keep else "_") + right
    return out


def names():
    words, lemmas = own_names()
    seen = tokens()
    projected = fields()
    known = {snake(w) for w in words if "-" not in w} | LIBRARY
    new = {}
    for w in sorted(seen):
        if w[:1].islower() and "-" not in w and CAMEL.search(w):
            new[w] = snake(w)
            if new[w] in lemmas:
                new[new[w]] = GIVEN.get(new[w], new[w] + "_lem")
    taken = set(new.values()) | {w for w in seen if "-" not in w}
    for w in sorted((words | lemmas) & seen):
        if "-" not in w:
            continue
        to = GIVEN.get(w) or (part(w).replace("-", "_") if w in projected else dashes(part(w), known))
        if to == w:
            continue
        if to in taken or to in KEYWORDS:
            to += "_lem"
        if to in taken:
            to += "ma"
        taken.add(to)
        new[w] = to
    for w in sorted(seen):
        if w not in new and "-" in w and w[:1].islower() and CAMEL.search(w):
            new[w] = "-".join(part(p) for p in w.split("-"))
    return new


KEYWORDS = set("use pub mod module record data where let in open abbrev unfoldable unfolding elim with rw simp cc omega search grind absurd".split())


def turned(text, new, projected):
    """A name after a dot is a field, a step of the code, or a function's module; after a module's name it is a definition."""

    def one(m):
        w = m.group(0)
        if w[:2] == "--":
            return re.sub(r"`([^`\n]+)`", lambda q: "`" + re.sub(r"[A-Za-z][\w'-]*", lambda x: new.get(x.group(0), x.group(0)), q.group(1)) + "`", w)
        if text[m.start() - 1 : m.start()] == "." and w not in projected and not CAMEL.search(w) and not re.search(r"\.[A-Z]\w*\.$", text[: m.start()][-60:]):
            return w
        return new.get(w, w)

    return TOKEN.sub(one, text)


def turned_source(text, new, projected):
    """In a source only the imports and the clauses are turned."""
    out = []
    at = 0
    for m in re.finditer(r"(?m)^(ghost use [^;]*;|\s+(?:requires|ensures)\b[^{\n]*\{(?:[^{}]|\{[^{}]*\})*\})", text):
        out += [text[at : m.start()], turned(m.group(0), new, projected)]
        at = m.end()
    return "".join(out) + text[at:]


def main(argv):
    new = names()
    if argv == ["--list"]:
        for w in sorted(new):
            print(w, new[w])
        return 0
    if argv:
        print(__doc__)
        return 2
    changed = 0
    projected = fields()
    for p in files((".antt", ".rt")):
        t = read(p)
        n = turned_source(t, new, projected) if p.endswith(".rt") else turned(t, new, projected)
        if n != t:
            with open(p, "w", encoding="utf-8", newline="") as f:
                f.write(n)
            changed += 1
    laid = lambda c: subprocess.run(["rt", "fmt"], cwd=os.path.join("crates", c), stdout=subprocess.DEVNULL, stderr=subprocess.DEVNULL, check=False)
    with concurrent.futures.ThreadPoolExecutor(4) as pool:
        list(pool.map(laid, sorted(os.listdir("crates"))))
    print(f"{len(new)} names, {changed} files")
    return 0


if __name__ == "__main__":
    raise SystemExit(main(sys.argv[1:]))
