#!/usr/bin/env python3
"""Brings the names of this repository's own definitions and lemmas to snake case.

usage: tools/respell.py [--check] [ROOT]

Run once, right after port.py, at the top of the repository. Names that the repository declares in specs/ and proofs/ and that are in camel case or have dashes
are written in snake case, in every .antt file, in the clauses and `ghost use` lines of every .rt file, in the edits of must-fail/, and in the code spans of
comments and pages. Types, modules and the names of src/ keep their spelling. --check writes nothing and prints which names would fall together.
"""
import collections
import os
import re
import sys

W = r"[^\s(){}.;,@\"«»]+"
TOKEN = re.compile(r"--[^\n]*|//[^\n]*|\"(?:[^\"\\\n]|\\.)*\"|" + W)
DECLARED = re.compile(r"^(\s*)((?:abbrev |unfoldable |pub )*)(" + W + r")((?: " + W + r")*)(?: \{[^}]*\})* : (.*)$")
BINDER = re.compile(r"^\s*(?:pub )?(?:data|record|module) (" + W + ")")
SPAN = re.compile(r"`[^`\n]+`")
# Names that would fall together with another in one file, or with a word that is there. Where a lemma and the definition that it is of would, the lemma
# gets `_lem` (`main`).
APART = {
    "formOf": "literal_form",
    "inLane": "lane_bit",
    "written_from": "written_from_lem",
    "lines-of": "lines_of_lem",
    "same_flag": "same_flag_lem",
    "word-size": "word_size_lem",
    "bit-and": "bit_and_lem",
    "bit-or": "bit_or_lem",
    "bit-xor": "bit_xor_lem",
    "first_made": "made_first",
}


def snake(name):
    name = name.replace("getD", "get_or")
    name = re.sub(r"(?<=[a-z0-9])([A-Z])", lambda m: "_" + m.group(1).lower(), name)
    return name.replace("-", "_")


def files(root, *endings):
    for folder, dirs, names in os.walk(root):
        dirs[:] = sorted(d for d in dirs if d not in ("out", "target", ".git", "wip"))
        for it in sorted(names):
            if it.endswith(endings):
                yield os.path.join(folder, it)


def read(path):
    with open(path, encoding="utf-8", newline="") as it:
        return it.read()


def own(root):
    """The names that are declared here, but for answers to goals, which the generated names spell."""
    found = set()
    for path in files(os.path.join(root, "crates"), ".antt"):
        for line in read(path).split("\n"):
            m = DECLARED.match(line)
            if m and not line.lstrip().startswith("--") and not re.match(r"(tie|goal)\.", m.group(5)):
                found.update([m.group(3), *m.group(4).split()])
    return found


def spans(table, text):
    """A page or a comment: what stands in code spans."""
    return SPAN.sub(lambda s: "`" + re.sub(W, lambda w: table.get(w.group(0), w.group(0)), s.group(0)[1:-1]) + "`", text)


def turned(table, text):
    def one(m):
        word = m.group(0)
        return spans(table, word) if word.startswith(("--", "//")) else table.get(word, word)

    return TOKEN.sub(one, text)


def clauses(table, text):
    """A .rt file: what stands between the braces of a clause, `ghost use` lines and comments."""
    out, at = [], 0
    start = re.compile(r"//[^\n]*|\"(?:[^\"\\\n]|\\.)*\"|ghost use [^;]*;|\b(?:requires|ensures)\*?(?: \w+)? \{|\bghost \w+: \{")
    while True:
        m = start.search(text, at)
        if not m:
            return "".join(out) + text[at:]
        out.append(text[at:m.start()])
        it = m.group(0)
        end = m.end()
        if it.startswith('"'):
            out.append(it)
        elif it.endswith("{"):
            deep = 1
            while deep:
                deep += {"{": 1, "}": -1}.get(text[end], 0)
                end += 1
            out.append(it + turned(table, text[m.end():end]))
        else:
            out.append(turned(table, it))
        at = end


def main(argv):
    check = "--check" in argv
    rest = [a for a in argv if a != "--check"]
    root = rest[0] if rest else "."
    names = own(root)
    table = {n: snake(n) for n in names if re.match(r"[a-z]", n) and (re.search("[A-Z]", n) or "-" in n)}
    words = set(table[n] for n in table if re.search("[A-Z]", n) and "-" not in n)
    table = {n: s + "_lem" if "-" in n and s in words else s for n, s in table.items()}
    table.update(APART)
    if check:
        back = collections.defaultdict(set)
        for n, s in table.items():
            back[s].add(n)
        for n in names:
            if n in back:
                back[n].add(n)
        for path in files(os.path.join(root, "crates"), ".antt", ".rt"):
            words = set(m.group(0) for m in TOKEN.finditer(read(path)))
            for s, olds in back.items():
                here = sorted(o for o in olds if o in words)
                if len(here) > 1 or (s in words and s not in olds and here):
                    print(os.path.relpath(path, root), s, here, "and the word itself" if s in words else "")
        return 0
    changed = 0
    pages = [os.path.join(root, "README.md"), *files(os.path.join(root, "docs"), ".md"), *files(os.path.join(root, "examples"), ".md")]
    for path in [*files(os.path.join(root, "crates"), ".antt", ".rt", ".edit"), *pages]:
        old = read(path)
        new = spans(table, old) if path.endswith(".md") else clauses(table, old) if path.endswith(".rt") else turned(table, old)
        if new != old:
            changed += 1
            with open(path, "w", encoding="utf-8", newline="") as it:
                it.write(new)
    print(f"respell: {len(table)} names, {changed} files")
    return 0


if __name__ == "__main__":
    raise SystemExit(main(sys.argv[1:]))
