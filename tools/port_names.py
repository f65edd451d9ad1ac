#!/usr/bin/env python3
"""Brings the repository's own definitions and lemmas to the spelling of today's Rattle, after port.py: words in snake case, a dash only between
two names of definitions. Run once, at the top. Functions of src/, exported names, strings, inputs and outputs keep their names.

usage: python3 tools/port_names.py [--list]      (--list: prints old and new name, and writes nothing)
"""

import os
import re
import sys

TOKEN = re.compile(r"(?<![\w'\-.⟨])[A-Za-z_][\w']*(?:-[\w'*]+)*")
ANYTOKEN = re.compile(r"(?<![\w'\-])[A-Za-z_][\w']*(?:-[\w'*]+)*")
DECLARED = re.compile(r"^\s*(?:(?:abbrev|unfoldable|opaque|private)\s+)*(?:pub\s+)?(?:record\s+|data\s+)?([A-Za-z_][\w']*(?:-[\w'*]+)*)\s*(?:[:{(]|$)")
# Names that Rattle makes, or that a proof of one function gives its goals: the converter of proof files writes these anew.
MADE = re.compile(r"^(tie|c|loop|returns|Need|invariant|decreases|if\d|overflow|array)(-|$)")
# Lemmas that port.py spelled like the function that they are about.
APART = {"boxes-apart": "boxes_are_apart"}
LEMMAS = ["first_byte", "four_bytes", "part_bytes", "same_step"]


def files(root, endings):
    for folder, dirs, names in os.walk(root):
        dirs[:] = sorted(d for d in dirs if d not in ("out", ".git"))
        for n in sorted(names):
            if n.endswith(endings):
                yield os.path.join(folder, n)


def read(p):
    with open(p, encoding="utf-8") as f:
        return f.read()


def is_function_proof(p):
    return p.endswith(("Proof.antt", "Answers.antt", "Invariants.antt"))


def snake(word):
    s = re.sub(r"(?<=[a-z0-9])([A-Z])", r"_\1", "get_or" if word == "getD" else word)
    s = re.sub(r"(?<=[A-Z])([A-Z][a-z])", r"_\1", s)
    return s.lower()


def is_camel(word):
    return bool(re.match(r"^[a-z]", word)) and bool(re.search(r"[a-z0-9][A-Z]", word)) and word.isascii()


# Words of the library that stand in names of lemmas.
LIBRARY = set("length append set sets take drop map eqb ltb leb true false cond get_or zero suc add sub mul replicate refl not".split())


def main(argv):
    antt = list(files("crates", (".antt",)))
    declared, defined, fields = set(), set(), set()
    for p in antt:
        if is_function_proof(p):
            continue
        for line in read(p).split("\n"):
            if line.lstrip().startswith("--"):
                continue
            m = DECLARED.match(line)
            if m:
                declared.add(m.group(1))
                if "/specs/" in p:
                    (fields if line.startswith(" ") else defined).add(m.group(1))
    seen = {}
    for p in antt:
        for w in set(ANYTOKEN.findall(re.sub(r'--.*', "", read(p)))):
            seen.setdefault(w, []).append(p)
    # What the library's modules give keeps its name.
    own = {c for c in os.listdir("crates")}
    library = set()
    for p in antt:
        for module, listed in re.findall(r"use ([\w.'+]+)\.\{([^}]*)\}", read(p)):
            if not (module.startswith("Rattle.") and module.split(".")[1] in own):
                library |= set(re.findall(r"[^\s,]+", listed))
    names = {snake(w) if is_camel(w) else w for w in defined if "-" not in w} | LIBRARY
    turned = {}
    for w in sorted(seen):
        if "-" not in w:
            if is_camel(w) and w not in library:
                turned[w] = snake(w)
            continue
        if w not in declared or w in library or MADE.match(w):
            continue
        parts = [snake(x) if is_camel(x) else x for x in w.split("-")]
        new = ("-" if w not in fields and all(x in names and len(x) > 1 for x in parts) else "_").join(parts)
        if new != w:
            turned[w] = new
    # A lemma that would have its function's name gets `_lem`.
    taken = {b for a, b in turned.items() if "-" not in a} | {w for w in seen if "-" not in w and not is_camel(w)}
    for w in turned:
        if w in APART:
            turned[w] = APART[w]
        elif "-" in w and turned[w] in taken:
            turned[w] += "_lem"
    turned.update({w: w + "_lem" for w in LEMMAS})
    back = {}
    for a, b in turned.items():
        back.setdefault(b, []).append(a)
    clash = 0
    for b, olds in sorted(back.items()):
        group = olds + ([b] if b in seen else [])
        if len(group) < 2:
            continue
        common = None
        for i, x in enumerate(group):
            for y in group[i + 1:]:
                common = sorted(set(seen.get(x, [])) & set(seen.get(y, [])))
                if common:
                    clash += 1
                    print("falls together:", x, y, "->", b, "in", common[0], f"(+{len(common)-1})")
                elif x in declared and y in declared:
                    print("same name, no file in common:", x, y, "->", b)
    if "--list" in argv:
        print("library's own:", *sorted(w for w in library if is_camel(w)))
        for a, b in sorted(turned.items()):
            print(f"{a}\t{b}")
        return 0
    write(turned)
    return 0


def respell(text, turned):
    return ANYTOKEN.sub(lambda m: turned.get(m.group(0), m.group(0)), text)


def write(turned):
    for p in files("crates", (".antt",)):
        t = read(p)
        out = []
        for line in t.split("\n"):
            out.append(outside_strings(line, turned))
        put(p, t, "\n".join(out))
    camel = {a: b for a, b in turned.items() if a not in LEMMAS}
    for p in files("crates", (".rt",)):
        t = read(p)
        out = []
        for line in t.split("\n"):
            out.append(outside_strings(line, camel) if not line.lstrip().startswith("use ") else line)
        put(p, t, "\n".join(out))
    for p in files("crates", (".edit",)):
        t = read(p)
        put(p, t, "\n".join(outside_strings(line, turned) if line.startswith(("old:", "new:")) else line for line in t.split("\n")))
    # The pages speak of definitions and lemmas between backticks; port.py, which leaves pages alone, respelled some of these.
    now = set()
    for p in files("crates", (".antt",)):
        now |= set(ANYTOKEN.findall(read(p)))

    def in_page(m):
        w = m.group(0)
        if w in turned:
            return turned[w]
        new = snake(w) if is_camel(w) else w
        if new in now:
            return new
        new = new.replace("-", "_")
        return new if new in now else w

    for p in list(files("docs", (".md",))) + ["README.md"]:
        t = read(p)
        put(p, t, re.sub(r"`[^`\n]+`", lambda m: ANYTOKEN.sub(in_page, m.group(0)), t))


def outside_strings(line, turned):
    parts = re.split(r'("(?:[^"\\]|\\.)*")', line)
    return "".join(x if x.startswith('"') else respell(x, turned) for x in parts)


def put(p, old, new):
    if new != old:
        with open(p, "w", encoding="utf-8") as f:
            f.write(new)


if __name__ == "__main__":
    raise SystemExit(main(sys.argv[1:]))
