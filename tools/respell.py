#!/usr/bin/env python3
"""Brings the names of this repository's own definitions and lemmas to today's spelling.

usage: python3 tools/respell.py            at the top of the repository, once, right after the kit's port.py
       python3 tools/respell.py --list     prints each name with its new spelling, and changes nothing

Words are in snake case, facts and types in upper camel case. A dash stays where it joins the names of two functions, as in
length-rows, or a type to a name; a plain word is joined by '_'. Names of src/, and names that Rattle makes, are left alone.
"""
import os
import re
import sys

WORD = re.compile(r"[^\s(){}\[\],.;:\"`|«»]+")
HEAD = re.compile(r"^ *(?:(?:abbrev|unfoldable|pub|data|record|\|) +)*([^\s:(){}=;|λ.,\"-][^\s:(){}=;|.,\"]*) +(?:[({][^=]*)?:(?: |$)")
# What a dash may stand between: functions of the library and of this repository.
PLAIN = {"length", "get_or", "take", "drop", "set", "map", "replicate", "append", "unreached", "isIn", "upFrom", "square"}
# Names that would fall together with another of this repository, or that name what the library calls otherwise now.
OTHER = {
    "getD-square": "get_or-square",
    "getD-upFrom": "get_or-up_from",
    "inLane": "is_in_lane",
    "taken_in": "taken_in_lem",
}


def files(top, ends=(".antt", ".rt")):
    for folder, dirs, names in os.walk(os.path.join(top, "crates")):
        dirs[:] = sorted(d for d in dirs if d != "out")
        for n in sorted(names):
            if n.endswith(ends):
                yield os.path.join(folder, n)


def pages(top):
    docs = os.path.join(top, "docs")
    return [os.path.join(top, "README.md")] + [os.path.join(docs, n) for n in sorted(os.listdir(docs)) if n.endswith(".md")]


def declared(top):
    """The names that lemma files and specs declare: definitions, lemmas, constructors and fields."""
    out = set()
    for p in files(top, (".antt",)):
        parts = os.path.relpath(p, top).split(os.sep)
        if parts[-1] == "Invariants.antt":
            continue
        with open(p, encoding="utf-8") as f:
            for line in f:
                if line.lstrip().startswith("--") or ": goal." in line or ": given." in line:
                    continue
                m = HEAD.match(line)
                if m:
                    out.add(m.group(1))
    return out


def snake(word):
    word = re.sub(r"(?<=[a-z0-9'])([A-Z])", lambda m: "_" + m.group(1).lower(), word)
    return word


def functions(names):
    """The names of functions: those with no dash, in their new spelling."""
    return {n for n in names if "-" not in n and n[:1].islower()}


def respelled(name, joined):
    if name in OTHER:
        return OTHER[name]
    name = name.replace("′", "'")
    if name[:1].isupper():
        if "-" not in name:
            return name
        first, *rest = name.split("-")
        if first in ("Some",):
            return name
        return first + "".join(r[:1].upper() + r[1:] for r in rest)
    parts = [snake(p) for p in name.split("-")]
    if any(p in ("", "'") for p in parts):
        return name
    text = parts[0]
    for left, right, new in zip(name.split("-"), name.split("-")[1:], parts[1:]):
        keep = left in joined and right in joined
        text += ("-" if keep else "_") + new
    return text


def rust_functions(top):
    out = set()
    for p in files(top, (".rt",)):
        with open(p, encoding="utf-8") as f:
            out |= set(re.findall(r"\bfn ([a-z_0-9]+)", f.read()))
    return out


def main():
    top = os.getcwd()
    names = declared(top)
    code = rust_functions(top)
    joined = functions(names) & (PLAIN | {n for n in names if re.search(r"[a-z][A-Z]", n) or "_" in n}) | PLAIN
    to = {n: respelled(n, joined) for n in sorted(names)}
    # A lemma that would have its function's name gets '_lem'.
    defined = {b for a, b in to.items() if "-" not in a}
    to = {a: b + "_lem" if "-" in a and a not in OTHER and (b in code or b in defined) else b for a, b in to.items()}
    to = {a: b for a, b in to.items() if a != b}
    back = {}
    for a, b in to.items():
        back.setdefault(b, []).append(a)
    used = {}
    for p in files(top):
        with open(p, encoding="utf-8") as f:
            for w in WORD.findall(f.read()):
                used.setdefault(w, set()).add(os.path.relpath(p, top))
    bad = [(b, a) for b, a in back.items() if len(a) > 1]
    bad += [(b, a, sorted(used[b])[:4]) for b, a in back.items() if b in used]
    if "--list" in sys.argv:
        for a, b in to.items():
            print(a, b)
        for line in bad:
            print("falls together:", *line)
        return
    for p in pages(top):
        with open(p, encoding="utf-8") as f:
            old = f.read()
        new = re.sub(r"`[^`\n]+`", lambda q: WORD.sub(lambda m: to.get(m.group(0), m.group(0)), q.group(0)), old)
        if new != old:
            with open(p, "w", encoding="utf-8") as f:
                f.write(new)
    for p in files(top):
        with open(p, encoding="utf-8") as f:
            old = f.read()
        # Behind a dot, a name with a dash in a function's own proof is one that Rattle makes.
        made = os.path.basename(p) in ("Answers.antt", "Invariants.antt", "Proof.antt")
        new = WORD.sub(lambda m: m.group(0) if made and "-" in m.group(0) and old[m.start() - 1] == "." else to.get(m.group(0), m.group(0)), old)
        if new != old:
            with open(p, "w", encoding="utf-8") as f:
                f.write(new)


main()
