#!/usr/bin/env python3
"""Respells this repository's own definitions and lemmas: listCheck becomes list_check.

usage: python3 tools/respell.py [--list]     at the top of the repository, once, after the kit's port.py

It goes over crates/*/{src,specs,proofs,must-fail}, every .rt and .antt file and every edit, and then over the pages. A name is respelled where it, or a part of it
between dashes, begins with a small letter and has a capital later. Types, modules and facts keep their capitals, and so do names that are
imported from the kit. --list prints the old and the new names, and those that fall together, and writes nothing.
"""

import os
import re
import sys

TOKEN = re.compile(r"[A-Za-z_][A-Za-z0-9_'₀-₉ℕℤ]*(?:-[A-Za-z0-9_'₀-₉ℕℤ]+)*")
CAMEL = re.compile(r"^[a-z][a-z0-9_]*[A-Z]")
USE = re.compile(r"^\s*(?:pub |ghost )*use ([^;{\n]+?)(?:\.\{([^}]*)\})?(?: as \S+)?;?\s*$", re.M)
# names that would fall together with another word, and what they get: `first_of` is a tactic
APART = {"firstOf": "first_of_length", "first_of": "first_of_length"}
# lemmas that would have the name of a function that is respelled, and their crates: they get `_lem`
LEMMAS = {
    "goes_on": ("history",),
    "no_number": ("records",),
    "run_holds": ("tcam", "claims"),
    "in_order": ("claims",),
    "is_free": ("claims",),
    "of_length": ("claims",),
    "walk_from": ("claims",),
}


def snake_part(part):
    if not CAMEL.match(part):
        return part
    part = re.sub(r"([a-z0-9'])([A-Z])", r"\1_\2", part)
    part = re.sub(r"([A-Z])([A-Z][a-z])", r"\1_\2", part)
    return part.lower()


def snake(name):
    return APART.get(name) or "-".join(snake_part(p) for p in name.split("-"))


def files():
    for folder, dirs, names in os.walk("crates"):
        dirs[:] = sorted(d for d in dirs if d != "out")
        for f in sorted(names):
            if f.endswith((".rt", ".antt", ".edit")):
                yield os.path.join(folder, f)


def pages():
    yield "README.md"
    for top in ("docs", "rust"):
        for folder, dirs, names in os.walk(top):
            dirs[:] = sorted(d for d in dirs if d != "target")
            for f in sorted(names):
                if f.endswith((".md", ".rs")) and f != "PORT.md":
                    yield os.path.join(folder, f)


def read(path):
    with open(path, encoding="utf-8") as f:
        return f.read()


def write(path, text):
    with open(path, "w", encoding="utf-8") as f:
        f.write(text)


def kit_names(texts):
    own = set(os.listdir("crates"))
    found = set()
    for text in texts:
        for path, names in USE.findall(text):
            crate = path.strip().split(".")
            if crate[0] == "Rattle" and len(crate) > 1 and crate[1] in own and "Tie" not in crate:
                continue
            for n in (names or "").split(","):
                found.update(TOKEN.findall(n.split(" as ")[0]))
    return found


def main():
    paths = list(files())
    texts = {p: read(p) for p in paths}
    kit = kit_names(t for p, t in texts.items() if not p.endswith(".edit"))
    every = {w for t in texts.values() for w in TOKEN.findall(t)}
    names = {w: snake(w) for w in every if w not in kit and snake(w) != w}
    if "--list" in sys.argv:
        together = {}
        for old, new in names.items():
            together.setdefault(new, set()).add(old)
        for new, olds in sorted(together.items()):
            if new in every:
                olds.add(new)
            print(*sorted(olds - {new}), "->", new, "(TOGETHER)" if len(olds) > 1 else "")
        print("kept as the kit's:", *sorted(w for w in kit if snake(w) != w))
        return
    for p, t in texts.items():
        for lemma, crates in LEMMAS.items():
            if p.endswith(".antt") and p.split(os.sep)[1] in crates and os.sep + "proofs" + os.sep in p:
                t = re.sub(r"(?<![.\w'-])" + lemma + r"(?![\w'-])", lemma + "_lem", t)
        new = TOKEN.sub(lambda m: names.get(m.group(), m.group()), t)
        if new != texts[p]:
            write(p, new)
    known = every | set(names.values())
    for p in pages():
        t = read(p)
        new = TOKEN.sub(lambda m: snake(m.group()) if snake(m.group()) in known else m.group(), t)
        if new != t:
            write(p, new)


main()
