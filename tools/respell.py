#!/usr/bin/env python3
"""Brings the repository's own names of definitions and lemmas to the kit's spelling, once, after the kit's port.py.

usage: python3 tools/respell.py        at the top of the repository

A name with dashes gets underscores (`zero-node` is `zero_node`); a fact, whose name begins with a capital, gets camel case
(`Rows-are-normal` is `RowsAreNormal`); the crate `check`, which the kit has a library of, is `derivation_check`.
Names that Rattle makes (goals, and what stands behind `c.`, `l.`, `w.` and the like in answers) stay, and so do functions,
strings and outputs. Names that would fall together with another of the same file are printed, and nothing is written.
"""

import os
import re
import subprocess
import sys
import tempfile

SNAKE = "/opt/rattle/port/notes/2026-11-18-names-are-in-snake-case"
DECLARED = re.compile(r"(?m)^ *(?:(?:abbrev|unfoldable|record|data|pub) )*([^\s(){}.;,@\"«»:]+)((?: [({][^\n]*?[)}])*) : (.*)$")
ALIAS = re.compile(r" as ([^\s(){}.;,@\"«»]+)")
WORD = re.compile(r'[^\s(){}.;,@"«»]+')
# Names that would meet another name of some file, each with the spelling that it gets.
APART = {
    "leaf-of": "leaf_of_node",
    "list-start": "start_of_list",
    "lists-order": "lists_in_order",
    "lists-within": "lists_fit",
    "numbers-needed": "numbers_for",
    "pair-start": "pair_place",
    "term-start": "start_of_term",
    "terms-order": "terms_in_order",
    "terms-within": "terms_fit",
}
CRATE = ("check", "derivation_check")


def files(ending):
    for folder, dirs, names in os.walk("crates"):
        dirs[:] = sorted(d for d in dirs if d != "out")
        for name in sorted(names):
            if name.endswith(ending):
                yield os.path.join(folder, name)


def read(path):
    with open(path, encoding="utf-8") as f:
        return f.read()


def is_answer(path):
    return os.path.basename(path) in ("Answers.antt", "Invariants.antt")


def own_names():
    names = set()
    for path in files(".antt"):
        text = read(path)
        for name, _, what in DECLARED.findall(text):
            if not re.match(r"(goal|given|needs?)\.", what):
                names.add(name)
        names.update(ALIAS.findall(" ".join(re.findall(r"(?m)^use .*$", text))))
    for path in files(".rt"):
        names.update(ALIAS.findall(" ".join(re.findall(r"ghost use[^;]*;", read(path)))))
    return {n for n in names if "-" in n.strip("-") and re.fullmatch(r"[A-Za-z][\w'-]*", n)}


def spelled(name):
    if name in APART:
        return APART[name]
    if name[0].isupper() and name[1:2].islower() and name.split("-")[0] not in ("All", "Decides"):
        return "".join(w[:1].upper() + w[1:] for w in name.split("-"))
    return name.replace("-", "_")


def clashes(table):
    found = []
    for path in list(files(".antt")) + list(files(".rt")):
        words = set(WORD.findall(read(path)))
        for old in words & set(table):
            if table[old] in words:
                found.append(f"{path}: {old} would meet {table[old]}")
    return found


def rename_crate():
    old, new = CRATE
    if not os.path.isdir(f"crates/{old}"):
        return
    os.rename(f"crates/{old}", f"crates/{new}")
    with open("crates.txt", encoding="utf-8") as f:
        text = f.read()
    with open("crates.txt", "w", encoding="utf-8") as f:
        f.write(re.sub(rf"(?<![\w]){old}(?![\w])", new, text))
    for path in list(files(".antt")) + list(files(".rt")):
        text = read(path)
        turned = re.sub(rf"\bRattle\.{old}\.", f"Rattle.{new}.", text)
        if path.endswith(".rt"):
            turned = re.sub(rf"(?m)^(\s*use ){old}::", rf"\g<1>{new}::", turned)
        if turned != text:
            with open(path, "w", encoding="utf-8") as f:
                f.write(turned)


def main():
    table = {name: spelled(name) for name in sorted(own_names())}
    met = clashes(table)
    news = sorted(table.values())
    met += [f"two names become {n}" for n in set(news) if news.count(n) > 1]
    if met:
        print("\n".join(met))
        return 1
    rename_crate()
    with tempfile.NamedTemporaryFile("w", suffix=".tsv", delete=False) as f:
        f.writelines(f"{old}\t{new}\n" for old, new in table.items())
    run = [sys.executable, f"{SNAKE}/snake.py", "--table", f.name, "--move"]
    answers = [p for p in files(".antt") if is_answer(p)]
    others = [p for p in files(".antt") if not is_answer(p)] + list(files(".rt"))
    status = subprocess.run([*run, "--skip-behind", "goal,c,w,l,g", *answers]).returncode
    status |= subprocess.run([*run, *others]).returncode
    print(f"{len(table)} names")
    return status


if __name__ == "__main__":
    raise SystemExit(main())
