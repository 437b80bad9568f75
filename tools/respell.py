#!/usr/bin/env python3
"""Respells the repository's own definitions and lemmas as today's Rattle does: words in snake case, types in camel case.

usage: python3 tools/respell.py [--list]    at the top of the repository, once, after the kit's port.py

A name is turned where it is one of the definitions, lemmas or fields that the files of specs/ and proofs/ declare, in the files below crates/ (must-fail edits too),
and between backticks in the documents. Names of src/'s functions, of exported calls, of goals and of the library stay. The crate `bytes`, whose name the kit has
taken for a library of its own, becomes `little_endian`. --list prints the table and writes nothing.
"""
import os
import re
import sys

DECLARED = re.compile(r"^\s*(?:abbrev |unfoldable |pub )*([^\s:(){}\[\],;.|]+)(?: \{[^}]*\})* :(?: |$)")
TYPE = re.compile(r"^\s*(?:abbrev |unfoldable |pub )*(?:record|data) (\S+)")
TOKEN = re.compile(r"[^\s:(){}\[\],;.|«»⌜⌝\"`]+")
USE = re.compile(r"^\s*(?:ghost |pub )*use ([\w.·'-]+)\.(?:\{([^}]*)\}|([^\s{}]+?))(?: as \S+)?;?$")
CRATES = {"bytes": "little_endian"}
# Lemmas in snake case already that would fall together with a definition.
LEMMAS = {"row_words": "rowWords", "edges_most": "edgesMost", "in_both": "inBoth", "by_answer": "byAnswer"}


def texts(root, endings):
    for folder, folders, names in os.walk(os.path.join(root, "crates")):
        folders[:] = sorted(f for f in folders if f != "out")
        for name in sorted(names):
            if name.endswith(endings):
                yield os.path.join(folder, name)


def read(path):
    with open(path, encoding="utf-8") as f:
        return f.read()


def declared(root):
    names, types = set(), set()
    for path in texts(root, (".antt",)):
        if os.path.basename(path) == "Proof.antt":
            continue
        for line in read(path).splitlines():
            kind, plain = TYPE.match(line), DECLARED.match(line)
            if kind:
                types.add(kind.group(1))
            elif plain and not line.lstrip().startswith("--"):
                names.add(plain.group(1))
    return names, types


def snake(name):
    out = []
    for part in name.split("-"):
        if part[:1].isupper() and len(name.split("-")) > 1 and not out and len(part) > 0:
            out.append(part + "-")
            continue
        part = part.replace("getD", "get_or").replace("′", "'")
        out.append(re.sub(r"(?<=[a-z0-9])([A-Z])", lambda m: "_" + m.group(1).lower(), part) if part[:1].islower() else part.lower())
    text = ""
    for part in out:
        text += part if not text or text.endswith("-") else "_" + part
    return text


def table(root):
    """Old names and new ones. A lemma that would have a definition's name gets `_lem`."""
    names, types = declared(root)
    words = {name for name in names - types if name[:1].isalpha() and (name[:1].islower() or "-" in name)}
    taken = {snake(name) for name in words if "-" not in name}
    turned = {}
    for name in sorted(words):
        new = snake(name)
        if ("-" in name and new in taken) or LEMMAS.get(name) in words:
            new += "_lem"
        if new != name:
            turned[name] = new
    return turned


def of_others(text, own):
    """The names that a file takes from elsewhere than the repository."""
    out = set()
    for line in text.splitlines():
        m = USE.match(line)
        if not m:
            continue
        path = m.group(1)
        parts = path.split(".")
        if parts[0] == "Rattle" and len(parts) > 1 and parts[1] in own:
            continue
        out |= {n.strip() for n in (m.group(2) or m.group(3) or "").split(",")}
    return out


def turn(text, turned, own):
    kept = of_others(text, own)
    return TOKEN.sub(lambda m: turned[m.group(0)] if m.group(0) in turned and m.group(0) not in kept else m.group(0), text)


def move(text):
    for old, new in CRATES.items():
        text = re.sub(rf"\bRattle\.{old}\.", f"Rattle.{new}.", text)
        text = re.sub(rf"\b{old}::", f"{new}::", text)
        text = re.sub(rf"\bcrates/{old}\b", f"crates/{new}", text)
        text = re.sub(rf"\buse {old};", f"use {new};", text)
    return text


def move_crates(root):
    for old, new in CRATES.items():
        if os.path.isdir(os.path.join(root, "crates", old)):
            os.rename(os.path.join(root, "crates", old), os.path.join(root, "crates", new))
    path = os.path.join(root, "crates.txt")
    text = read(path)
    for old, new in CRATES.items():
        text = re.sub(rf"(?m)(?<![\w-]){old}(?![\w-])", new, text)
    with open(path, "w", encoding="utf-8") as f:
        f.write(text)


def main(argv):
    root = os.getcwd()
    own = set(os.listdir(os.path.join(root, "crates")))
    turned = table(root)
    if "--list" in argv:
        for old, new in turned.items():
            print(old, new)
        return 0
    for path in texts(root, (".antt", ".rt", ".edit")):
        before = read(path)
        after = move(turn(before, turned, own))
        if after != before:
            with open(path, "w", encoding="utf-8") as f:
                f.write(after)
    for folder in (".", "docs", "docs/requests"):
        for name in sorted(os.listdir(os.path.join(root, folder))):
            if name.endswith(".md"):
                path = os.path.join(root, folder, name)
                before = read(path)
                after = move(re.sub(r"`[^`\n]*`", lambda m: turn(m.group(0), turned, own), before))
                if after != before:
                    with open(path, "w", encoding="utf-8") as f:
                        f.write(after)
    move_crates(root)
    return 0


if __name__ == "__main__":
    raise SystemExit(main(sys.argv[1:]))
