#!/usr/bin/env python3
"""Spells the definitions and lemmas of the crates as today's Rattle spells them: words in snake case, types in camel case.

usage: tools/spell-names.py [FOLDER]     at the top of the repository, once, right after the kit's port.py

    isWord, partOf, copied-one  ->  is_word, part_of, copied_one

A name is turned if some .antt file of the crates declares it. Where a lemma would get the name of its definition, it gets _lem. A name that the
library declares too is turned only in files that declare it or take it from a crate of this repository. Functions of src/, and names that the
checker makes, stay. It prints what falls together.
"""
import collections
import glob
import os
import re
import subprocess
import sys

root = sys.argv[1] if len(sys.argv) > 1 else "."
KIT = os.path.join(os.path.dirname(subprocess.run(["rt", "doc"], capture_output=True, text=True, check=True).stdout.strip()), "rattle")
WORD = r"[^\s(){}.;,@\"«»\[\]\\]+"
ANTT = re.compile(r"--[^\n]*|\"(?:[^\"\\]|\\.)*\"|" + WORD)
RUST = re.compile(r"//[^\n]*|\"(?:[^\"\\]|\\.)*\"|" + WORD)
DECLARED = re.compile(r"(?m)^\s*(?:abbrev |unfoldable |opaque |data |record )*(?:pub )?(?:abbrev |unfoldable |data |record )?([A-Za-z][^\s(){}:,;.]*) :(?= )(?! tie\.)")
RECORDS = re.compile(r"(?m)^\s*(?:pub )?(?:data |record )(?:pub )?([A-Za-z][^\s(){}:,;.]*)")
USES = re.compile(r"(?m)^\s*(?:pub )?(?:ghost )?use ([^\s{]+)\.\{([^}]*)\}")


def read(path):
    with open(path, encoding="utf-8", errors="replace") as f:
        return f.read()


def texts(top):
    for path in sorted(glob.glob(top + "/**/*", recursive=True)):
        if path.endswith((".rt", ".antt")) and "/out/" not in path and os.path.isfile(path):
            yield path


def declared(text):
    bare = re.sub(r"--[^\n]*", "", text)
    return set(DECLARED.findall(bare)) | set(RECORDS.findall(bare))


def snake(name):
    if re.match("[a-z]", name):
        name = re.sub(r"(?<=[a-z0-9])([A-Z])", lambda m: "_" + m[1].lower(), name)
    return name.replace("-", "_")


crates = {p: read(p) for p in texts(root + "/crates")}
own = collections.defaultdict(set)
for path, text in crates.items():
    if path.endswith(".antt"):
        for name in declared(text):
            own[name].add(path)
groups = collections.defaultdict(set)
for name in own:
    groups[snake(name)].add(name)
table = {}
for name in own:
    to = snake(name)
    if to != name:
        others = groups[to] - {name}
        if "-" in name and any("-" not in o for o in others):
            to += "_lem"
        table[name] = to
targets = collections.Counter(table.values())
# Lemmas that had the new name of a definition already.
lemmas = {to for to in targets if to in own}
for to, n in targets.items():
    if n > 1:
        print("falls together:", to, [k for k in table if table[k] == to])
library = set()
for path in texts(KIT):
    if path.endswith(".antt"):
        library |= declared(read(path))

for path, text in crates.items():
    code = RUST if path.endswith(".rt") else ANTT
    here = declared(text) if path.endswith(".antt") else set()
    mine, theirs = set(here), set()
    for home, names in USES.findall(text):
        ours = re.match(r"Rattle\.(\w+)", home)
        ours = ours and os.path.isdir(f"{root}/crates/{ours[1]}")
        (mine if ours else theirs).update(n.strip().split(" as ")[0].strip() for n in names.split(","))

    lems = {
        n
        for n in lemmas
        if path.endswith(".antt")
        and (n in here or any(n in [x.strip().split(" as ")[0] for x in names.split(",")] and ".proofs." in home for home, names in USES.findall(text)))
    }

    def turn(name):
        if name in lems:
            return name + "_lem"
        if name not in table or (name in theirs and name not in mine):
            return name
        if name in library and name not in mine:
            return name
        return table[name]

    tokens = set(code.findall(text))
    for name in tokens:
        to = turn(name)
        if to != name and to in tokens and to in theirs:
            print("beside the library's:", path, name, to)

    def one(found):
        word = found[0]
        if word.startswith(("--", "//")):
            return re.sub(r"`([^`]*)`", lambda m: "`" + code.sub(one, m[1]) + "`" if not m[1].startswith(("--", "//")) else m[0], word)
        if word.startswith('"'):
            return word
        return turn(word)

    new = code.sub(one, text)
    if new != text:
        with open(path, "w", encoding="utf-8") as f:
            f.write(new)
print(len(table), "names turned")
