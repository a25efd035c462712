#!/usr/bin/env python3
"""Counts the places of docs/DESIGN-PASS.md in crates/*/src: forms of the older language that today's Rattle has a better word for.

usage: tools/design-places.py [--list] [POINT ..]

Without --list it prints a line for each kind of place; with it each place too. POINT is 1 to 7; none: all."""

import collections
import glob
import re
import sys

TEXT = {f: open(f, encoding="utf-8").read() for f in sorted(glob.glob("crates/*/src/**/*.rt", recursive=True))}


def code_of(text):
    """The text with its comments and `ghost use` lines blanked, line for line."""
    lines = []
    for line in text.split("\n"):
        if line.startswith("ghost use"):
            line = ""
        at = line.find("//")
        lines.append(line[:at] if at >= 0 else line)
    return "\n".join(lines)


CODE = {f: code_of(t) for f, t in TEXT.items()}


def at(f, place):
    return f"{f}:{CODE[f].count(chr(10), 0, place) + 1}"


def each(pattern, flags=re.M):
    for f, s in CODE.items():
        for m in re.finditer(pattern, s, flags):
            yield f, m


def types(word):
    for f, m in each(r"^(?:pub )?" + word + r" (\w+)[^\n;{]*\{\n(.*?)^\}", re.M | re.S):
        yield f, m


def functions():
    """Each function: its file, its place, name, parameters and result, clauses, body."""
    for f, m in each(r"^( *)(?:pub )?(?:const )?fn (\w+)(.*?)^\1\}$", re.M | re.S):
        indent = m.group(1)
        head = re.split(r"\n" + indent + r"\{\n|\{\n", m.group(3), maxsplit=1)
        body = head[1] if len(head) == 2 else ""
        yield f, m.start(), m.group(2), head[0], body


def parameters(head):
    depth, out, item = 0, [], ""
    begin = head.find("(")
    for c in head[begin + 1:]:
        if c in "([{<":
            depth += 1
        if c in ")]}>":
            if depth == 0:
                break
            depth -= 1
        if c == "," and depth == 0:
            out.append(item.strip())
            item = ""
        else:
            item += c
    out.append(item.strip())
    return [re.sub(r"\s+", " ", x) for x in out if x.strip()]


def option_enums():
    for f, m in types("enum"):
        variants = re.findall(r"^ {4}(\w+)(\([^)]*\))?", m.group(2), re.M)
        if len(variants) == 2 and sorted(bool(v[1]) for v in variants) == [False, True]:
            yield at(f, m.start()) + " " + m.group(1)


def refusal_fields():
    for f, m in each(r"^ +(?:pub )?(refusal|error|number|result): u8,"):
        yield at(f, m.start()) + " " + m.group(1)


def flag_fields():
    for f, m in types("struct"):
        for n in re.findall(r"^ +(?:pub )?(good|fits|given|accepted|on|ended|more|bad|over|done|failed|known): bool", m.group(2), re.M):
            yield at(f, m.start()) + f" {m.group(1)}.{n}"


def kind_numbers():
    for f, m in each(r"^ *(?:pub )?const (\w+): u(?:8|16) ="):
        yield at(f, m.start()) + " " + m.group(1)


def number_answers():
    for f, place, name, head, body in functions():
        if "refusal" in name and re.search(r"-> u\d+", head):
            yield at(f, place) + " " + name


def number_variants():
    for f, m in each(r"^ +(Refused|Fault|Error|Said)\((u8[^)]*)\)|^ +number: u8,"):
        yield at(f, m.start()) + " " + m.group(0).strip()


def same_constants():
    seen = collections.defaultdict(list)
    for f, m in each(r"^ *(?:pub )?const (\w+: [^=]+ = [^;]+);"):
        seen[m.group(1)].append(at(f, m.start()))
    for text, places in seen.items():
        for p in places[1:]:
            yield f"{p} {text} (also {places[0]})"


def same_structs():
    seen = collections.defaultdict(list)
    for f, m in types("struct"):
        fields = tuple(re.findall(r"(\w+: [^,\n]+),", m.group(2)))
        seen[fields].append(at(f, m.start()) + " " + m.group(1))
    for places in seen.values():
        for p in places[1:]:
            yield f"{p} (also {places[0]})"


WORDS = {"let", "mut", "if", "else", "return", "match", "while", "for", "in", "loop", "break", "as", "true", "false", "continue"}


def shape(body):
    names = {}
    out = []
    for token in re.findall(r"[A-Za-z_]\w*|\d[\w]*|\S", body):
        if token in WORDS or not re.match(r"\w", token):
            out.append(token)
        elif token[0].isdigit():
            out.append("0")
        else:
            out.append(names.setdefault(token, f"n{len(names)}"))
    return " ".join(out)


def same_functions():
    seen = collections.defaultdict(list)
    for f, place, name, head, body in functions():
        if len([x for x in body.split("\n") if x.strip()]) >= 5:
            seen[shape(body)].append(at(f, place) + " " + name)
    for places in seen.values():
        for p in places[1:]:
            yield f"{p} (shape of {places[0]})"


def hand_loops():
    for f, m in each(r"^.*\b(while\b|loop \{).*$"):
        yield at(f, m.start()) + " " + m.group(0).strip()


def truth_matches():
    for f, m in each(r"^( *)(?:let \w+ = )?match [^\n]*\{\n((?:\1    [^\n]*=> (?:true|false),\n)+)\1\}", re.M):
        yield at(f, m.start()) + " " + m.group(0).split("\n")[0].strip()


def number_matches():
    for f, m in each(r"^( *)(?:let \w+ = )?match [^\n]*\{\n((?:\1    [^\n]*=> (?:\d+|[A-Z_]+),\n)+)\1\}", re.M):
        yield at(f, m.start()) + " " + m.group(0).split("\n")[0].strip()


def copied_fields():
    for f, m in each(r"^( *)[^\n]*\b[A-Z]\w* \{\n((?:\1    [^\n]*\n)+?)\1\}", re.M):
        same = re.findall(r"^ +(\w+): (\w+)\.(\w+),$", m.group(2), re.M)
        if len([1 for a, _, b in same if a == b]) >= 2:
            yield at(f, m.start()) + " " + m.group(0).split("\n")[0].strip()


def repeated_requires():
    seen = collections.defaultdict(list)
    for f, m in each(r"^ +requires [^{\n]*\{(.*)\}$"):
        for part in re.split(r" × ", m.group(1)):
            seen[re.sub(r"[()\s]", "", part)].append(at(f, m.start()))
    for text, places in seen.items():
        if len(places) >= 3:
            for p in places:
                yield f"{p} {text}"


def travelling():
    seen = collections.defaultdict(list)
    for f, place, name, head, body in functions():
        ps = [re.sub(r"\bmut ", "", p) for p in parameters(head)]
        for i in range(len(ps) - 2):
            seen[(f.split("/")[1], tuple(ps[i:i + 3]))].append(at(f, place) + " " + name)
    for (crate, ps), places in seen.items():
        if len(places) >= 3:
            for p in places:
                yield f"{p}: {', '.join(ps)}"


def arrays_with_count():
    for f, m in types("struct"):
        if re.search(r": \[", m.group(2)) and re.search(r"\b(count|used|length|filled|len|number): ", m.group(2)):
            yield at(f, m.start()) + " " + m.group(1)


def buffers_with_length():
    for f, place, name, head, body in functions():
        ps = parameters(head)
        for a, b in zip(ps, ps[1:]):
            if re.search(r": &(mut )?\[", a) and re.match(r"(used|n|count|to|end|length|filled|len): usize", b):
                yield at(f, place) + f" {name}: {a}, {b}"


def step_switches():
    for f, m in each(r"^ +match (kind|which|step|what|op|of) \{"):
        yield at(f, m.start()) + " " + m.group(0).strip()


POINTS = [
    (1, "own enum of the shape of Option", option_enums),
    (1, "a number for a refusal, an error or a result as a field", refusal_fields),
    (1, "a flag beside the value that it speaks of", flag_fields),
    (1, "a constant number for a kind", kind_numbers),
    (1, "a function that answers a refusal's number", number_answers),
    (1, "a variant that holds a number for a kind", number_variants),
    (2, "a constant that stands twice", same_constants),
    (2, "a struct with the fields of another", same_structs),
    (2, "a function of another's shape (five lines and more)", same_functions),
    (3, "while or loop", hand_loops),
    (4, "a match that lists true and false", truth_matches),
    (4, "a match that lists numbers", number_matches),
    (4, "a literal that copies fields one by one", copied_fields),
    (5, "a requires that stands three times and more", repeated_requires),
    (5, "three parameters that travel together in three functions", travelling),
    (6, "a struct of an array and a count", arrays_with_count),
    (6, "a buffer with its length beside it, as parameters", buffers_with_length),
    (7, "a match on which step to run", step_switches),
]


def main():
    words = sys.argv[1:]
    listed = "--list" in words
    wanted = [int(w) for w in words if w.isdigit()] or list(range(1, 8))
    for point, name, places in POINTS:
        if point in wanted:
            found = sorted(set(places()))
            print(f"{point}  {len(found):4}  {name}")
            if listed:
                for p in found:
                    print("      " + p)


main()
