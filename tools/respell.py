#!/usr/bin/env python3
"""Spells the repository's own definitions and lemmas in snake case, and its facts in camel case.

usage: python3 tools/respell.py        once, at the top, after the kit's port.py

A name with a dash that an .antt file of crates/ declares, as a definition, a lemma, a field, a parameter or
another name of an import, gets underscores for its dashes; one that begins
with a capital and is a fact (its type ends in 'Type 0', or it is a record) is joined in camel case.
Labels that Rattle makes of the source (an answer's name, the first name behind c., l., goal. and given.) stay,
and so do comments, strings, names of libraries and all names of Rust. A second run changes nothing.
"""
import collections
import os
import re

WORD = re.compile(r"[^\s(){}.;,@\"«»]+")
SIGNATURE = re.compile(
    r"(?m)^( *)((?:(?:pub|unfoldable|abbrev|private) +)*)([^\s(){}.;,@\"«»]+)"
    r"((?: \{[^{}\n]*\}| \([^()\n]*\))*) :(?= |\n)([^\n]*)"
)
RECORD = re.compile(r"(?m)^ *(?:pub )?(?:abbrev )?(?:pub )?(?:record|data|ruleset) ([^\s(){}.;,]+)")
ALIAS = re.compile(r" as ([^\s(){}.;,@\"«»]*-[^\s(){}.;,@\"«»]*)")
BINDER = re.compile(r"[({]([^\s(){}.;,@\"«»]*-[^\s(){}.;,@\"«»]*) : ")
QUIET = re.compile(r"(?m)(?:(?<=\s)|^)--[^\n]*|//[^\n]*|\"(?:[^\"\\\n]|\\.)*\"")
GENERATED = re.compile(r"/proofs/.*(Answers|Invariants)\.antt$")
HEADS = {"c", "l", "goal", "given", "w", "g"}
HUMPS = {"getD": "get_or", "leZ": "int_le", "ltZ": "int_lt", "natAbs": "nat_abs", "putMid": "put_mid"}


def files(endings):
    for folder, dirs, names in os.walk("crates"):
        dirs[:] = sorted(d for d in dirs if d != "out")
        for name in sorted(names):
            if name.endswith(endings):
                yield os.path.join(folder, name)


def read(path):
    with open(path, encoding="utf-8") as f:
        return f.read()


def declared():
    """Each declared name, and whether it is a fact."""
    names, answers = {}, collections.defaultdict(set)
    for path in files(".antt"):
        text = read(path)
        for m in SIGNATURE.finditer(text):
            name, kind = m.group(3), m.group(5).strip()
            if GENERATED.search(path) and re.match(r"(goal|given)\.", kind):
                answers[path].add(name)
            else:
                names[name] = names.get(name, False) or kind.endswith("Type 0")
        for m in RECORD.finditer(text):
            names[m.group(1)] = True
        for m in BINDER.finditer(text):
            names.setdefault(m.group(1), False)
    for path in files((".antt", ".rt")):
        for m in ALIAS.finditer(read(path)):
            names.setdefault(m.group(1), True)
    return names, answers


def spelled(name, fact):
    parts = name.split("-")
    if name[0].isupper() and fact:
        return parts[0] + "".join(p[:1].upper() + p[1:] for p in parts[1:])
    return "_".join(HUMPS.get(p, p) for p in parts)


def turned(path, text, table, kept):
    made = bool(GENERATED.search(path))

    def words(part):
        def one(m):
            word = m.group(0)
            if word not in table or word in kept:
                return word
            before = part[: m.start()]
            if made and before.endswith("."):
                head = WORD.search(before[:-1][::-1])
                if head and head.start() == 0 and head.group(0)[::-1] in HEADS:
                    return word
            return table[word]

        return WORD.sub(one, part)

    out, at = [], 0
    for m in QUIET.finditer(text):
        out += [words(text[at : m.start()]), m.group(0)]
        at = m.end()
    return "".join(out) + words(text[at:])


def main():
    names, answers = declared()
    table = {n: spelled(n, fact) for n, fact in names.items() if "-" in n.strip("-")}
    by = collections.defaultdict(set)
    for old, new in table.items():
        by[new].add(old)
        if new in names:
            by[new].add(new)
    for new, olds in sorted(by.items()):
        if len(olds) > 1:
            print(f"meet: {sorted(olds)} would be {new}")
    for path in files((".antt", ".rt", ".edit")):
        text = read(path)
        new = turned(path, text, table, answers[path])
        if new != text:
            with open(path, "w", encoding="utf-8") as f:
                f.write(new)
    print(f"{len(table)} names")


main()
