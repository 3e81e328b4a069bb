#!/usr/bin/env python3
"""Counts the places in src/ that an older form of the language left behind, point by point (docs/DESIGN-PASS.md).

python3 tools/places.py [TREE]       the counts, of this checkout or of another one
python3 tools/places.py -v [TREE]    each place with its file and line

It reads text: a place that it lists may be right as it is, and then has its reason beside it in the source.
"""
import collections
import pathlib
import re
import sys

ARGUMENTS = [a for a in sys.argv[1:] if a != "-v"]
ROOT = pathlib.Path(ARGUMENTS[0]).resolve() if ARGUMENTS else pathlib.Path(__file__).resolve().parent.parent
FILES = sorted(p for p in ROOT.glob("crates/*/src/**/*.rt") if "/out/" not in str(p))

# What a line of source must hold to be a place of a point: the point, what it is, the pattern.
LINES = [
    (1, "a question or kind as a number in a struct", r"^\s*(pub number: u8|kind: u16),"),
    (1, "a fault made with a number", r"^\s*number: \d+,"),
    (1, "a number for a kind in a match", r"^\s*(\d+ => \w|Layer::\w+ => \d)"),
    (1, "a flag beside the value that it guards", r"^\s*pub held: bool"),
    (1, "an own enum of the shape of Option or Result", r"^\s*Pending,"),
    (1, "a number as the answer where there is nothing", r"-> usize\b.*(slot|find)|fn (slot|find_slot|free_slot\w*)\("),
    (4, "an equality or order by hand", r"fn (is_same|is_west_of|is_with|is_told|is_told_west)\b"),
    (4, "a distance by hand", r"if \w+ < \w+ \{ \w+ - \w+ \} else|let crossed = if"),
    (4, "a default by hand", r"None => Point \{ x: 0, y: 0 \}|^    None => strip_of"),
    (4, "a point or counts printed field by field", r"\(\{?p?x\}|let \(.*\) = \((a|p|c|home)\."),
    (4, "bytes put or taken one by one", r"\[at \+ 1\]|bytes\[at\]"),
    (6, "an array with its length beside it", r"^\s*pub\(crate\) at: \[i32; 31\]|, end: usize\)|names: &mut \[i16\]\) -> u16|sizes: &mut \[Sizes\]\) -> usize|firsts: &mut \[i16\],"),
    (7, "a step picked by a flag or a small enum", r"\b(side|eastward): bool|axis: Axis\b|match call\.kind|match axis"),
]

# Facts that clauses repeat: a fact is a place of point 5 where three functions or more state it.
FACTS = [
    ("the marks have a byte for each name", r"length (marks|slots|entries)\.(old|now) ≡ marks_for max_edge"),
    ("the line has a place for each name", r"length (line|names|firsts)\.(old|now) ≡ line_for max_edge"),
    ("the arrays of a strip are all there", r"Whole (s|self\.now)\b"),
    ("a strip has few slots", r"s\.slots ≤ max_slots"),
    ("the sizes of a file are right", r"\bShaped \S*bytes\.now"),
    ("the strips of a file are judged", r"\bJudged \S*bytes\.now"),
    ("a strip is strip j of the file", r"told s ≡ strip \S*bytes\.now j"),
    ("the names of a strip are names", r"name_good max_edge \(told s\)"),
    ("a strip is sound", r"Sound(Strip)? \(told s\)"),
    ("the memory is long enough, with its index", r"Roomy max_edge slots|slots ≤ length (rows|memory|self)\S*"),
    ("the index is right", r"Indexed slots"),
    ("the records hold line work", r"Core max_edge slots"),
    ("the records are stripped", r"Stripped max_edge slots"),
]


def functions(text):
    """The functions of a file: name, first line, and the text up to the next one."""
    starts = [m for m in re.finditer(r"^\s*(?:pub(?:\(crate\))? )?(?:const )?fn (\w+)", text, re.M)]
    for k, m in enumerate(starts):
        end = starts[k + 1].start() if k + 1 < len(starts) else len(text)
        yield m.group(1), text.count("\n", 0, m.start(1)) + 1, text[m.start() : end]


def index_loops(text):
    """Loops over a range whose variable picks an element of a slice, and loops that count by hand."""
    lines = text.split("\n")
    for k, line in enumerate(lines):
        m = re.match(r"^(\s*)for (\w+) in \(?[\w.:() +*-]+\.\.", line)
        if m:
            depth = len(m.group(1))
            body = []
            for inner in lines[k + 1 :]:
                if inner.strip() and len(inner) - len(inner.lstrip()) <= depth:
                    break
                body.append(inner)
            v = m.group(2)
            if re.search(r"\[[^\]]*\b%s\b[^\]]*\]" % v, "\n".join(body)):
                yield k + 1, line.strip()
        elif re.match(r"^\s*while \w+ < ", line):
            yield k + 1, line.strip()


WORDS = set("fn let mut if else for while loop in match return break continue as true false self Self Ok Err Some None ref move impl".split())


def skeleton(body):
    """The code of a function with its names, numbers and types taken out."""
    code = "\n".join(l for l in body.split("\n") if not re.match(r"\s*(requires|ensures|//|#\[|ghost )", l))
    code = code[code.find("\n{") + 1 :] if "\n{" in code else code[code.find("{") :]
    tokens = re.findall(r"[A-Za-z_]\w*|\d+|[^\s\w]", code[: code.find("\n}\n") + 2] if "\n}\n" in code else code)
    return tuple(t if t in WORDS or not re.match(r"\w", t) else "·" for t in tokens)


def twins(all_functions):
    """Functions whose code is that of an earlier one but for names, numbers and types."""
    first = {}
    for short, n, name, body in all_functions:
        bones = skeleton(body)
        if len(bones) < 14:
            continue
        if bones in first:
            yield short, n, f"{name}, as {first[bones]}"
        else:
            first[bones] = f"{short.split('/')[0]} {name}"


def clauses(body):
    """The lines of a function that are its clauses."""
    return "\n".join(l for l in body.split("\n") if re.match(r"\s*(requires|ensures)\b", l))


def main():
    verbose = "-v" in sys.argv[1:]
    found = collections.defaultdict(list)
    everything = []
    for path in FILES:
        text = path.read_text()
        short = str(path.relative_to(ROOT / "crates"))
        for n, line in enumerate(text.split("\n"), 1):
            for point, what, pattern in LINES:
                if re.search(pattern, line):
                    found[point, what].append((short, n, line.strip()))
        for n, line in index_loops(text):
            found[3, "a loop whose variable only indexes"].append((short, n, line))
        for name, n, body in functions(text):
            if "examples" not in short and "#[test]" not in text[max(0, text.find(body) - 30) : text.find(body)]:
                everything.append((short, n, name, body))
            stated = clauses(body)
            for what, pattern in FACTS:
                if re.search(pattern, stated):
                    found[5, what].append((short, n, name))
            if re.search(r"\) × \(", stated):
                found[5, "several facts in one clause"].append((short, n, name))
    for short, n, line in twins(everything):
        found[2, "code that another function has"].append((short, n, line))
    for point in sorted({p for p, _ in found}):
        total = sum(len(v) for (p, _), v in found.items() if p == point)
        print(f"point {point}: {total}")
        for (p, what), places in sorted(found.items()):
            if p == point:
                print(f"  {len(places):4}  {what}")
                if verbose:
                    for short, n, line in places:
                        print(f"          {short}:{n}: {line}")


if __name__ == "__main__":
    main()
