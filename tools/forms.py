#!/usr/bin/env python3
"""Counts, in the source of every crate, the places that docs/DESIGN-PASS.md goes through: older forms for which the language has plainer ones.

    tools/forms.py            the counts, point by point
    tools/forms.py --places   each place, too
    tools/forms.py POINT..    these points alone, each place, too

It reads text and judges nothing: a place is somewhere to look. Points are named as the page names them."""
import collections
import pathlib
import re
import sys

ROOT = pathlib.Path(__file__).resolve().parent.parent
CRATES = ROOT / "crates"
NAME = re.compile(r"[A-Za-z_][A-Za-z_0-9]*")
WORDS = {"if", "else", "while", "for", "loop", "match", "let", "mut", "return", "fn", "pub", "in", "usize", "u8", "u16", "bool"}


def sources():
    """Each source file: its path from the top, and its lines."""
    for path in sorted(CRATES.glob("*/src/**/*.rt")):
        yield path.relative_to(ROOT), path.read_text().split("\n")


def lines_like(pattern, comment=None):
    found = []
    for path, lines in sources():
        for number, line in enumerate(lines, 1):
            is_comment = line.lstrip().startswith("//")
            if comment is not None and comment != is_comment:
                continue
            if re.search(pattern, line):
                found.append((f"{path}:{number}", line.strip()))
    return found


def blocks(head):
    """Each item whose first line is like head, up to the line that closes it: its place, its lines."""
    for path, lines in sources():
        start = None
        for number, line in enumerate(lines, 1):
            if start is None and re.match(head, line):
                start = number
            if start is not None and line.rstrip() in ("}", "    }") and len(line) - len(line.lstrip()) == len(lines[start - 1]) - len(lines[start - 1].lstrip()):
                yield f"{path}:{start}", lines[start - 1 : number]
                start = None
            elif start is not None and start == number and line.rstrip().endswith((";", "{}")):
                start = None


def functions():
    for place, lines in blocks(r"\s*(pub(\(crate\))? )?fn "):
        opening = next((i for i, line in enumerate(lines) if line.rstrip().endswith("{") and not re.search(r"(requires|ensures)", line)), 0)
        yield place, lines[0], lines[:opening], lines[opening + 1 : -1]


def answer_enums():
    """Point 1: enums of which a variant says that there is nothing, or that something is refused."""
    found = []
    for place, lines in blocks(r"(pub(\(crate\))? )?enum "):
        variants = [line.strip() for line in lines[1:-1] if re.match(r"    [A-Z]\w*\b", line)]
        if any(re.match(r"(No[A-Z]|Not[A-Z]|Bad|Refused|Breaks|End\b|TooLong|Barren|Broken|Other)", v) for v in variants):
            found.append((place, lines[0].strip()))
    return found


def shape(lines):
    """A body but for its names, numbers and texts."""
    text = " ".join(line.strip() for line in lines if not line.lstrip().startswith("//"))
    text = re.sub(r'b?"[^"]*"|b?\'[^\']*\'', "T", text)
    text = re.sub(r"\b\d\w*\b", "N", text)
    return NAME.sub(lambda m: m.group() if m.group() in WORDS else "I", text)


def twins():
    """Point 2: functions of one crate whose bodies differ only in names, numbers and texts; three lines or more."""
    groups = collections.defaultdict(list)
    for place, first, _, body in functions():
        if len(body) >= 3:
            groups[(place.split("/")[1], shape(body))].append((place, first.strip()))
    return [entry for group in groups.values() if len(group) > 1 for entry in group]


def by_cases():
    """Point 4: functions that are one match, of which every arm is a truth, a number or a text."""
    found = []
    for place, first, _, body in functions():
        code = [line.strip() for line in body if not line.lstrip().startswith("//")]
        arms = [line for line in code if "=>" in line]
        if len(arms) > 1 and code and code[0].startswith("match") and all(re.search(r'=> (true|false|\d+|[\w.:]*\(?.*b?".*"\)?),$', a) for a in arms):
            found.append((place, first.strip()))
    return found


def clauses():
    """Point 5: what three or more functions require."""
    seen = collections.defaultdict(list)
    for place, _, head, _ in functions():
        for line in head:
            match = re.match(r"\s*requires (?:[a-z_0-9]+ )?(\{.*\})", line)
            if match:
                seen[match.group(1)].append(place)
    return [(place, fact) for fact, places in seen.items() if len(places) > 2 for place in places]


def rooms():
    """Point 6: parameters and fields that are an array of a fixed length."""
    return lines_like(r"\w+: (&(mut )?)?\[\w+; \w+\]", comment=False)


def steps():
    """Point 7: a match of which every arm calls a function of this crate or another."""
    found = []
    for place, first, _, body in functions():
        arms = [line.strip() for line in body if "=>" in line]
        if len(arms) > 1 and all(re.search(r"=> [\w:]+\(.*\),$", a) for a in arms):
            found.append((place, first.strip()))
    return found


def answers():
    """Point 8: answers that stand in three or more proofs, but for their goal's name."""
    seen = collections.defaultdict(list)
    for path in sorted(CRATES.glob("*/proofs/**/Answers.antt")):
        for part in re.split(r"\n(?=pub )", path.read_text()):
            body = re.sub(r"\s+", " ", part.split("\n", 2)[2]) if part.startswith("pub ") and part.count("\n") > 1 else ""
            body = re.sub(r"^\S+ ", "", body)
            if len(body) > 60:
                seen[body].append((str(path.relative_to(ROOT)), part.split("\n", 1)[0]))
    return [entry for group in seen.values() if len(group) > 2 for entry in group]


POINTS = [
    ("1 enums", "enums of which a variant says that there is nothing or a refusal", answer_enums),
    ("1 zeros", "comments by which 0 stands for none", lambda: lines_like(r"(?i)\b(or|is|and) 0\b|\b0 (where|for none|is none|of each)", comment=True)),
    ("1 flags", "fields that say that another is void", lambda: lines_like(r"^\s*(pub )?(failed|found|missing): bool", comment=False)),
    ("2 twins", "functions of a crate that differ only in names, numbers and texts", twins),
    ("3 loops", "while and loop", lambda: lines_like(r"(^|\s|= )(while\b.*\{|loop \{)", comment=False)),
    ("4 cases", "functions that are a match of constants", by_cases),
    ("5 facts", "requires that stand at three functions or more", clauses),
    ("6 rooms", "arrays of a fixed length as parameters and fields", rooms),
    ("6 texts", "texts as bytes", lambda: lines_like(r'b"[^"]*[a-z ]{2}[^"]*"', comment=False)),
    ("7 steps", "a match that only chooses what to call", steps),
    ("8 answers", "answers that stand three times or more", answers),
]


def main():
    wanted = [a for a in sys.argv[1:] if a != "--places"]
    for name, what, find in POINTS:
        if wanted and not any(name == w or name.split()[0] == w for w in wanted):
            continue
        found = find()
        print(f"{len(found):5}  {name:10} {what}")
        if wanted or "--places" in sys.argv:
            for place, text in found:
                print(f"         {place}  {text}")


if __name__ == "__main__":
    main()
