#!/usr/bin/env python3
"""Brings the names that this repository gave its definitions, constructors, fields and lemmas to the spelling of today's Rattle.

usage: tools/respell.py [ROOT]     once, behind the kit's port.py

Words are in snake case, types in upper camel case. A name is respelled where the repository declares it, in a file of specs/ or of proofs/, and wherever a file
cites it: other .antt files, clauses and `ghost use` lines of .rt files, comments in backticks, and must-fail edits. What a file imports from the kit keeps its
spelling there, and so do the names of goals, which Rattle makes. Where a definition and a lemma that one file cites would fall together, the lemma gets `_lem` behind its name.
It prints the table of the names, and where a new name stands beside a Rust name.
"""
import collections
import glob
import os
import re
import sys

NAME = r"[A-Za-z_][\w']*(?:-[\w']+)*"
TOKEN = re.compile(r"(?<![\w'\-])" + NAME)
DECLARED = re.compile(
    r"(?m)^([ \t]*)(?:(?:\|)[ \t]*)?((?:(?:abbrev|unfoldable|pub|data|record)\s+)*)(" + NAME + r")((?:\s*(?:\{[^{}]*\}|\([^()]*(?:\([^()]*\)[^()]*)*\)))*)\s*:(?!:)(.*)"
)
PROOFS = ("Proof.antt", "Invariants.antt", "Answers.antt")
# Those that a rule does not reach: types with a dash, and names that two definitions would share.
BY_HAND = {"Asks-for": "AsksFor", "Asks-once": "AsksOnce", "Under-B": "UnderB"}
# Lemmas about a type, whose dash joins it to their own word.
ON_TYPES = {"Nearer-wf"}


def text_of(path):
    with open(path, encoding="utf-8") as f:
        return f.read()


def antt_files():
    return sorted(glob.glob("crates/*/specs/**/*.antt", recursive=True) + glob.glob("crates/*/proofs/**/*.antt", recursive=True))


def no_comments(text):
    return re.sub(r"(?m)--(?= |$).*$", "", text)


def snake(name):
    out = []
    for part in name.split("-"):
        part = re.sub(r"(?<=[a-z0-9'])(?=[A-Z])", "_", part)
        out.append(part.lower())
    return "_".join(out)


def declared(own_crates):
    """Each declared name with the kinds of its declarations: 'spec', 'lemma', 'inner' or 'goal'."""
    found = collections.defaultdict(set)
    for path in antt_files():
        proof = os.path.basename(path) in PROOFS
        for m in DECLARED.finditer(no_comments(text_of(path))):
            if proof and re.match(r"\s*(tie|goal)\.", m.group(5)):
                found[m.group(3)].add("goal")
            elif m.group(1):
                found[m.group(3)].add("inner")
            else:
                found[m.group(3)].add("spec" if "/specs/" in path else "lemma")
        # Several names before one colon, and names that a term binds.
        if not proof:
            text = text_of(path)
            for n in set(TOKEN.findall(no_comments(text))) - imported(text, own_crates) - set(found):
                if "-" in n or re.match(r"[a-z].*[A-Z]", n):
                    found[n].add("inner")
    return found


def beside(odd, plain, new):
    """The names that stand in one file with another one of the same new spelling: from a spelling to the sets of names."""
    out = collections.defaultdict(set)
    for path in antt_files() + sorted(glob.glob("crates/*/src/**/*.rt", recursive=True)):
        text = text_of(path)
        if path.endswith(".rt"):
            text = "\n".join(l for l in text.split("\n") if l.lstrip().startswith(("ghost use", "requires", "ensures")))
        groups = collections.defaultdict(set)
        for m in TOKEN.finditer(no_comments(text)):
            n = m.group(0)
            if n in odd:
                groups[new[n]].add(n)
            elif n in plain:
                groups[n].add(n)
        for v, names in groups.items():
            if len(names) > 1:
                out[v] |= names
    return out


def table(found):
    odd = {n for n, kinds in found.items() if kinds != {"goal"} and n not in ON_TYPES and ("-" in n or re.match(r"[a-z].*[A-Z]", n))}
    new = {n: BY_HAND.get(n) or snake(n) for n in odd}
    plain = {n for n, kinds in found.items() if kinds != {"goal"} and n not in odd}
    for v, names in beside(odd, plain, new).items():
        order = sorted(names, key=lambda n: ("spec" not in found[n], "-" in n, "lemma" in found[n], n))
        for i, n in enumerate(order[1:]):
            new[n] = v + "_lem" + ("" if i == 0 else str(i + 1))
            print(f"together: {', '.join(order)}")
    return {n: v for n, v in new.items() if n != v}


def imported(text, own):
    """The names that a file takes from the kit."""
    out = set()
    for m in re.finditer(r"(?m)^\s*(?:ghost )?(?:pub )?use ([\w.'·+-]+)\.\{([^}]*)\}", text):
        parts = m.group(1).split(".")
        if parts[0] == "Rattle" and len(parts) > 1 and parts[1] in own:
            continue
        out |= set(re.findall(NAME, m.group(2)))
    return out


FIELDS = set()


def respelled(text, new, keep):
    def one(m):
        n = m.group(0)
        if n not in new or n in keep:
            return n
        before = text[max(0, m.start() - 80) : m.start()]
        path = re.search(r"([\w'\-]+|[)\]])\.$", before)
        if path and (path.group(1) in ("tie", "goal") or not path.group(1)[0].isupper() and n not in FIELDS):
            return n
        return new[n]

    return TOKEN.sub(one, text)


def in_backticks(line, new, keep):
    return re.sub(r"`[^`]*`", lambda m: respelled(m.group(0), new, keep), line)


def turn_antt(text, new, own):
    keep = imported(text, own)
    out = []
    for line in text.split("\n"):
        m = re.search(r"--(?= |$)", line)
        if m:
            out.append(respelled(line[: m.start()], new, keep) + in_backticks(line[m.start() :], new, keep))
        else:
            out.append(respelled(line, new, keep))
    return "\n".join(out)


CLAUSE = re.compile(r"^\s*(requires|ensures|ghost|pub ghost|abbrev|decreases|also_\w+)\b")


def turn_rt(text, new, own):
    keep = imported(text, own)
    out, depth = [], 0
    for line in text.split("\n"):
        if line.lstrip().startswith("//"):
            out.append(in_backticks(line, new, keep))
        elif depth > 0 or CLAUSE.match(line) or line.lstrip().startswith("ghost use"):
            out.append(respelled(line, new, keep))
            depth += line.count("{") - line.count("}")
            depth = max(depth, 0)
        else:
            out.append(line)
    return "\n".join(out)


def turn_edit(text, new, own):
    out, clause = [], False
    for line in text.split("\n"):
        if line.startswith("file: "):
            clause = line.strip().endswith(".antt")
            out.append(line)
        elif line.startswith(("old: ", "new: ")) and (clause or CLAUSE.match(line[5:])):
            out.append(line[:5] + respelled(line[5:], new, set()))
        else:
            out.append(in_backticks(line, new, set()) if not line.startswith(("old:", "new:")) else line)
    return "\n".join(out)


def main(root):
    os.chdir(root)
    own = {os.path.basename(c) for c in glob.glob("crates/*")}
    found = declared(own)
    new = table(found)
    FIELDS.update(n for n in new if "inner" in found[n])
    for n in sorted(new):
        print(f"{n} -> {new[n]}")
    for path in antt_files():
        t = text_of(path)
        u = turn_antt(t, new, own)
        if u != t:
            with open(path, "w", encoding="utf-8") as f:
                f.write(u)
    for path in sorted(glob.glob("crates/*/src/**/*.rt", recursive=True)):
        t = text_of(path)
        u = turn_rt(t, new, own)
        if u != t:
            with open(path, "w", encoding="utf-8") as f:
                f.write(u)
        ghosts = set()
        code = []
        depth = 0
        for line in u.split("\n"):
            if line.lstrip().startswith("ghost use"):
                ghosts |= set(re.findall(NAME, line.split("{", 1)[-1])) if "{" in line else set()
            elif line.lstrip().startswith("//"):
                continue
            elif depth > 0 or CLAUSE.match(line):
                depth = max(0, depth + line.count("{") - line.count("}"))
            else:
                code.append(line)
        rust = set(re.findall(r"[A-Za-z_]\w*", "\n".join(code)))
        both = sorted(ghosts & rust & set(new.values()))
        if both:
            print(f"beside a Rust name: {path}: {', '.join(both)}")
    for path in sorted(glob.glob("crates/*/must-fail/*.edit")):
        t = text_of(path)
        u = turn_edit(t, new, own)
        if u != t:
            with open(path, "w", encoding="utf-8") as f:
                f.write(u)


if __name__ == "__main__":
    main(sys.argv[1] if len(sys.argv) > 1 else os.path.join(os.path.dirname(os.path.realpath(__file__)), ".."))
