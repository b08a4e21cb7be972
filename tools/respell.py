#!/usr/bin/env python3
"""Brings this repository's own names to one spelling, once, after the kit's port.py.

usage: python3 tools/respell.py     at the top of the repository, with everything committed

A fact or a type is in upper camel case (Holds-all becomes HoldsAll), everything else in snake case (class-of
becomes class_of). In a lemma's name a dash stays between two names of definitions (member-added). Functions of
src/, strings and the names that the check makes for goals and loops keep their spelling. It stops, with nothing
written, where two names would fall together.
"""
import os
import re
import sys

# names whose plain respelling says too little, or is taken by the library
CHOSEN = {
    "bit-or": "bit-bit_or",
    "nextK": "next_knowledge",
    "nextT": "next_term",
    "sumK": "sum_knowledge",
    "sumT": "sum_term",
    "totalT": "total_term",
}
DECLARED = re.compile(r"^\s*(?:(?:abbrev|unfoldable|pub|record|data)\s+)*([^\s:(){}=,.\[\]|]+)\s*(?:[({][^=]*)?:(?!=)")
HEAD = re.compile(r"^(?:(?:abbrev|unfoldable|pub|record|data)\s+)*([^\s:(){}=,.\[\]|]+)")
TOKEN = re.compile(r"[^\s(){}\[\].,;:=λ→×|\"↦∷`⊎]+")
STRING = re.compile(r'b?"(?:[^"\\\n]|\\.)*"')


def files():
    for folder, dirs, names in os.walk("crates"):
        dirs[:] = sorted(d for d in dirs if d not in ("out", "data"))
        for name in sorted(names):
            if name.endswith((".antt", ".rt", ".edit")):
                yield os.path.join(folder, name)


def part(path):
    """What a file is: 'specs', 'lemmas', 'proof' (of one function) or 'code'."""
    steps = path.split(os.sep)
    if path.endswith((".rt", ".edit")):
        return "code"
    if steps[2] == "specs":
        return "lemmas" if steps[-1].endswith("Lemmas.antt") else "specs"
    return "lemmas" if len(steps) == 4 else "proof"


def read(path):
    with open(path, encoding="utf-8") as f:
        return f.read()


def declared(kinds):
    found = set()
    for path in files():
        if part(path) in kinds:
            for line in read(path).split("\n"):
                m = DECLARED.match(line)
                if m and not line.lstrip().startswith("--"):
                    found.add(m.group(1))
    return found


def facts():
    """The names of specs/ that stand for a fact or a type."""
    return {n for n in declared({"specs"}) if n[:1].isupper()}


def snake(name):
    return name.replace("-", "_")


def camel(name):
    return "".join(w[:1].upper() + w[1:] for w in name.split("-"))


def lemma(name, definitions):
    words = name.split("-")
    said = words[0]
    for i in range(1, len(words)):
        left, right = "_".join(words[:i]), "_".join(words[i:])
        said += ("-" if left in definitions and right in definitions else "_") + words[i]
    return said


def renamed():
    specs, kept_facts = declared({"specs"}), facts()
    lemmas = declared({"lemmas"}) - specs
    definitions = {snake(n) for n in specs}
    to = {}
    for n in specs | lemmas:
        if n in CHOSEN:
            to[n] = CHOSEN[n]
        elif "-" not in n:
            continue
        elif n in kept_facts:
            to[n] = camel(n)
        else:
            to[n] = snake(n) if n in specs else lemma(n, definitions)
    return {a: b for a, b in to.items() if a != b}, specs | lemmas


def turned(text, to, code):
    def token(m):
        return to.get(m.group(0), m.group(0))

    if not code:
        return TOKEN.sub(token, text)
    out, at = [], 0
    for m in STRING.finditer(text):
        out += [TOKEN.sub(token, text[at : m.start()]), m.group(0)]
        at = m.end()
    return "".join(out + [TOKEN.sub(token, text[at:])])


def main():
    to, names = renamed()
    seen = {n: n for n in names if n not in to}
    bad = False
    for a, b in sorted(to.items()):
        if b in seen:
            print(f"respell: {a} and {seen[b]} would both be {b}", file=sys.stderr)
            bad = True
        seen[b] = a
    if bad:
        raise SystemExit(1)
    changed = 0
    for path in files():
        old = read(path)
        new = turned(old, to, part(path) == "code")
        if new != old:
            changed += 1
            with open(path, "w", encoding="utf-8") as f:
                f.write(new)
    for a, b in sorted(to.items()):
        print(f"{a} -> {b}")
    print(f"respell: {len(to)} names, {changed} files")


if __name__ == "__main__":
    main()
