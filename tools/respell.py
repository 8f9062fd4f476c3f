#!/usr/bin/env python3
"""Brings the repository's own definitions and lemmas to the spelling of today's Rattle: words in snake case. Run once, after the kit's port.py.

usage: tools/respell.py [FOLDER]

Definitions in camel case and lemmas with dashes get underscores. A lemma that would fall together with a definition gets `_lem`. Names of src/ keep their
spelling; the clause labels that port.py made are given names that no definition has. Pages and edits are turned by the same table.
"""

import collections
import glob
import os
import re
import sys

DECLARES = re.compile(r"^(\s*)(?:(?:abbrev|unfoldable|opaque|instance)\s+)*(?:pub\s+)?(?:(?:abbrev|unfoldable)\s+)*([^\s:(){}λ.,;=|⊢]+)((?:\s+[^\s:(){}.,;=|]+)*)\s+:\s")
TOKEN = re.compile(r"(?<![\w'-])[A-Za-z][\w']*(?:-[\w']+)*(?![\w'-])")

# names that would fall together with another one, and what they are called
SPECIAL = {"frameLength": "frame_samples"}
for field in (
    "activation-ratio energy-floor frame-duration frame-overlap hangover-frames has-pre-emphasis min-speech-energy min-speech-frames noise-smoothing "
    "pre-emphasis release-ratio sample-rate speech-padding stream-start-time"
).split():
    SPECIAL[field] = field.replace("-", "_") + "_in"
# lemmas that port.py spelled as a definition is spelled from now on
FALLEN = {"below_half": "below_half_lem", "due_in": "due_in_lem", "filled_of": "filled_of_lem"}
LABELS = {f"{x}_after": f"{x}_left" for x in "numbers floats rows output state values energies".split()}


def snake(name):
    name = re.sub(r"([a-z0-9])([A-Z])", lambda m: m.group(1) + "_" + m.group(2).lower(), name)
    return name.replace("-", "_")


def table(root):
    declared = collections.Counter()
    for f in sorted(glob.glob(f"{root}/crates/*/specs/**/*.antt", recursive=True) + glob.glob(f"{root}/crates/*/proofs/*.antt")):
        with open(f, encoding="utf-8") as text:
            for line in text:
                m = None if line.lstrip().startswith("--") else DECLARES.match(line)
                if m:
                    for n in [m.group(2)] + m.group(3).split():
                        declared[n] += 1
    keys = [n for n in declared if TOKEN.fullmatch(n) and not n[0].isupper() and ("-" in n or re.search("[a-z0-9][A-Z]", n))]
    names = {k: SPECIAL.get(k) or snake(k) for k in keys if "-" not in k}
    taken = set(names.values()) | {n for n in declared if n not in keys} | set(FALLEN.values())
    for k in sorted(k for k in keys if "-" in k):
        to = SPECIAL.get(k) or snake(k)
        names[k] = to + "_lem" if to in taken else to
    return names, set(declared)


def turned(text, names):
    return TOKEN.sub(lambda m: names.get(m.group(0), m.group(0)), text)


def cited(text, names):
    """Plain English, in which names stand between backticks."""
    return re.sub(r"`[^`\n]*`", lambda m: turned(m.group(0), names), text)


def split(line, mark):
    """A line's text and its comment."""
    m = re.search(r"(^|\s)" + re.escape(mark), line)
    return (line[: m.start()], line[m.start() :]) if m else (line, "")


def code(text, names):
    """Rattle source: clauses, ghost items and comments; a label of a clause, too."""
    camel = {k: v for k, v in names.items() if "-" not in k}
    out = []
    for line in text.split("\n"):
        line, comment = split(line, "//")
        parts = re.split(r'("(?:[^"\\]|\\.)*")', line)
        line = "".join(p if i % 2 else turned(p, camel) for i, p in enumerate(parts)) + cited(comment, names)
        out.append(re.sub(r"\b(requires|ensures) (\w+) \{", lambda m: f"{m.group(1)} {LABELS.get(m.group(2), m.group(2))} {{", line))
    return "\n".join(out)


def proof(text, names):
    for old, new in FALLEN.items():
        text = re.sub(r"(?<![\w'.-])" + old + r"(?![\w'.-])", new, text)
    lines = (split(line, "--") for line in text.split("\n"))
    text = "\n".join(turned(line, names) + cited(comment, names) for line, comment in lines)
    return re.sub(r"(ensures|requires)\.(\w+)", lambda m: f"{m.group(1)}.{LABELS.get(m.group(2), m.group(2))}", text)


def main():
    root = sys.argv[1] if len(sys.argv) > 1 else "."
    names, declared = table(root)

    def page(text, names):
        """Pages also have the names that port.py turned already."""
        more = lambda t: names.get(t) or (snake(t) if t not in declared and snake(t) in declared else t)
        return re.sub(r"`[^`\n]*`", lambda m: TOKEN.sub(lambda t: more(t.group(0)), m.group(0)), text)

    done = collections.Counter()
    ways = [("crates/*/specs/**/*.antt", proof), ("crates/*/proofs/**/*.antt", proof), ("crates/*/src/**/*.rt", code), ("crates/*/must-fail/*.edit", turned), ("crates/*/wrong/*.edit", turned)]
    ways += [("docs/**/*.md", page), ("README.md", page)]
    for pattern, way in ways:
        for f in sorted(glob.glob(f"{root}/{pattern}", recursive=True)):
            with open(f, encoding="utf-8") as file:
                text = file.read()
            new = way(text, names)
            if new != text:
                done[pattern] += 1
                with open(f, "w", encoding="utf-8") as file:
                    file.write(new)
    for pattern, n in done.items():
        print(f"{n} files of {pattern}")
    print(f"{len(names)} names")


if __name__ == "__main__":
    main()
