#!/usr/bin/env python3
"""Respells the repository's own names of specs/ and proofs/, once, after the kit's port.py.

usage: python3 tools/respell.py [--list]      at the top of the repository

A name that a file of specs/ or proofs/ declares with dashes gets underscores; one that begins with a capital, as a fact or a type does,
has its words joined in camel case. Names that the check makes (the goals of a proof folder), names of the library, functions of src/,
strings and comments of src/ keep their spelling. It stops, and writes nothing, where two names would fall together.
"""
import os
import re
import sys

WORD = r"[^\s(){}\[\]:=|;,.⌜⌝\"λ]+"
HEAD = re.compile(r"^\s*(?:(?:pub|abbrev|unfoldable|opaque|record|data|module)\s+)*(" + WORD + r")(?:\s+\([^)]*\)|\s+\{[^}]*\})*\s+:\s*(.*)$")
MADE = re.compile(r"goal\.")
# what stands between dashes in an own name
DASHED = re.compile(r"^[A-Za-z][A-Za-z0-9_'′]*(?:-[A-Za-z0-9_'′]+)+$")
TOKEN = re.compile(r"(?<![A-Za-z0-9_'′\-◌])[A-Za-z][A-Za-z0-9_'′]*(?:-[A-Za-z0-9_'′]+)+(?![A-Za-z0-9_'′\-◌])")


def files(kinds, ends):
    for crate in sorted(os.listdir("crates")):
        for kind in kinds:
            for folder, dirs, names in os.walk(os.path.join("crates", crate, kind)):
                dirs.sort()
                for name in sorted(names):
                    if name.endswith(ends):
                        yield os.path.join(folder, name)


def declared():
    own = set()
    for path in files(("specs", "proofs"), (".antt",)):
        with open(path, encoding="utf-8") as f:
            for line in f:
                m = HEAD.match(line)
                if m and DASHED.match(m.group(1)) and not MADE.match(m.group(2)):
                    own.add(m.group(1))
                for m in re.finditer(r"\b(?:let|as) (" + WORD + r")(?= [:=]|[},])", line):
                    if DASHED.match(m.group(1)):
                        own.add(m.group(1))
    return own


# A method of src/ has the same name, as it should: the definition says what it answers.
METHODS = {"has-place", "is-unused", "kept-alive", "letter-field", "number-field", "option-field", "packet-fields", "store-fields", "window-full", "without-front"}

# A function of src/ has the name with underscores.
OTHERS = {
    "cancel-all": "all_cancelled",
    "cancel-place": "place_cancelled",
    "check-number": "checked_number",
    "fate-of": "packet_fate",
    "first-due": "due_entry",
    "how-many": "kind_count",
    "next-call": "coming_call",
}


def spelled(name):
    if name in OTHERS:
        return OTHERS[name]
    if name[0].isupper():
        return "".join(w[0].upper() + w[1:] for w in name.split("-"))
    return name.replace("-", "_")


def main():
    own = declared()
    new = {n: spelled(n) for n in own}
    texts = {p: open(p, encoding="utf-8").read() for p in files(("src", "specs", "proofs", "must-fail"), (".rt", ".antt", ".edit"))}
    words = set()
    for p, t in texts.items():
        words |= set(re.findall(r"[A-Za-z][A-Za-z0-9_']*", t))
    clash = sorted(n for n in own if new[n] in words or sum(m == new[n] for m in new.values()) > 1)
    if "--list" in sys.argv[1:]:
        for n in sorted(own):
            print(n, new[n], "CLASH" if n in clash else "")
        return 0
    if [n for n in clash if n not in METHODS]:
        print("these names would fall together with others: " + ", ".join(n for n in clash if n not in METHODS), file=sys.stderr)
        return 1
    changed = 0
    for p, t in texts.items():
        def turn(m):
            return new.get(m.group(0), m.group(0))
        if p.endswith(".rt"):
            out = "".join(l if l.lstrip().startswith("//") else "".join(s if i % 2 else TOKEN.sub(turn, s) for i, s in enumerate(re.split(r'("(?:[^"\\]|\\.)*")', l))) for l in t.splitlines(keepends=True))
        else:
            out = TOKEN.sub(turn, t)
        out = out.replace("′", "'") if p.endswith(".antt") else out
        if out != t:
            changed += 1
            with open(p, "w", encoding="utf-8") as f:
                f.write(out)
    print(f"{len(own)} names, {changed} files")
    return 0


if __name__ == "__main__":
    raise SystemExit(main())
