#!/usr/bin/env python3
"""In proof files of functions, spells the parts that come from src/ as src/ spells them: `then-is-kind` becomes `then-is_kind`.

usage: python3 tools/keep_source_names.py CRATE ..      at the top of the repository, after respell.py
"""
import os
import re
import sys

TOKEN = re.compile(r"(?<![A-Za-z0-9_'\-◌])[A-Za-z][A-Za-z0-9_']*(?:-[A-Za-z0-9_']+)+(?![A-Za-z0-9_'\-◌])")


def main():
    for crate in sys.argv[1:]:
        words = {"in_ok", "in_err", "from_residual"}
        src = os.path.join("crates", crate, "src")
        for name in os.listdir(src):
            with open(os.path.join(src, name), encoding="utf-8") as f:
                words |= set(re.findall(r"\b[a-z][a-z0-9]*(?:_[a-z0-9]+)+\b", f.read()))
        turns = sorted(((w.replace("_", "-"), w) for w in words), key=lambda p: (-len(p[0]), p[0]))

        def turn(m):
            t = m.group(0)
            if t in KEEP:
                return t
            for old, new in turns:
                if old in t:
                    t = re.sub(r"(?<![A-Za-z0-9_'])" + re.escape(old) + r"(?![A-Za-z0-9_'])", new, t)
            return t

        for folder, dirs, names in os.walk(os.path.join("crates", crate, "proofs")):
            if folder == os.path.join("crates", crate, "proofs"):
                continue
            for name in names:
                if not name.endswith(".antt"):
                    continue
                p = os.path.join(folder, name)
                with open(p, encoding="utf-8") as f:
                    old = f.read()
                new = "".join(l if l.startswith("use Rattle.std") else TOKEN.sub(turn, l) for l in old.splitlines(keepends=True))
                if new != old:
                    with open(p, "w", encoding="utf-8") as f:
                        f.write(new)
                    print(p)
    return 0


# names of the library
KEEP = {"take-front"}

if __name__ == "__main__":
    raise SystemExit(main())
