#!/usr/bin/env python3
"""Brings the repository's own definitions and lemmas to the spelling of today's Rattle: words in snake case, types in camel case.

usage: python3 tools/respell.py        at the top of the repository, once, after the kit's port.py

It reads which names the .antt files of specs/ and proofs/ declare with a dash, and writes each anew wherever it stands in a .antt
or .rt file: `ball-moved` is `ball_moved`, `In-court` is `InCourt`. Names that Rattle makes, as `loop-k-preserved`, are declared
`: goal.loop-k-preserved` and stay. The crate `bytes` has the name of one of the kit's libraries now: it is `byte_numbers`.
It stops, and writes nothing, where two names would fall together.
"""

import os
import re
import subprocess
import sys

WORD = re.compile(r"(?<![\w'’-])[^\W\d_][\w']*(?:-[\w'ℕℤ≡≤*+]+)+(?![\w'-])")
PLAIN = re.compile(r"[^\W\d_][\w']*")
TOP = re.compile(r"^(?:(?:pub|abbrev|unfoldable|pick|syntax) )*(\S+) :(?: (.*))?$")
HEAD = re.compile(r"^(?:pub )?(record|data|module) (\S+)")
FIELD = re.compile(r"^ +(?:pub )?(\S+) :(?: (.*))?$")
OLD_CRATE, NEW_CRATE = "bytes", "byte_numbers"


def files(*ends):
    for folder, dirs, names in os.walk("crates"):
        dirs[:] = sorted(d for d in dirs if d != "out")
        for n in sorted(names):
            if n.endswith(ends):
                yield os.path.join(folder, n)


def read(path):
    with open(path, encoding="utf-8") as f:
        return f.read()


def is_made(type_):
    """Whether a declaration answers a goal that Rattle made: its name is Rattle's."""
    return bool(type_) and re.match(r"\(?(goal|need)\.", type_.strip()) is not None


def declared(text):
    """The names that a file declares: at its top, in modules without a name, and as fields and constructors."""
    inside = False
    for line in text.split("\n"):
        head = HEAD.match(line)
        if head:
            inside = True
            if head.group(1) != "module":
                yield head.group(2)
            continue
        if line and not line.startswith(" "):
            inside = False
        m = FIELD.match(line) if inside else TOP.match(line)
        if m and not is_made(m.group(2)):
            yield m.group(1)


def respelled(name):
    if name[0].isupper():
        return "".join(p[0].upper() + p[1:] for p in name.split("-"))
    return name.replace("-", "_")


def table():
    own, plain = {}, {}
    for path in files(".antt"):
        for name in declared(read(path)):
            if WORD.fullmatch(name):
                own.setdefault(name, path)
            elif PLAIN.fullmatch(name):
                plain.setdefault(name, path)
    new = {name: respelled(name) for name in own}
    clash = []
    for name, to in sorted(new.items()):
        if to in plain:
            clash.append(f"{name} ({own[name]}) would be {to} ({plain[to]})")
    seen = {}
    for name, to in new.items():
        if to in seen:
            clash.append(f"{name} and {seen[to]} would both be {to}")
        seen[to] = name
    return new, clash


def turned(text, new):
    return WORD.sub(lambda m: new.get(m.group(0), m.group(0)), text)


def rename_crate():
    for path in files(".antt", ".rt"):
        t = read(path)
        u = re.sub(rf"\bRattle\.{OLD_CRATE}\.", f"Rattle.{NEW_CRATE}.", t)
        if path.endswith(".rt"):
            u = re.sub(rf"(?m)^(\s*(?:pub )?use ){OLD_CRATE}::", rf"\1{NEW_CRATE}::", u)
        if u != t:
            with open(path, "w", encoding="utf-8") as f:
                f.write(u)
    t = read("crates.txt")
    u = "\n".join(re.sub(rf"(?<![\w.]){OLD_CRATE}(?![\w.])", NEW_CRATE, l) if not l.startswith("#") else l for l in t.split("\n"))
    with open("crates.txt", "w", encoding="utf-8") as f:
        f.write(u)
    if os.path.isdir(f"crates/{OLD_CRATE}"):
        subprocess.run(["git", "mv", f"crates/{OLD_CRATE}", f"crates/{NEW_CRATE}"], check=True)


def main():
    new, clash = table()
    if clash:
        print("\n".join("respell: " + c for c in clash))
        return 1
    for path in files(".antt", ".rt"):
        t = read(path)
        u = turned(t, new)
        if u != t:
            with open(path, "w", encoding="utf-8") as f:
                f.write(u)
    rename_crate()
    print(f"respell: {len(new)} names")
    return 0


if __name__ == "__main__":
    sys.exit(main())
