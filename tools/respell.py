#!/usr/bin/env python3
"""Brings the repository's own definitions, lemmas and fields of antt to the library's spelling: words in snake case,
a dash between two names that are declared, types and modules in camel case, a prime as an apostrophe.

usage: tools/respell.py [--names] [FOLDER]

Run once, after the kit's port.py. It reads what specs/ and proofs/ declare, and rewrites these names in .antt files, in
the ghost parts of .rt files, in edits, and in backquotes of .md files. Functions of src/, exported C names, strings and
whatever Rattle generates keep their names. --names prints the table alone. It stops where two names fall together.
"""
import os
import re
import sys

# what stands between names; a name may hold dashes, primes and symbols
BREAK = r"\s(){}\[\].,;:«»\"`|⟨⟩⌜⌝\\"
TOKEN = re.compile(rf"[^{BREAK}]+")
DECLARED = re.compile(
    r"^ *(?:(?:pattern|unfoldable|abbrev|pub) )+(?!data |record |mod )([^\s(){}.,;:«»]+) [:({]"
    r"|^ *([^\s(){}.,;:«»]+)(?: \{[^=}]*:[^=}]*\}.*)? :(?: |$)"
)
FIELD = re.compile(r"^ +(?:pub )?(([a-z][^\s(){}.,;:«»=]*)) :(?: |$)")
TYPE = re.compile(r"^(?:pub )?(?:data|record|module|mod|pub mod) +(?:pub )?([^\s(){}.,;:«»]+)")
CAMEL = re.compile(r"(?<=[a-z0-9])(?=[A-Z])")


def files(root, *ends):
    for base, dirs, names in os.walk(root):
        dirs[:] = sorted(d for d in dirs if d not in (".git", "out", "target"))
        for name in sorted(names):
            if name.endswith(ends):
                yield os.path.join(base, name)


def own(path):
    """Is this a file of definitions or of lemmas, and not a part of the proof of one function?"""
    parts = path.split(os.sep)
    if "specs" in parts:
        return True
    if "proofs" not in parts:
        return False
    at = len(parts) - 1 - parts[::-1].index("proofs")
    return len(parts) == at + 2


def read(path):
    with open(path, encoding="utf-8") as f:
        return f.read()


def snake(part, types):
    """A part of a name between dashes."""
    if part in types or not re.match(r"[a-z]", part):
        return part
    return CAMEL.sub("_", part).lower() if CAMEL.search(part) else part


def table(root):
    declared, types = {}, set()
    for path in files(os.path.join(root, "crates"), ".antt"):
        if not own(path):
            continue
        fields = False
        for line in read(path).splitlines():
            m = TYPE.match(line)
            if m:
                types.add(m[1])
            if re.match(r"(?:pub )?(?:data|record) ", line):
                fields = True
            elif re.match(r"\S", line):
                fields = False
            m = DECLARED.match(line) or (FIELD.match(line) if fields else None)
            if m:
                name = m[1] or m[2]
                declared.setdefault(name, set()).add(os.path.relpath(path, root))
    words = {d.replace("′", "'") for d in declared}
    known = {snake(w, types) for w in words if "-" not in w} | types | WORDS
    # what a module with parameters declares, and variables
    for path in files(os.path.join(root, "crates"), ".antt"):
        if own(path):
            for d in TOKEN.findall(read(path)):
                if "-" not in d and re.match(r"[a-z][\w']*$", d) and CAMEL.search(d):
                    declared.setdefault(d, set())
    names = {}
    for d in sorted(declared):
        if d[0].isupper() and "-" not in d:
            continue
        parts = d.replace("′", "'").split("-") if not d.startswith("◌") else [d.replace("′", "'")]
        parts = [snake(p, types) for p in parts]
        if len(parts) > 1 and all(re.sub(r"'+$", "", p) in known for p in parts):
            to = "-".join(parts)
        else:
            to = "_".join(parts)
        if to != d:
            names[d] = to
    return names, declared


# parts of names that are words of the library
WORDS = set(
    "length append map take drop set get_or sum filter reverse count cond not and or refl zero suc min max add sub mul "
    "div mod pow le lt eq nil cons replicate true false IsTrue All Any any all".split()
)


# lemmas whose names the kit's script has turned to what a definition is to be called
LEMMAS = ("no_place", "room_of", "same_id", "walk_from")


def settle(names, declared):
    """A lemma that would have a definition's name ends in `_lem`."""
    for d in LEMMAS:
        names[d] = d + "_lem"
        del declared[d]
    # two lemmas of two modules, of which the other one is `any_at` already
    names["anyAt"] = "any_keyed"
    for d in sorted(names):
        to = names[d]
        if "-" in d and (to in declared or any(n == to and o != d for o, n in names.items())):
            names[d] = to + "_lem"
    seen = {}
    for d, to in names.items():
        if to in seen or to in declared:
            raise SystemExit(f"respell: {d} and {seen.get(to, to)} would both be {to}")
        seen[to] = d
    return names


def respelled(text, names, only=None):
    return TOKEN.sub(lambda m: names.get(m[0], m[0]) if only is None or only(m[0]) else m[0], text)


STRING = re.compile(r'"(?:[^"\\\n]|\\.)*"')
BACKQUOTED = re.compile(r"`[^`\n]+`")


def outside_strings(text, names):
    out, at = [], 0
    for m in STRING.finditer(text):
        out += [respelled(text[at : m.start()], names), m[0]]
        at = m.end()
    return "".join(out + [respelled(text[at:], names)])


def turned(path, text, names):
    if path.endswith((".antt", ".edit")):
        return respelled(text, names)
    if path.endswith(".rt"):
        return outside_strings(text, names)
    if path.endswith(".md"):
        return BACKQUOTED.sub(lambda m: respelled(m[0], names), text)
    # a tool: names with a capital inside are antt's, and a dash may be anything
    return respelled(text, names, lambda t: "-" not in t)


def main(argv):
    only = "--names" in argv
    argv = [a for a in argv if a != "--names"]
    root = argv[0] if argv else os.path.join(os.path.dirname(os.path.abspath(__file__)), "..")
    names, declared = table(root)
    names = settle(names, declared)
    if only:
        for d, to in names.items():
            print(d, to)
        return 0
    n = 0
    for path in files(root, ".antt", ".rt", ".edit", ".md", ".py"):
        parts = os.path.relpath(path, root).split(os.sep)
        if path.endswith(".py") and (parts[0] != "tools" or parts[-1].startswith(("respell", "test_"))):
            continue
        if parts[:2] == ["tools", "trial"]:
            continue
        text = read(path)
        to = turned(path, text, names)
        if to != text:
            with open(path, "w", encoding="utf-8") as f:
                f.write(to)
            n += 1
    print(f"respell: {len(names)} names, {n} files")
    return 0


if __name__ == "__main__":
    raise SystemExit(main(sys.argv[1:]))
