#!/usr/bin/env python3
"""Promises of two commits, old and new beside each other, as Markdown.

    beside.py OLD NEW [WORDS]

Of each crate: signatures with their clauses, types, definitions (what moved.py calls model and examples among them)
and the statements of theorems, without their proofs. What differs only by words of the file WORDS, a line `old = new`
for each, is listed by name; brackets do not count there. What is gone and what is new is listed by name.
"""
import collections
import re
import sys
import textwrap

import moved

HEADS = {"types": "Types", "promises": "Signatures and clauses", "definitions": "Definitions", "theorems": "Theorems"}


def statement(item):
    """A theorem without its proof."""
    kept = []
    for line in item.text.split("\n"):
        words = line.split()
        indent = len(line) - len(line.lstrip())
        if kept and indent == base and (words[0] == "unfolding" or words[0] == item.name):
            break
        base = indent if not kept else base
        kept.append(line)
    text = "\n".join(kept)
    if re.match(r"\s*(pub )?(record|data)\b", text):
        text = item.text
    return item._replace(kind="theorems", text=text, tokens=moved.tokens(text))


def compared(commit):
    for item in moved.items(commit):
        if item.kind == "laws":
            yield statement(item)
        elif item.kind in ("definitions", "types", "promises"):
            yield item


def respelled(item, words):
    bare = [w for w in item.tokens if w not in "()"]
    return " ".join(part for w in bare for part in words.get(w, w).split())


def rows(mark, item):
    text = re.sub(r"\s+", " ", item.text).strip()
    lines = textwrap.wrap(text, 114, break_long_words=False, break_on_hyphens=False)
    return [f"{mark} {line}" if n == 0 else f"{mark}     {line}" for n, line in enumerate(lines)]


def names(items):
    counted = collections.Counter(f"`{item.name}`" for item in items)
    said = ", ".join(f"{name} ({n})" if n > 1 else name for name, n in sorted(counted.items()))
    return textwrap.wrap(said, 118, break_long_words=False, break_on_hyphens=False)


def main():
    old, new = (list(compared(commit)) for commit in sys.argv[1:3])
    words = {}
    if len(sys.argv) > 3:
        words = dict(re.split(r" *= *", line.strip()) for line in open(sys.argv[3]) if "=" in line)
    groups = collections.defaultdict(lambda: collections.defaultdict(list))
    for fate, item, other in moved.fates(old, new):
        if fate == "changed" and respelled(item, words) == respelled(other, words):
            fate = "by the words alone"
        it = other or item
        groups[it.crate, it.kind][fate].append((item, other))
    for crate in sorted({crate for crate, _ in groups}):
        for kind, head in HEADS.items():
            fates = groups[crate, kind]
            if not any(fates[f] for f in ("changed", "by the words alone", "gone", "new")):
                continue
            print(f"### {crate}: {head[0].lower() + head[1:]}\n")
            pairs = sorted(fates["changed"], key=lambda pair: (pair[1].file, pair[1].name))
            if pairs:
                print("```diff")
                for n, (item, other) in enumerate(pairs):
                    print(("\n" if n else "") + "\n".join(rows("-", item) + rows("+", other)))
                print("```\n")
            for fate, said in (("by the words alone", "By the words alone"), ("gone", "Gone"), ("new", "New")):
                if fates[fate]:
                    listed = names([other or item for item, other in fates[fate]])
                    print("\n".join([f"{said} ({len(fates[fate])}):"] + listed) + "\n")


if __name__ == "__main__":
    main()
