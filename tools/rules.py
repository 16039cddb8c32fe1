#!/usr/bin/env python3
"""Whether docs/RULES.md and what cites it fit together.

    rules.py --check REPO     lists what does not fit; exit status 1 if there is something

A rule is a list item or a row of a table in docs/RULES.md that begins with its number in bold. The numbers of a section
are 1, 2, 3 and on, each once: a rule that falls away keeps its line. Every number that a document or a comment cites is
that of a rule. Every `File.name` of docs/RULES.md, in backticks or italics, is a definition or a theorem of that file
of specs: `File` is a file of hnsr_circuit, or of its folder Worked; another crate is put in front.
"""
import collections
import os
import re
import subprocess
import sys

PAGE = "docs/RULES.md"
CRATE = "hnsr_circuit"
RULE = re.compile(r"^(?:- |\| )\*\*([A-Z]+)\.(\d+)\*\*", re.M)
CITED = re.compile(r"\b[A-Z]{2,}\.[1-9]\d*\b")
NAMED = re.compile(r"([`*])((?:[a-z]\w*\.)?(?:[A-Z]\w*\.)+[A-Za-z_◌][\w◌'-]*)\1")
# what begins a comment; "": the whole text counts
COMMENT = {".antt": "--", ".rt": "//", ".rs": "//", ".c": "", ".h": "", ".py": "", ".sh": "#", ".md": "", ".edit": ""}


def numbered(text):
    """The rules of the page, and what is wrong with their numbers."""
    found, wrong = collections.defaultdict(list), []
    for code, number in RULE.findall(text):
        found[code].append(int(number))
    for code, numbers in found.items():
        wrong += [f"{code}.{n} stands twice" for n, times in collections.Counter(numbers).items() if times > 1]
        wrong += [f"{code}.{n} is missing" for n in range(1, max(numbers)) if n not in numbers]
    return {f"{code}.{n}" for code, numbers in found.items() for n in numbers}, wrong


def cited(name, text):
    """The numbers that a file cites, each with its line: of code, in comments."""
    kind = os.path.splitext(name)[1]
    for n, line in enumerate(text.split("\n"), 1) if kind in COMMENT else ():
        mark = COMMENT[kind]
        comment = line.partition(mark)[2] if mark else line
        yield from ((n, number) for number in CITED.findall(comment))


def stands(root, name):
    """Whether `[crate.]Folder.File.name`, or a file, is in the specs of its crate."""
    parts = name.split(".")
    crate = parts.pop(0) if parts[0][0].islower() else CRATE
    for specs in (f"{root}/crates/{crate}/specs", f"{root}/crates/{crate}/specs/Worked"):
        if os.path.isfile("/".join([specs, *parts]) + ".antt"):
            return True
        path = "/".join([specs, *parts[:-1]]) + ".antt"
        if len(parts) > 1 and os.path.isfile(path):
            made = rf"^\s*(?:abbrev |unfoldable )?(?:pub )?(?:record |data )?{re.escape(parts[-1])} [:(]"
            return re.search(made, open(path, encoding="utf-8").read(), re.M) is not None
    return False


def faults(root):
    """How many rules and citations there are, and what does not fit."""
    page = open(os.path.join(root, PAGE), encoding="utf-8").read()
    rules, wrong = numbered(page)
    wrong = [f"{PAGE}: {fault}" for fault in wrong]
    wrong += [f"{PAGE}: no {name}" for _, name in NAMED.findall(page) if not stands(root, name)]
    citations = 0
    for name in subprocess.check_output(["git", "-C", root, "ls-files", "-z"], text=True).split("\0"):
        path = os.path.join(root, name)
        if os.path.splitext(name)[1] not in COMMENT or not os.path.isfile(path) or os.path.islink(path):
            continue
        for n, number in cited(name, open(path, encoding="utf-8").read()):
            citations += 1
            if number not in rules:
                wrong.append(f"{name}:{n}: no rule {number}")
    return len(rules), citations, wrong


def main():
    if sys.argv[1:2] != ["--check"] or len(sys.argv) != 3:
        raise SystemExit(__doc__)
    rules, citations, wrong = faults(sys.argv[2])
    print("\n".join([*wrong, f"{rules} rules, {citations} citations: {len(wrong)} do not fit"]))
    sys.exit(1 if wrong else 0)


if __name__ == "__main__":
    main()
