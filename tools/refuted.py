#!/usr/bin/env python3
"""Tries the wrong programs of crates/*/refuted: the prover must refuse each.

    python3 tools/refuted.py [CRATE | CRATE/EDIT ..]

An edit has the form that edits.py reads. It is applied to a copy of the project, checked there by `rt check`, which
begins with what was kept of the crate, and undone. For each edit the first error is printed that does not follow from
another: whether a fact failed, and not a name, is for the reader to see. Exit 1 where an edit is not refused, or did
not reach the prover.
The must-fail edits are those that the gate tries; these are too many for it.
"""
import pathlib
import re
import shutil
import subprocess
import sys
import tempfile

from edits import BadEdit, applied

# what antt says of a text that it cannot read, rather than of a fact that fails
UNREAD = re.compile(r": error: .*(is not in scope|has no field|is no name|operand is missing|expected the end)")


def check(root, crate):
    """What was said of a crate, proved or not."""
    run = subprocess.run(["rt", "check"], cwd=root / "crates" / crate, capture_output=True, text=True)
    return run.stdout + run.stderr


def verdict(said, root):
    """The prover's verdict in words, and whether it refused."""
    last = ([line for line in said.splitlines() if line.startswith("logic=")] or [""])[-1]
    if last.startswith("logic=proved"):
        return "NOT REFUSED", False
    first = first_error(said, root)
    if not last.startswith("logic=not-proved"):
        return "BAD EDIT: it did not reach the prover: " + first, False
    if UNREAD.search(first):
        return "BAD EDIT: the prover cannot read it: " + first, False
    return "refused: " + first, True


def first_error(said, root):
    """The first line that says what is wrong, without the folder of the copy."""
    lines = [line for line in said.replace(f"{root}/", "").splitlines()
             if re.search(r": error: |\berror\[|is not proved that|: no proof: ", line)]
    # a caller's error follows from its callee's
    own = [line for line in lines if "was not admitted" not in line and "which is not proved" not in line]
    return (own or lines or ["nothing was said"])[0][:300]


def tried(root, crate, edit):
    """Applies an edit, checks, undoes it: whether it was refused."""
    try:
        with applied(edit, root / "crates" / crate):
            words, refused = verdict(check(root, crate), root)
    except BadEdit as bad:
        words, refused = f"BAD EDIT: {bad}", False
    print(f"{crate}/{edit.stem}: {words}", flush=True)
    return refused


def chosen(project, names):
    """The edits that are meant, by crate. Ends where a name has none."""
    found = {}
    for name in names:
        crate, _, edit = name.partition("/")
        edits = sorted((project / "crates" / crate / "refuted").glob(f"{edit or '*'}.edit"))
        found.setdefault(crate, set()).update(edits)
        if not edits:
            sys.exit(f"{name}: no such edit")
    return [(crate, sorted(edits)) for crate, edits in sorted(found.items())]


def main():
    project = pathlib.Path(__file__).resolve().parent.parent
    edits_of = chosen(project, sys.argv[1:] or [p.parent.name for p in project.glob("crates/*/refuted")])
    with tempfile.TemporaryDirectory() as folder:
        root = pathlib.Path(folder)
        shutil.copy(project / "crates.txt", root)
        shutil.copytree(project / "crates", root / "crates", ignore=shutil.ignore_patterns("out"))
        good = True
        for crate, edits in edits_of:
            words, _ = verdict(check(root, crate), root)
            if words != "NOT REFUSED":
                sys.exit(f"{crate} is not proved as it stands: {words}")
            for edit in edits:
                good = tried(root, crate, edit) and good
    sys.exit(0 if good else 1)


main()
