#!/usr/bin/env python3
"""Which functions of a crate take longest to prove.

    python3 tools/slowest.py CRATE [N]      the N slowest (30), and what the seconds go to

Proves the crate with `rt check` by one job, from nothing: crates/CRATE/out is removed. That saves each module as soon
as it is checked, so the time between two saved files is the second one's. A function's seconds are those of all its
modules: its code, its derivation (Lts), what Rattle makes of its goals (Goals, Given, Proof), Invariants, Answers. Run
it with nothing beside it; what the crate stands on must be built before (`rt lib`). Where another checkout on this
machine has kept work of the crate, rt begins with that, and the figures would say nothing: then this stops.
"""
import collections
import pathlib
import re
import shutil
import subprocess
import sys

LONGEST = 60  # seconds: a longer pause between two files is not a module's
KINDS = "Lts|Reads|Kinds|Goals|Given|Invariants|Answers|Proof|Tie|Code|Statement|Met|Key|Symbol|Layout"
MODULE = re.compile(rf"(?P<path>.+?)\.(?P<kind>{KINDS})\b.*")


def owner(name):
    """The function or file that a saved module belongs to, and which part of it the module is."""
    part = re.sub(r"^Rattle[-.]", "", name.removesuffix(".oantt"))
    found = re.match(r"\w+[-.]proofs\.(.+)", part)
    if not found:
        return part, "specs"
    module = MODULE.fullmatch(found[1])
    return (module["path"], module["kind"]) if module else (found[1], "other")


def spent(folder):
    """Seconds by function, and by part."""
    saved = sorted((f.stat().st_mtime_ns, f.name) for f in folder.glob("*.oantt"))
    functions, parts = collections.Counter(), collections.Counter()
    for (before, _), (after, name) in zip(saved, saved[1:]):
        seconds = (after - before) / 1e9
        if seconds < LONGEST:
            function, part = owner(name)
            functions[function] += seconds
            parts[part] += seconds
    return functions, parts


def main():
    crate, most = sys.argv[1], int(sys.argv[2]) if len(sys.argv) > 2 else 30
    folder = pathlib.Path(__file__).resolve().parent.parent / "crates" / crate
    shutil.rmtree(folder / "out", ignore_errors=True)
    run = subprocess.run(["rt", "check", "--jobs", "1"], cwd=folder, capture_output=True, text=True)
    if run.returncode:
        sys.exit(f"slowest: {crate} is not proved")
    if f"rt: {crate}: begins with what a check kept" in run.stdout + run.stderr:
        sys.exit(f"slowest: rt began with what a check of {crate} kept in another checkout")
    functions, parts = spent(next(path for path in folder.glob("out/incremental/antt-checked-*")
                                  if not path.name.endswith("-offers")))
    total = sum(functions.values())
    print(f"{crate}: {total:.0f} s in {len(functions)} functions and files")
    for part, seconds in parts.most_common():
        print(f"{seconds:8.1f} s  {100 * seconds / total:3.0f} %  {part}")
    print()
    for function, seconds in functions.most_common(most):
        print(f"{seconds:8.1f} s  {function}")


if __name__ == "__main__":
    main()
