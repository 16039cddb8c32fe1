#!/usr/bin/env python3
"""Tries the wrong readings of traces/wrong: the calls beyond the domain must find each.

    python3 tools/wrong_readings.py [NAME..]

An edit has the form of a must-fail edit. It is applied to the second reading in a copy of host/ and traces/, and
`beyond 7 300000` is run there: the library is right, so a difference is the reading's. For each edit the first call
that differs is printed. Exit 1 where none does, or where the reading as it stands differs too. The archive is that of
host/, or of the folder that LEKCHNAM_STATICLIB names, seen from host/.
"""
import os
import pathlib
import shutil
import subprocess
import sys
import tempfile

from edits import BadEdit, applied

SEED_AND_CALLS = ["7", "300000"]


def run(root, environment):
    """Whether nothing is wrong, and the first line that is said."""
    traces = root / "traces"
    build = ["cargo", "build", "--offline", "--quiet", "--release", "--bin", "beyond"]
    built = subprocess.run(build, cwd=traces, env=environment, capture_output=True, text=True)
    if built.returncode != 0:
        sys.exit(f"BAD EDIT: it does not compile\n{built.stderr}")
    beyond = subprocess.run([traces / "target/release/beyond", *SEED_AND_CALLS], capture_output=True, text=True)
    if beyond.returncode not in (0, 1):
        sys.exit(f"BAD EDIT: the reading does not end\n{beyond.stderr}")
    return beyond.returncode == 0, beyond.stdout.split("\n", 1)[0]


def found(root, environment, edit):
    """Applies an edit, makes the calls, undoes it: whether a call differs."""
    try:
        with applied(edit, root / "traces"):
            right, said = run(root, environment)
    except BadEdit as bad:
        sys.exit(f"{edit.stem}: BAD EDIT: {bad}")
    print(f"{edit.stem}: {'NOT FOUND' if right else said}", flush=True)
    return not right


def main():
    project = pathlib.Path(__file__).resolve().parent.parent
    edits = sorted((project / "traces/wrong").glob("*.edit"))
    chosen = [edit for edit in edits if not sys.argv[1:] or edit.stem in sys.argv[1:]]
    archive = (project / "host" / (os.environ.get("LEKCHNAM_STATICLIB") or "../target/staticlib")).resolve()
    environment = {**os.environ, "LEKCHNAM_STATICLIB": str(archive)}
    environment.pop("CARGO_TARGET_DIR", None)
    with tempfile.TemporaryDirectory() as folder:
        root = pathlib.Path(folder)
        for part in ["host", "traces"]:
            shutil.copytree(project / part, root / part, ignore=shutil.ignore_patterns("target", "fixed"))
        right, said = run(root, environment)
        if not right:
            sys.exit(f"the reading as it stands: {said}")
        count = sum(found(root, environment, edit) for edit in chosen)
    print(f"{count} of {len(chosen)} wrong readings are found")
    sys.exit(0 if count == len(chosen) else 1)


main()
