#!/usr/bin/env python3
"""Tries tools/rules.py on a small repository: what fits, and each fault that it must find."""
import pathlib
import subprocess
import tempfile

import rules

ONE, TWO, THREE = (f"DUE.{n}" for n in (1, 2, 3))
SPEC = """\
-- {one}: a comment
abbrev pub due_of : World
unfoldable pub earlier : Due
pub record Due (w : World) : Type 0 where
"""
PAGE = f"""\
- **{ONE}** a rule. `Due.due_of`, `Due.Due`, `Laws.Due`; *Lent.both_due*.

| **{TWO}** | a row | `hnsr_body.Due.due` |
"""
SOURCE = "// {two}: cited\nlet left = LEFT{dot}1;\n"


def made(root, page=PAGE, spec=SPEC, source=SOURCE):
    """What is found wrong in a repository with these files."""
    files = {
        "docs/RULES.md": page,
        "crates/hnsr_circuit/specs/Due.antt": spec.format(one=ONE),
        "crates/hnsr_circuit/specs/Laws/Due.antt": "",
        "crates/hnsr_circuit/specs/Worked/Lent.antt": "both_due : Type 0\n",
        "crates/hnsr_body/specs/Due.antt": "  due : Type 0\n",
        "host/src/due.rs": source.format(two=TWO, three=THREE, dot="."),
    }
    for name, text in files.items():
        path = root / name
        path.parent.mkdir(parents=True, exist_ok=True)
        path.write_text(text)
    subprocess.check_call(["git", "-C", root, "init", "-q"])
    subprocess.check_call(["git", "-C", root, "add", "."])
    return rules.faults(str(root))


def main():
    with tempfile.TemporaryDirectory() as folder:
        root = pathlib.Path(folder)
        assert made(root) == (2, 4, []), made(root)
        wrong = {
            "a citation of no rule": (dict(source="// {three}\n"), f"host/src/due.rs:1: no rule {THREE}"),
            "a number twice": (dict(page=PAGE.replace(TWO, ONE)), f"docs/RULES.md: {ONE} stands twice"),
            "a number left out": (dict(page=PAGE.replace(ONE, THREE)), f"docs/RULES.md: {ONE} is missing"),
            "no such definition": (dict(spec=SPEC.replace("due_of", "due_at")), "docs/RULES.md: no Due.due_of"),
            "no such file": (dict(page=PAGE.replace("Laws.Due", "Laws.Late")), "docs/RULES.md: no Laws.Late"),
            "no such theorem": (dict(page=PAGE.replace("both_due", "one_due")), "docs/RULES.md: no Lent.one_due"),
            "no such crate": (dict(page=PAGE.replace("hnsr_body", "hnsr")), "docs/RULES.md: no hnsr.Due.due"),
        }
        for what, (changed, fault) in wrong.items():
            found = made(root, **changed)[2]
            assert fault in found, (what, found)
    print(f"rules.py finds {len(wrong)} kinds of fault, and none where all fits")


main()
