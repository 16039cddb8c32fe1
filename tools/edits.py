"""Edit files: `file:`, `old:`, `new:` lines, each `old` to be replaced in its file. refuted.py and wrong_readings.py
try them. A text that stands in a file more than once has a `behind:` line in front: the first `old` behind that text is
meant. (The must-fail edits are the kit's, which does not know it.) `derive: m::f` was a word of the older kit, for a
function whose derivation derive.py had to make anew; no edit has it now.

    python3 tools/edits.py REPO     lists those that do not fit the files as they are; exit 1 where there is one
"""
import contextlib
import pathlib
import sys


class BadEdit(Exception):
    """An edit that does not fit the files as they are."""


def replacements(edit):
    """The (file, behind, old, new) of an edit file."""
    found, name, behind, old = [], None, "", None
    for line in edit.read_text().splitlines():
        key, _, value = line.partition(": ")
        if key == "file":
            name = value
        elif key == "behind":
            behind = value
        elif key == "old":
            old = value
        elif key == "new":
            found.append((name, behind, old, value))
            behind = ""
    return found


def derived(edit):
    """The functions that are to be derived anew for an edit."""
    return [line.partition(": ")[2] for line in edit.read_text().splitlines() if line.startswith("derive: ")]


def edited(text, name, behind, old, new):
    """A text with its `old` replaced. Raises where it is not clear which one is meant."""
    mark = behind or old
    if text.count(mark) != 1:
        raise BadEdit(f"'{'behind' if behind else 'old'}:' stands {text.count(mark)} times in {name}")
    front, found, rest = text.partition(behind) if behind else ("", "", text)
    if old not in rest:
        raise BadEdit(f"'old:' does not stand behind '{behind}' in {name}")
    return front + found + rest.replace(old, new, 1)


@contextlib.contextmanager
def applied(edit, folder):
    """An edit made in the files of a folder, and undone at the end."""
    before = {}
    try:
        for name, *change in replacements(edit):
            path = folder / name
            text = path.read_text()
            before.setdefault(path, text)
            path.write_text(edited(text, name, *change))
        yield
    finally:
        for path, text in before.items():
            path.write_text(text)


def misfits(root):
    """The edits of a repository that do not fit, each with why."""
    folders = ["crates/*/must-fail", "crates/*/refuted", "traces/wrong"]
    for edit in sorted(edit for folder in folders for edit in root.glob(f"{folder}/*.edit")):
        texts = {}
        try:
            for name, *change in replacements(edit):
                if (change[0] or derived(edit)) and edit.parent.name == "must-fail":
                    raise BadEdit("the kit knows no 'behind:' and no 'derive:'")
                text = texts.get(name) or (edit.parent.parent / name).read_text()
                texts[name] = edited(text, name, *change)
            if not texts:
                raise BadEdit("it replaces nothing")
        except (BadEdit, OSError) as error:
            yield f"{edit.relative_to(root)}: {error}"


def main():
    found = list(misfits(pathlib.Path(sys.argv[1])))
    print("\n".join([*found, f"{len(found)} edits do not fit"]))
    sys.exit(1 if found else 0)


if __name__ == "__main__":
    main()
