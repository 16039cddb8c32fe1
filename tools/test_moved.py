#!/usr/bin/env python3
"""Tries tools/moved.py on a small repository of two commits that has each case."""
import os
import pathlib
import re
import subprocess
import sys
import tempfile

MOVED = pathlib.Path(__file__).resolve().parent / "moved.py"


def promising(name, fact):
    return f"fn {name}(a: u64) -> u64\n    ensures {{ {fact} }}\n{{\n    a\n}}\n"


def proof(path, text):
    return f"use {path}.Goals as goal\npub returns : goal.returns\nreturns c = {text}\n"


def number(name, value):
    return f"pub {name} : ℕ\n{name} = {value}\n"


OLD = {
    "crates/low/specs/Sums.antt": """
-- a comment
use Rattle.std.specs.Prelude.{ℕ, ◌+◌}
pub mod Other

unfoldable pub laidOut : ℕ → ℕ
unfolding opened
laidOut n = n + (1 + 2)

unfoldable pub toOther : ℕ → ℕ
toOther n = Rattle·low·specs.specs.Sums.laidOut n

abbrev pub another : ℕ → ℕ
another n = n + 1

hidden : ℕ
hidden = 7

pub record Pair : Type 0 where
  pub one : ℕ

spread : Pair
spread = record { one = (7) }

module _ (A : Type 0) where
  unfoldable pub inside : A → A
  inside a = a

  unfoldable pub beside : A → A
  beside a = a

pub data Gone : Type 0 where
  only : Gone

◌then◌ : ℕ → ℕ → ℕ
a then b = a
""",
    "crates/low/specs/Worked/All.antt": number("machine", 1),
    "crates/low/specs/Held.antt": number("held", 1) + "\n" + number("dropped", 1),
    "crates/low/specs/Worked/Cases.antt": number("first", 1),
    "crates/low/specs/Laws/Sums.antt": "pub law : 1 ≡ 1\nlaw = refl\n\npub weak : 2 ≡ 2\nweak = refl\n",
    "crates/low/src/a.rt": """
use crate::b::Row;
pub const MOST: usize = 4;
pub struct Row {
    pub key: u64, // its id
}
pub struct Kept {
    pub key: u64,
}

// Same promise, another body.
pub(crate) fn body_only(a: u64, session: [u8; 16]) -> u64
    requires { a < 5 }
    ensures { result ≡ one (record { x = a }) }
{
    a
}

fn stronger(a: u64) -> u64
    ensures low { 0 ≤ result }
    ensures high { result ≤ a }
{
    a
}

fn twice(a: u64) -> u64 {
    a
}

impl Row {
    pub fn new() -> Row
        ensures { result ≡ row }
    {
        Row { key: 0 }
    }
}
""",
    "crates/low/src/b.rt": promising("twice", "result ≡ a + a"),
    "crates/low/src/logic.rt": promising("both", "result ≡ a"),
    "crates/low/src/c.rt": promising("same_stem", "result ≡ 1"),
    "crates/low/src/s/c.rt": promising("same_stem", "result ≡ 2"),
    "crates/low/src/d.rt": promising("unsure", "result ≡ 1"),
    "crates/low/src/e.rt": promising("unsure", "result ≡ 2"),
    "crates/low/src/g.rt": promising("by_file", "result ≡ 1"),
    "crates/low/src/h.rt": promising("by_file", "result ≡ 2"),
    "crates/low/src/k.rt": promising("by_name", "result ≡ 1"),
    "crates/low/proofs/a/stronger/Answers.antt": proof("low.a", "refl"),
    "crates/low/proofs/a/body_only/Answers.antt": proof("low.a", "refl"),
    "crates/hnsr_run/specs/Past.antt": "use Rattle.hnsr_run.specs.Head.{head}\n" + number("past", "head"),
    "crates/hnsr_run/specs/Head.antt": number("head", 1),
    "crates/hnsr_run/specs/Run/Rel.antt": number("rel", 1),
}

NEW = {
    **OLD,
    "crates/low/specs/Sums.antt": """
use Rattle.std.specs.Prelude.{
  ℕ, ◌+◌
}
unfoldable pub laidOut : ℕ
    → ℕ
unfolding opened another
  andMore
laidOut n =
    n   -- the number
    + ( 1 + 2 )

abbrev pub another : ℕ → ℕ
another n = n + 2

pub hidden : ℕ
hidden = 7

pub record Pair : Type 0 where
  pub one : ℕ
  pub two : ℕ

spread : Pair
spread = record {
  one = (7);
}

module _ (A : Type 1) where
  unfoldable pub inside : A → A
  inside a = a

module _ (A : Type 0) where
  unfoldable pub beside : A → A
  beside a = a

◌then◌ : ℕ → ℕ → ℕ
a then b = b
""",
    "crates/low/specs/Part/Other.antt": "pub toOther : ℕ → ℕ\ntoOther n = laidOut n\n\n" + number("fresh", 1),
    "crates/low/specs/Worked/All.antt": number("machine", 2),
    "crates/low/specs/Code/Held.antt": number("held", 1),
    "crates/low/specs/Worked/Cases.antt": number("first", 2),
    "crates/low/specs/Laws/Sums.antt": "pub law : 1 ≡ 1\nlaw = sym refl\n",
    "crates/low/specs/Laws/More.antt": "pub weak : 2 ≡ 2\nweak = refl\n",
    "crates/low/src/y/a.rt": """
pub const MOST: usize = 5;
pub struct Row {
    pub key: u64,
    pub mark: bool,
}
pub struct Kept {
    pub key: u64
}

pub fn body_only(
    a: u64,
    session: [u8; 16],
) -> u64
    requires { a < 5 }
    ensures {
        result ≡ one (record { x = a })
    }
{
    let b = a;
    b
}

fn stronger(a: u64) -> u64
    ensures low { 0 ≤ result }
    ensures high { result ≡ a }
{
    a
}

fn twice(a: u64) -> u64 {
    a
}

impl Row {
    pub fn new() -> Row
        ensures { result ≡ row }
    {
        Row { key: 0, mark: false }
    }
}
""",
    "crates/low/src/b.rt": promising("twice", "result ≡ 2 * a") + "\nfn added() {\n}\n",
    "crates/low/src/c.rt": promising("same_stem", "result ≡ 3"),
    "crates/low/src/s/c.rt": promising("same_stem", "result ≡ 4"),
    "crates/low/src/f.rt": promising("unsure", "result ≡ 3"),
    "crates/low/src/y/g.rt": promising("by_file", "result ≡ 3"),
    "crates/low/src/y/h.rt": promising("by_file", "result ≡ 4"),
    "crates/low/src/l.rt": promising("by_name", "result ≡ 2"),
    "crates/high/src/logic.rt": OLD["crates/low/src/logic.rt"],
    "crates/low/proofs/y/a/stronger/Answers.antt": proof("low.y.a", "sym refl"),
    "crates/low/proofs/y/a/body_only/Answers.antt": proof("low.y.a", "refl"),
    "crates/hnsr_run/specs/Head.antt": number("head", 2),
    "crates/hnsr_run/specs/Run/Rel.antt": number("rel", 2),
}
for name in ["a", "logic", "d", "e", "g", "h", "k"]:
    del NEW[f"crates/low/src/{name}.rt"]
for name in ["stronger", "body_only"]:
    del NEW[f"crates/low/proofs/a/{name}/Answers.antt"]
del NEW["crates/low/specs/Held.antt"]

EXPECTED = {
    "low: definitions moved": ["toOther  Part/Other.antt  from Sums.antt"],
    "low: definitions changed": ["Pair  Sums.antt", "another  Sums.antt", "inside  Sums.antt", "◌then◌  Sums.antt"],
    "low: definitions new": ["fresh  Part/Other.antt"],
    "low: definitions gone": ["Gone  Sums.antt"],
    "hnsr_run: definitions changed": ["head  Head.antt"],
    "low: model moved": ["held  Code/Held.antt  from Held.antt"],
    "low: model gone": ["dropped  Held.antt"],
    "low: worked changed": ["first  Worked/Cases.antt"],
    "low: types moved": ["Kept  y/a.rt  from a.rt"],
    "low: types changed": ["MOST  y/a.rt  from a.rt", "Row  y/a.rt  from a.rt"],
    "low: promises moved": [f"{name}  y/a.rt  from a.rt" for name in ["Row::new", "body_only", "twice"]],
    "low: promises changed": [
        "by_file  y/g.rt  from g.rt",
        "by_file  y/h.rt  from h.rt",
        "by_name  l.rt  from k.rt",
        "same_stem  c.rt",
        "same_stem  s/c.rt",
        "stronger  y/a.rt  from a.rt",
        "twice  b.rt",
    ],
    "low: promises new": ["added  b.rt", "unsure  f.rt"],
    "low: promises gone": ["unsure  d.rt", "unsure  e.rt"],
    "high: promises moved": ["both  logic.rt  from low/logic.rt"],
    "low: laws moved": ["weak  Laws/More.antt  from Laws/Sums.antt"],
    "low: laws changed": ["law  Laws/Sums.antt"],
    "hnsr_run: laws changed": ["rel  Run/Rel.antt"],
    "low: proofs moved": ["body_only  y/a/body_only/Answers.antt  from a/body_only/Answers.antt"],
    "low: proofs changed": ["stronger  y/a/stronger/Answers.antt  from a/stronger/Answers.antt"],
}
ROWS = [
    "| low | definitions | 4 | 1 | 4 | 1 | 1 |",
    "| hnsr_run | definitions | 1 | 0 | 1 | 0 | 0 |",
    "| low | types | 0 | 1 | 2 | 0 | 0 |",
    "| low | promises | 0 | 3 | 7 | 2 | 2 |",
]


def git(folder, *words):
    someone = {f"GIT_{who}_{what}": "someone" for who in ["AUTHOR", "COMMITTER"] for what in ["NAME", "EMAIL"]}
    subprocess.run(["git", *words], cwd=folder, check=True, capture_output=True, env={**os.environ, **someone})


def committed(folder, tree, name):
    for path in folder.glob("crates/**/*.*"):
        path.unlink()
    for path, text in tree.items():
        (folder / path).parent.mkdir(parents=True, exist_ok=True)
        (folder / path).write_text(text)
    git(folder, "add", "-A")
    git(folder, "commit", "-q", "-m", name)
    git(folder, "tag", name)


def said(folder, *words):
    run = [sys.executable, MOVED, *words]
    return subprocess.run(run, cwd=folder, check=True, capture_output=True, text=True).stdout


def lists(text):
    """The lists by their titles."""
    found = {}
    for line in text.split("\n"):
        if re.match(r"\w+: ", line):
            entries = found.setdefault(line, [])
        elif line.startswith("    "):
            entries.append(line.strip())
    return found


def main():
    with tempfile.TemporaryDirectory() as name:
        folder = pathlib.Path(name)
        git(folder, "init", "-q")
        committed(folder, OLD, "old")
        committed(folder, NEW, "new")
        told = said(folder, "old", "new")
        assert lists(told) == EXPECTED, told
        for row in ROWS:
            assert row in told.split("\n"), (row, told)
        same = said(folder, "old", "old")
        assert lists(same) == {} and "| low | definitions | 12 | 0 | 0 | 0 | 0 |" in same, same
        full = said(folder / "crates", "--full", "old", "new")
        assert "      - another n = n + 1\n" in full and "      + another n = n + 2\n" in full, full
        assert "laidOut n" not in full, full
    print("moved.py tells each case apart")


main()
