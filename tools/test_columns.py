#!/usr/bin/env python3
"""Tries tools/columns.py on small texts that have each form; `rt fmt` must leave what it writes."""
import pathlib
import subprocess
import tempfile

import columns

W = "a-name-of-some-length"
FILLED = "a comment that is longer than the width, which is filled again"
ROW = "a row of a table stays a row, and goes on under its own text"
FIVE = "one-name, two-name, three-name, four-name, five-name"
MORE = "six-name, seven-name, eight-name, nine-name"
HANDED = "handed result (rows_of pending.new) (words_of out.new)"
ANTT = f"""\
-- {FILLED} from its long line on, together with the line after it,
-- this one, but not with what is said apart:
--     row      {ROW} where it is longer than a line has columns to give
--     other    another row
use some.Module.{{{FIVE}, {MORE}, ten-name}}
use some.Module.{{short}}

pub law : (x : {W}) (y : {W}) → f x y ≡ true → g x y (h x y) ≡ k x y (h x y) → p (f x y) (g x y) × q (f x y)
unfolding f g
law x y e d = let u = first x y (second x y e) in ap (λ (z : {W}). f z y) (third u e d) ∙ sym (fourth x y u) ∙ fifth u d

-- kept as it is
two : {W}
two x y =
    f x
    y

three : {W}
three x y = split ({W} x) (λ e. ({W} x, {W} y)) (λ e. record {{ {W} = x; b = {W} x; c = ({W} x y, {W} x) }})

four : {W}
four x = let k = {W} x in (
  k,
  {W} k ({W} (λ z. {W} z ({W} z k)) ({W} k x)) ({W} k) ({W} x),
)

module _ (x : {W}) (y : {W}) (z : {W}) (e : f x y ≡ f y z) (d : g x y z ≡ g z y x) where
  inner = refl
"""
ANTT_AFTER = f"""\
-- {FILLED} from its long line on, together with the line after
-- it, this one, but not with what is said apart:
--     row      {ROW} where it is longer than a line has columns
--              to give
--     other    another row
use some.Module.{{{FIVE}}}
use some.Module.{{{MORE}, ten-name}}
use some.Module.{{short}}

pub law : (x : {W}) (y : {W}) → f x y ≡ true → g x y (h x y) ≡ k x y (h x y)
    → p (f x y) (g x y) × q (f x y)
unfolding f g
law x y e d =
    let u = first x y (second x y e) in
    ap (λ (z : {W}). f z y) (third u e d) ∙ sym (fourth x y u) ∙ fifth u d

-- kept as it is
two : {W}
two x y =
    f x
    y

three : {W}
three x y =
    split ({W} x)
    (λ e. ({W} x, {W} y))
    (λ e. record {{
      {W} = x;
      b = {W} x;
      c = ({W} x y, {W} x);
    }})

four : {W}
four x = let k = {W} x in (
  k,
  {W} k
      ({W} (λ z. {W} z ({W} z k)) ({W} k x))
      ({W} k) ({W} x),
)

module _ (x : {W}) (y : {W}) (z : {W}) (e : f x y ≡ f y z)
    (d : g x y z ≡ g z y x) where
  inner = refl
"""
RUST = f"""// code
ghost use some.Module.{{{FIVE}, {MORE}}};

pub fn f(a: u64) -> u64
    requires {{ a < 5 }}
    ensures ok {{ ({W} : List ℕ) → {HANDED} ≡ ending out.old a }}
{{
    a
}}
"""
RUST_AFTER = f"""// code
ghost use some.Module.{{{FIVE}}};
ghost use some.Module.{{{MORE}}};

pub fn f(a: u64) -> u64
    requires {{ a < 5 }}
    ensures ok {{ ({W} : List ℕ)
        → {HANDED} ≡ ending out.old a }}
{{
    a
}}
"""
LONG = "x" * 130
TREE = {
    "a.md": f"{LONG}\n| {LONG} |\n```\n{LONG}\n```\n",
    "b.py": f"\n# {LONG}\n",
    "run": f"#!/bin/sh\n# {LONG}\n",
    "LICENSE": LONG,
    "data.txt": LONG,
    "crates/c/proofs/By/f/Lts.antt": LONG,
    "crates/c/proofs/f/Proof/At.antt": LONG,
    "tools/trial/a.antt": LONG,
    "crates/c/specs/Lib.antt": f"-- {'λ' * 117}\n-- {'λ' * 118}\n",
}


def written(text, rust):
    new, left = columns.wrapped(text, rust)
    assert not left, left
    path = "f.rt" if rust else "f.antt"
    assert columns.laid_out({path: new}) == {path: new}, new
    assert columns.meaning(new) == columns.meaning(text), new
    assert columns.wrapped(new, rust) == (new, []), new
    return new


def check():
    with tempfile.TemporaryDirectory() as name:
        folder = pathlib.Path(name)
        for path, text in TREE.items():
            (folder / path).parent.mkdir(parents=True, exist_ok=True)
            (folder / path).write_text(text)
        subprocess.run(["git", "init", "-q"], cwd=folder, check=True)
        subprocess.run(["git", "add", "-A"], cwd=folder, check=True)
        run = ["python3", columns.__file__, "--check", name]
        found = subprocess.run(run, capture_output=True, text=True)
        assert found.returncode == 1, found
        return found.stdout.split("\n")[:-2]


def main():
    for text, rust, after in [(ANTT, False, ANTT_AFTER), (RUST, True, RUST_AFTER)]:
        new = written(text, rust)
        assert new == after, new
        assert not columns.long_lines("", new), new
    odd = f"f x = (({LONG})\n"
    assert columns.wrapped(odd, False)[0] == odd and columns.wrapped(odd, False)[1]
    assert check() == ["a.md:1", "b.py:2", "crates/c/specs/Lib.antt:2", "run:2"], check()
    print("columns.py breaks each form, and lists what is long")


main()
