"""Tests of edits.py: which `old` is meant, and what does not fit."""
import pathlib
import tempfile
import unittest

from edits import BadEdit, applied, derived, misfits

TEXT = "fn first\n    used\nfn second\n    used\n    used\n"


class Edits(unittest.TestCase):
    def setUp(self):
        folder = tempfile.TemporaryDirectory()
        self.addCleanup(folder.cleanup)
        self.root = pathlib.Path(folder.name)
        self.crate = self.root / "crates" / "one"
        (self.crate / "refuted").mkdir(parents=True)
        (self.crate / "src").write_text(TEXT)
        self.edit = self.crate / "refuted" / "wrong.edit"

    def made(self, *lines):
        self.edit.write_text("\n".join(["# wrong", "file: src", *lines, ""]))
        with applied(self.edit, self.crate):
            return (self.crate / "src").read_text()

    def test_one_text(self):
        self.assertEqual(self.made("old: first", "new: third"), TEXT.replace("first", "third"))

    def test_a_text_that_stands_twice(self):
        with self.assertRaises(BadEdit):
            self.made("old: used", "new: idle")

    def test_behind_a_text_the_first_is_meant(self):
        self.assertEqual(self.made("behind: fn second", "old:     used", "new:     idle"),
                         "fn first\n    used\nfn second\n    idle\n    used\n")

    def test_behind_serves_one_old(self):
        with self.assertRaises(BadEdit):
            self.made("behind: fn second", "old:     used", "new:     idle", "old:     used", "new:     idle")

    def test_nothing_behind_it(self):
        with self.assertRaises(BadEdit):
            self.made("behind: fn second", "old: first", "new: third")

    def test_a_place_that_is_not_there(self):
        with self.assertRaises(BadEdit):
            self.made("behind: fn third", "old: used", "new: idle")

    def test_it_is_undone(self):
        self.made("behind: fn second", "old:     used", "new:     idle")
        self.assertEqual((self.crate / "src").read_text(), TEXT)

    def test_what_does_not_fit_is_listed(self):
        self.edit.write_text("file: src\nbehind: fn third\nold: used\nnew: idle\n")
        self.assertEqual(len(list(misfits(self.root))), 1)
        self.edit.write_text("file: src\nbehind: fn second\nold: used\nnew: idle\n")
        self.assertEqual(list(misfits(self.root)), [])

    def test_what_is_derived_anew(self):
        self.edit.write_text("# wrong\nfile: src\nold: first\nnew: third\nderive: m::f\nderive: g\n")
        self.assertEqual(derived(self.edit), ["m::f", "g"])
        self.assertEqual(list(misfits(self.root)), [])
        (self.crate / "refuted").rename(self.crate / "must-fail")
        self.assertEqual(len(list(misfits(self.root))), 1)

    def test_the_kit_knows_no_behind(self):
        self.edit.write_text("file: src\nbehind: fn second\nold: used\nnew: idle\n")
        (self.crate / "refuted").rename(self.crate / "must-fail")
        self.assertEqual(len(list(misfits(self.root))), 1)


if __name__ == "__main__":
    unittest.main()
