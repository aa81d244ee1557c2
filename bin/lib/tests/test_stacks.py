"""The crates of a commit, and which of them are alike."""
import unittest

from lib import findings, stacks
from test_evidence import Trees

LINES = "# lowest first\nlow: std\ndesk status=3: low  # a program\nhigh: desk low\n"


class Stacks(Trees):
    def setUp(self):
        super().setUp()
        for name in ("desk", "high"):
            self.write(f"crates/{name}/src/main.rt", name)
        self.write("crates.txt", LINES)
        self.commit()
        self.first = self.here()

    def here(self):
        return stacks.of_commit("HEAD")

    def test_each_crate_has_its_folder_and_its_line(self):
        found = {name: self.git("rev-parse", f"HEAD:crates/{name}").strip() for name in ("low", "desk", "high")}
        self.assertEqual({name: it.folder for name, it in self.first.items()}, found)
        self.assertEqual(self.first["desk"].line, "desk status=3: low")
        self.assertEqual(stacks.with_below("high", self.first), {"high", "desk", "low", "std"})
        self.assertIsNone(stacks.of_commit("0" * 40))

    def alike(self):
        self.commit()
        return [it for it in ("low", "desk", "high", "other") if stacks.are_alike(it, self.first, self.here())]

    def test_a_crate_that_changed_changes_those_above_it(self):
        self.write("docs/A.md", "more")
        self.assertEqual(self.alike(), ["low", "desk", "high"])
        self.write("crates/desk/src/main.rt", "more")
        self.assertEqual(self.alike(), ["low"])

    def test_a_line_that_changed_does_too(self):
        self.write("crates.txt", LINES.replace("low: std", "low: std jiff", 1))
        self.assertEqual(self.alike(), [])

    def test_a_crate_that_is_new_or_gone_is_like_none(self):
        self.write("crates.txt", LINES.replace("high: desk low", "other: low"))
        self.assertEqual(self.alike(), ["low", "desk"])

    def test_a_tree_is_found_by_its_commit_or_by_another_one_with_the_same_crates(self):
        tree = findings.Tree(self.git("rev-parse", "HEAD").strip(), self.names()[0], "b" * 12)
        self.assertEqual(stacks.of_tree(tree), self.first)
        self.write("crates/high/src/main.rt", "more")
        self.commit()
        for commit in (tree.commit, "0" * 40):
            self.assertEqual(stacks.of_tree(tree._replace(commit=commit)), self.first)
        self.assertIsNone(stacks.of_tree(tree._replace(commit="0" * 40, crates="0" * 12)))


del Trees


if __name__ == "__main__":
    unittest.main()
