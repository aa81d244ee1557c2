"""The words that are not used: what finds them."""
import unittest

import kit
from lib import stated, words

LISTED = '| not | but |\n|---|---|\n| "so many" for a number | N |\n| "anew", "tells of" | again |\n'


class Words(unittest.TestCase):
    def setUp(self):
        self.names, self.form = words.avoided(LISTED)

    def count(self, path, text):
        return len(self.form.findall(words.texts(path, text)))

    def test_the_list_names_words_in_quotes(self):
        self.assertEqual(self.names, ["so many", "anew", "tells of"])
        self.assertIn("so many", words.avoided(stated.content(f"{kit.TOP}/{words.LIST}"))[0])

    def test_words_are_found_also_across_lines_and_at_the_start_of_a_sentence(self):
        for text in ("so many", "So many of them", "it tells\nof it", "// it tells\n// of it", "begin anew."):
            self.assertEqual(self.count("docs/a.md", text), 1, text)
        for text in ("rt ci --anew", "def anew(a):", "f(anew=True)", "also many", "`anew`", "tells often"):
            self.assertEqual(self.count("bin/a", text), 0, text)

    def test_of_code_and_definitions_only_comments_are_read(self):
        self.assertEqual(self.count("crates/a/src/lib.rt", 'let a = "so many"; // anew\n/// tells\n/// of\n'), 2)
        self.assertEqual(self.count("crates/a/specs/A.antt", "a = so many\n-- so many\n"), 1)
        self.assertEqual(self.count("crates/a/data/a.csv", "so many"), 0)
        self.assertEqual(self.count(words.LIST, LISTED), 0)
