"""The description of the routes, and the part of YAML in which it is written."""
import unittest

import kit
from lib import plain_yaml, stated
from lib.checks import openapi
from lib.report import Report


def quiet():
    return Report(lambda *_, **__: None)


class PlainYaml(unittest.TestCase):
    TEXT = """\
# a comment
a: 1
'200': {b: [x, 'y z', -3], c: {}, d: [], 'e': true}
path/{it}:
  - one
  - k: 'it''s'
    l: a text, with: no end
  - [p, q]
text: |
  first

    second
folded: >-
  one
  line
"""

    def test_what_a_text_says_is_read(self):
        text = self.TEXT.replace(", 'e': true", ", e: true").replace("with: no", "with:no")
        self.assertEqual(plain_yaml.read(text), {
            "a": 1, "200": {"b": ["x", "y z", -3], "c": {}, "d": [], "e": True},
            "path/{it}": ["one", {"k": "it's", "l": "a text, with:no end"}, ["p", "q"]],
            "text": "first\n\n  second\n", "folded": "one line"})

    def test_what_is_of_no_plain_form_is_refused(self):
        for text in ("a: &b 1", "a: \"b\"", "a: b: c", "a: {b: 1", "a: 1\na: 2", "a:\nb: 1", "a: 1\n  b: 2",
                     "a: 'b", "a: 1.5 # no", "a: *b", "? a", "a: b\n c"):
            with self.assertRaises(plain_yaml.Unread, msg=text):
                plain_yaml.read(text)

    def test_a_library_reads_the_same(self):
        try:
            import yaml
        except ImportError:
            self.skipTest("needs a library for YAML")
        text = stated.content(f"{kit.TOP}/docs/openapi.yaml")
        self.assertEqual(plain_yaml.read(text), yaml.safe_load(text))


class OpenApi(unittest.TestCase):
    """The description itself, and texts that stand in for it."""

    @classmethod
    def setUpClass(cls):
        cls.text = stated.content(f"{kit.TOP}/docs/openapi.yaml")

    def found(self, look, *changes):
        """Returns what is found in the description with some texts in the place of others."""
        text, report = self.text, quiet()
        for old, new in changes:
            self.assertIn(old, text)
            text = text.replace(old, new, 1)
        look(openapi.Description(text), report.sees)
        return report.found

    def test_routes_examples_and_refusals_are_those_of_the_code(self):
        specified = stated.content(f"{kit.TOP}/docs/SPECIFICATION.md")
        self.assertEqual(self.found(lambda it, sees: openapi.routes(it, specified, sees)), [])
        self.assertEqual(self.found(openapi.examples), [])
        self.assertEqual(self.found(openapi.refusals), [])

    def test_an_example_that_is_not_sent_or_does_not_fit_is_found(self):
        step = "  - {by: ALFA, operation: readOrder, example: held}\n"
        self.assertIn("examples of readOrder that are sent", self.found(openapi.examples, (step, ""))[0])
        answer = "settled: {value: {answer: settled, mark: 1, number: 1}}"
        for wrong in ("{answer: paid, mark: 1, number: 1}", "{answer: settled, mark: 0, number: 1}",
                      "{answer: settled, mark: 1}", "{answer: settled, number: 1, more: 1}"):
            found = self.found(openapi.examples, (answer, f"settled: {{value: {wrong}}}"))
            self.assertEqual(len(found), 1, wrong)

    def test_cents_are_never_0_and_amounts_begin_at_1(self):
        description = openapi.Description(self.text)
        schemas = description.said["components"]["schemas"]
        for name, good, bad in (("Cents", (-1, 1, 10**15), (0, 10**15 + 1, 1.0)),
                                ("Amount", (1, 10**12), (0, -1, 10**12 + 1, 1000.0))):
            self.assertEqual([description.faults(it, schemas[name]) for it in good], [[]] * len(good))
            self.assertTrue(all(description.faults(it, schemas[name]) for it in bad), name)
        posting = {"cents": 0, "code": "ALFA", "reference": "P-1"}
        self.assertTrue(description.faults(posting, schemas["NewPosting"]))

    def test_a_refusal_of_another_status_or_that_is_missing_is_found(self):
        self.assertEqual(len(self.found(openapi.refusals, ("18 Resolvable", "9 UnknownOrder"))), 3)
        self.assertEqual(len(self.found(openapi.refusals, ("13 TotalTooLarge", "13 NoCover"))), 1)

    def test_a_request_and_its_reply_are_made_of_an_example(self):
        it = openapi.Description(self.text).operations["withdrawOrder"]
        self.assertTrue(it.request("repeated", "k").startswith(b"POST /orders/A-2/withdraw HTTP/1.1\r\n"))
        self.assertTrue(it.request("repeated", "k").endswith(b"Content-Length: 2\r\n\r\n{}"))
        wanted = (200, "application/json", '{"answer":"repeated","number":2,"state":"withdrawn"}')
        self.assertEqual(it.reply("repeated"), wanted)


if __name__ == "__main__":
    unittest.main()
