"""What the check of full books expects of a desk, beside what SPECIFICATION.md shows."""
import re
import unittest
from unittest import mock

import kit
from lib import desks, full
from lib.checks import full_books

DATE = full.FIRST
SETTLED = {"date": DATE, "state": full.SETTLED, "mark": 1}


def shown(words):
    """Returns what SPECIFICATION.md shows of a run by these words."""
    with open(f"{kit.TOP}/docs/SPECIFICATION.md", encoding="utf-8") as it:
        text = it.read()
    lines = re.search(rf"^    \$ desk {re.escape(words)}\n((?:    .*\n)+)", text, re.M)[1]
    return re.sub(r"^    ", "", lines, flags=re.M)


class Texts(unittest.TestCase):
    def setUp(self):
        ring = ("ALFA", "BETA"), ("BETA", "GAMA"), ("GAMA", "ALFA")
        orders = [full.Order(at, sender, f"{sender[0]}-1", receiver, 150000, **SETTLED)
                  for at, (sender, receiver) in enumerate(ring, 1)]
        self.book = full.Book(DATE, full.OPEN, orders, [full.Posting(1, "ALFA", "P-1", 100000, DATE)])

    def test_a_statement_is_the_one_that_is_shown(self):
        self.assertEqual(full.statement(self.book, "ALFA", DATE), shown(f"statement bank.desk ALFA {DATE}"))

    def test_a_report_has_the_lines_that_are_shown(self):
        found, wanted = (it.splitlines() for it in (full.report(self.book, DATE), shown(f"report bank.desk {DATE}")))
        self.assertEqual(found[:1] + found[1 + full.BANKS:], wanted)
        self.assertEqual([it[8:] for it in found[1:1 + full.BANKS]], [f"{'0.00':>31}" * 3] * full.BANKS)

    def test_balances_are_what_was_posted_and_settled(self):
        orders = full.ring(150, full.SETTLED, date=DATE, mark=1) + full.ring(1, full.QUEUED, date=DATE)
        found = full.balances(full.Book(DATE, full.OPEN, orders, [full.Posting(1, "BANK00", "P-1", 7, DATE)]))
        self.assertEqual({it for it in found.items() if it[1]}, {("BANK00", 6), ("BANK50", 1)})

    def test_a_due_date_and_a_mark_stand_where_there_is_one(self):
        order = full.ring(1, full.HELD, date=DATE, due=DATE)[0]
        said = '{"amount":1,"date":"2024-03-04","due":"2024-03-04","number":1,"reference":"A-1","state":"held",' \
               '"to":"BANK01"}'
        self.assertEqual(full.reading(order), said)


class Books(unittest.TestCase):
    def test_the_books_have_the_most_that_may_be_and_many_rows(self):
        self.assertEqual((full_books.ALL, full_books.ROWS), (50000, 200000))

    def test_each_book_is_as_large_as_it_is_said(self):
        sizes = {"ALL": 1000, "ROWS": 2000}
        with mock.patch.multiple(full_books, **sizes):
            for make in full_books.BOOKS:
                with desks.room() as folder:
                    book, questions = make(folder)
                wanted = sizes["ROWS" if make is full_books.history else "ALL"]
                self.assertEqual((len(book.orders), len({it.sender for it in book.orders})), (wanted, full.BANKS))
                self.assertGreater(len(questions), 6)


if __name__ == "__main__":
    unittest.main()
