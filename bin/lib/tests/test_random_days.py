"""The random commands, and how two books of days are compared. Replies stand in for servers."""
import collections
import json
import re
import unittest
from unittest import mock

from lib import desks, random_commands, two_days
from lib.checks import random_days
from lib.random_commands import Command, Drawer, Terms
from lib.report import Report
from lib.two_days import Differs, Pair, Reply

TERMS = Terms(5, 1, 20, 30)


def drawn(seed, many=3000):
    """Returns this many commands by a seed, where each bank has three orders queued."""
    drawer = Drawer(seed, TERMS)
    drawer.begin_day()
    queue = [{"reference": f"A-{it}"} for it in (7, 8, 9)]
    return [drawer.command(list(random_commands.KINDS), lambda _: queue) for _ in range(many)]


class Commands(unittest.TestCase):
    def test_a_seed_gives_the_same_commands_again_and_another_one_others(self):
        self.assertEqual(drawn("a", 200), drawn("a", 200))
        self.assertNotEqual(drawn("a", 200), drawn("b", 200))

    def test_each_kind_is_drawn(self):
        kinds = {it.kind for it in drawn("a")}
        wanted = {"order", "batch", "order again", "order to be refused", "credit lowered", "credit raised",
                  "posting in", "posting out", "withdrawal of another order",
                  *(f"withdrawal, {it} of a queue" for it in random_commands.PLACES)}
        self.assertEqual(kinds, wanted)

    def test_an_order_has_another_bank_and_an_amount_within_the_bounds(self):
        orders = [it for it in drawn("a") if it.kind == "order"]
        self.assertGreater(len(orders), 1000)
        amounts = {it.body["amount"] for it in orders}
        self.assertEqual((min(amounts), max(amounts)), (TERMS.least, TERMS.most))
        self.assertEqual([it for it in orders if random_commands.key_of(it.body["to"]) == it.key], [])
        self.assertTrue(any("due" in it.body for it in orders))

    def test_a_withdrawal_names_the_order_at_its_place(self):
        places = {"front": "A-7", "middle": "A-8", "end": "A-9"}
        for it in drawn("a"):
            found = re.fullmatch(r"withdrawal, (\w+) of a queue", it.kind)
            if found:
                self.assertEqual(it.path, f"/orders/{places[found[1]]}/withdraw")

    def test_a_key_is_one_and_a_batch_has_its_rows(self):
        self.assertRegex(random_commands.key_of("BANK00"), "^[0-9a-f]{32}$")
        orders = [{"amount": 5, "reference": "A-1", "to": "BANK01"},
                  {"amount": 6, "due": "2024-03-05", "reference": "A-2", "to": "BANK02"}]
        body = random_commands.batch("k", orders).partition(b"\r\n\r\n")[2].decode()
        self.assertEqual(body, "reference,to,amount,due\nA-1,BANK01,5,\nA-2,BANK02,6,2024-03-05\n")

    def test_weekdays_follow_each_other_over_a_weekend(self):
        self.assertEqual([desks.weekday(it) for it in (0, 4, 5)], [desks.DATE, "2024-03-08", "2024-03-11"])


class TwoDays(unittest.TestCase):
    """A pair without books, whose servers give these replies in turn."""

    def pair(self, *replies):
        pair = Pair.__new__(Pair)
        pair.servers, pair.phase, pair.drawer = ["automatic", "plain"], two_days.OPEN, Drawer("a", TERMS)
        pair.counts, pair.last = collections.Counter(), collections.deque()
        left = [Reply(*it) for it in replies]
        asked = mock.patch.object(two_days, "replies_of", lambda *them: [left.pop(0) for _ in them])
        asked.start()
        self.addCleanup(asked.stop)
        return pair

    ORDER = Command("order", "k", "/orders", {"amount": 1, "reference": "A-1", "to": "BANK01"})
    SETTLED = {"answer": "settled", "mark": 1, "number": 1}
    FOLLOWS = {"count": 2, "mark": 2, "value": 9}

    def test_what_follows_must_be_what_a_resolution_settles(self):
        automatic = (200, {**self.SETTLED, "auto": self.FOLLOWS})
        pair = self.pair(automatic, (200, self.SETTLED), (200, {"answer": "resolved", **self.FOLLOWS}))
        pair.give(self.ORDER)
        self.assertEqual(pair.counts["order, settled: a resolution settled something"], 1)
        self.assertEqual(pair.counts["orders that a resolution settled"], 2)

    def test_where_the_days_differ_that_is_found(self):
        automatic, nothing = (200, {**self.SETTLED, "auto": self.FOLLOWS}), (200, {"answer": "nothing"})
        others = [
            (automatic, (200, self.SETTLED), nothing),
            ((200, self.SETTLED), (200, self.SETTLED), (200, {"answer": "resolved", **self.FOLLOWS})),
            (automatic, (200, self.SETTLED), (200, {"answer": "resolved", **self.FOLLOWS, "value": 8})),
            ((200, self.SETTLED), (200, {**self.SETTLED, "mark": 2}), nothing),
            ((200, self.SETTLED), (409, {"code": 7}), nothing),
        ]
        for replies in others:
            with self.assertRaises(Differs):
                self.pair(*replies).give(self.ORDER)

    def test_a_batch_must_say_of_each_order_what_it_is_answered(self):
        said = "reference,result,number,detail\nA-1,settled,1,1\nA-2,refused,,2\n"
        replies = ((200, self.SETTLED), (200, {"answer": "nothing"}), (409, {"code": 2}), (200, {"answer": "nothing"}))
        batch = Command("batch", "k", "/batches", [self.ORDER.body, {**self.ORDER.body, "reference": "A-2"}])
        self.pair((200, said), *replies).give(batch)
        with self.assertRaises(Differs):
            self.pair((200, said.replace("refused,,2", "queued,2,1")), *replies).give(batch)

    def test_a_resolution_that_is_refused_ends_the_check(self):
        with self.assertRaises(desks.Broken):
            two_days.settled_by(Reply(409, {"code": 14}))

    def test_rows_of_a_result_file_are_made_of_replies(self):
        wanted = {"A-1,queued,3,2": {"answer": "queued", "number": 3, "place": 2},
                  "A-1,held,3,2024-03-05": {"answer": "held", "due": "2024-03-05", "number": 3},
                  "A-1,repeated,3,queued": {"answer": "repeated", "number": 3, "state": "queued"}}
        for row, body in wanted.items():
            self.assertEqual(two_days.row_of("A-1", Reply(200, body)), row)


class RandomDays(unittest.TestCase):
    def test_what_was_not_met_is_wrong(self):
        report = Report(lambda *_, **__: None)
        random_days.judge("days", collections.Counter({"a": 1}), ("a", "b"), report)
        self.assertEqual((report.right, report.wrong), (1, 1))

    def test_the_sum_of_all_days_is_found_last(self):
        report, given = Report(lambda *_, **__: None), mock.Mock(seed=1, orders=5, days=2)
        met = dict.fromkeys(random_days.MET + random_days.MET_IN_SHORT_DAYS, 1)
        counts = collections.Counter({"commands": 7, **met})
        with mock.patch.object(random_days, "played", return_value=counts), \
                mock.patch.object(random_days, "short_days", return_value=counts):
            random_days.run(given, report)
        self.assertTrue(report.is_summed())
        told = "a day of 5 orders and 2 short days, 14 commands over two books"
        self.assertEqual(report.found[-1], f"{told}: {report.right} things as they must be, 0 not")

    def test_a_difference_is_found_with_its_terms(self):
        report = Report(lambda *_, **__: None)

        def differs(_):
            raise Differs("why")

        with mock.patch.object(random_days, "Pair", mock.MagicMock()) as pair:
            pair.return_value.counts = collections.Counter()
            random_days.played("", Drawer("a", TERMS), differs, report)
        self.assertEqual((report.wrong, report.found), (1, [f"{TERMS}: why"]))


if __name__ == "__main__":
    unittest.main()
