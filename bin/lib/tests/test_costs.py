"""The books in which orders wait, and the commands over them. No program is needed."""
import collections
import os
import shutil
import subprocess
import sys
import unittest
from unittest import mock

from lib import day_costs, desks, queues, reading_costs, resolutions

FULL, MANY = 49500, 500


class Queues(unittest.TestCase):
    def test_each_shape_has_as_many_orders_as_are_asked_for(self):
        for shape in queues.SHAPES:
            for count in (0, 1, 500):
                self.assertEqual(len(list(queues.orders(shape, count, queues.EQUAL))), count)

    def test_no_bank_sends_more_than_may_wait_and_none_to_itself(self):
        for shape in queues.SHAPES:
            orders = list(queues.orders(shape, FULL, queues.DRAWN))
            self.assertEqual([it for it in orders if queues.code_of(it.sender) == it.receiver], [], shape)
            self.assertEqual(max(collections.Counter(it.sender for it in orders).values()), 500, shape)

    def test_the_amounts_that_wait_are_equal_or_drawn(self):
        self.assertEqual({it.amount for it in queues.orders("chain", 500, queues.EQUAL)}, {queues.EQUAL[0]})
        self.assertGreater(len({it.amount for it in queues.orders("chain", 500, queues.DRAWN)}), 400)

    def test_rings_are_closed(self):
        for step, length in ((0, queues.OF_A_RING), (1, queues.RINGS)):
            seen, bank = [], 0
            while bank not in seen:
                seen.append(bank)
                bank = queues.rings(bank, step)[0]
            self.assertEqual((bank, len(seen)), (0, length))


class Readings(unittest.TestCase):
    def server(self, reply):
        """Returns a server that uses 100 kB, and has 350 at most once its peak was forgotten."""
        server, most = mock.MagicMock(), [900]
        server.used.return_value, server.asked.return_value = 100, reply
        server.forget_peak.side_effect = lambda: most.append(350)
        server.memory.side_effect = lambda what: {"VmHWM": most[-1]}[what]
        return server

    def test_the_memory_is_what_the_server_has_more_at_most(self):
        server = self.server(b"HTTP/1.1 200 OK\r\n\r\n{}")
        self.assertEqual(reading_costs.peak(server, "/desk/status"), (2, 250))

    def test_a_reading_that_is_refused_is_not_measured(self):
        for path in ("/desk/status", "/waiting"):
            with self.assertRaises(desks.Broken):
                reading_costs.asked(self.server(b"HTTP/1.1 403 Forbidden\r\n\r\n{}"), path)

    def test_a_bank_asks_with_a_key_of_its_own(self):
        server = self.server(b"HTTP/1.1 200 OK\r\n\r\n{}")
        for path in ("/desk/status", "/waiting"):
            reading_costs.asked(server, path)
        sent = [it.args[0] for it in server.asked.call_args_list]
        self.assertEqual([desks.OPERATOR.encode() in it for it in sent], [True, False])

    def test_each_book_has_its_readings(self):
        found = list(reading_costs.books())
        self.assertEqual([len(book.orders) for book, _ in found], [50_000] * 3)
        self.assertEqual([len(paths) for _, paths in found], [5, 2, 4])


class Commands(unittest.TestCase):
    def requests(self, kind, waiting):
        with mock.patch.object(queues, "queues_in", lambda _: {it: list(them) for it, them in waiting.items()}):
            return day_costs.KINDS[kind](day_costs.Commands("chain", day_costs.SMALL, MANY), None)

    def test_each_kind_has_its_commands(self):
        waiting = {queues.code_of(it): [f"A-{at}" for at in range(50)] for it in range(queues.BANKS)}
        for kind in day_costs.KINDS:
            wanted = 1 if kind == day_costs.IN_A_BATCH else MANY
            self.assertEqual(len(self.requests(kind, waiting)), wanted, kind)

    def test_withdrawals_take_the_orders_at_their_place(self):
        waiting = {queues.code_of(it): ["A-1", "A-2", "A-3"] for it in range(queues.BANKS)}
        for kind, reference in (("withdrawn, first of a queue", b"A-1"), ("withdrawn, in the middle", b"A-2"),
                                ("withdrawn, last of a queue", b"A-3")):
            requests = self.requests(kind, waiting)
            self.assertEqual(len(requests), queues.BANKS * 3 // day_costs.WITHDRAWN)
            self.assertTrue(all(b"/orders/%s/withdraw" % reference in it for it in requests))
            self.assertEqual(self.requests(kind, dict.fromkeys(waiting, [])), [])

    def test_a_reply_must_have_the_answer_of_its_kind(self):
        said = {"settles at once": '{"answer":"settled","mark":1}', "credit limit raised": '{"answer":"credit set"}',
                "withdrawn, first of a queue": '{"answer":"withdrawn","number":1}', "queued": '{"answer":"queued"}',
                day_costs.IN_A_BATCH: "S-1,settled,1,1\nS-2,settled,2,2\n", "posting in": '{"answer":"posted"}'}
        for kind, text in said.items():
            self.assertEqual(day_costs.answers(kind, text.encode()), 1 + (kind == day_costs.IN_A_BATCH), kind)
            self.assertEqual(day_costs.answers(kind, b'{"answer":"repeated"}'), 0)

    def test_each_kind_is_in_a_series(self):
        self.assertEqual(day_costs.SERIES[day_costs.SMALL], [list(day_costs.KINDS)])
        self.assertLessEqual({it for them in day_costs.OF_LARGE for it in them}, set(day_costs.KINDS))


class Resolutions(unittest.TestCase):
    @unittest.skipUnless(shutil.which("cc"), "needs cc")
    def test_requests_of_one_size_are_counted(self):
        with desks.room() as folder:
            counted = f"{folder}/counted"
            env = {**os.environ, "LD_PRELOAD": desks.library("sizes", folder), "DESK_COUNTED": counted}
            words = "import ctypes; [ctypes.CDLL(None).malloc(it) for it in (98765, 98765, 98764)]"
            for size, wanted in ((98765, 2), (98764, 1), (98766, 0)):
                how = {"env": {**env, "DESK_SIZE": str(size)}, "check": True}
                subprocess.run([sys.executable, "-c", words], **how)
                self.assertEqual(int.from_bytes(desks.content(counted), "little"), wanted)
                os.remove(counted)

    def test_a_server_that_asks_for_no_such_room_is_told(self):
        with mock.patch.object(desks, "library"), mock.patch.object(desks.Server, "__init__"), \
                mock.patch.object(resolutions.Server, "asked"), mock.patch.object(resolutions.Server, "kill"), \
                mock.patch.object(resolutions.Server, "count", side_effect=[3, 3, 3]):
            self.assertRaisesRegex(desks.Broken, "does not ask", resolutions.Server, "", "", 1)


if __name__ == "__main__":
    unittest.main()
