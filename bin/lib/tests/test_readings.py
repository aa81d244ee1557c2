"""What checks compare readings with: queues from a list of orders, and the parts of a reply."""
import unittest

from lib import readings
from lib.readings import Listed


def listed(number, sender, receiver, amount, state="queued"):
    return Listed(str(number), sender, f"A-{number}", receiver, str(amount), "", state, "")


def lengths(*orders, room=0):
    """Returns how many orders of each queue settle, where each bank has this headroom."""
    queues = {}
    for it in orders:
        queues.setdefault(it.sender, []).append(it)
    banks = {it for order in orders for it in (order.sender, order.receiver)}
    return readings.greatest(queues, dict.fromkeys(banks, room))


class Readings(unittest.TestCase):
    RING = listed(1, "ALFA", "BETA", 100), listed(2, "BETA", "GAMA", 100), listed(3, "GAMA", "ALFA", 100)

    def test_a_ring_settles_whole_and_a_chain_not_at_all(self):
        self.assertEqual(lengths(*self.RING), {"ALFA": 1, "BETA": 1, "GAMA": 1})
        self.assertEqual(lengths(*self.RING[:2]), {"ALFA": 0, "BETA": 0})

    def test_the_newest_order_of_a_short_bank_is_taken_back(self):
        more = listed(4, "ALFA", "GAMA", 50)
        self.assertEqual(lengths(*self.RING, more), {"ALFA": 1, "BETA": 1, "GAMA": 1})
        self.assertEqual(lengths(*self.RING, more, room=50), {"ALFA": 2, "BETA": 1, "GAMA": 1})

    def test_a_queue_has_its_receivers_by_code_and_what_it_lacks(self):
        orders = [listed(1, "BETA", "GAMA", 70), listed(2, "BETA", "ALFA", 30), listed(3, "BETA", "GAMA", 5),
                  listed(4, "BETA", "ALFA", 9, state="settled")]
        accounts = {it: {"balance": 10, "credit": 20} for it in ("ALFA", "BETA", "GAMA")}
        found, = readings.queues_of(orders, accounts)
        receivers = [{"queued": 1, "queued_value": 30, "to": "ALFA"}, {"queued": 2, "queued_value": 75, "to": "GAMA"}]
        first = {"amount": 70, "number": 1, "reference": "A-1", "to": "GAMA"}
        self.assertEqual(found, {"code": "BETA", "first": first, "headroom": 30, "queued": 3, "queued_value": 105,
                                 "receivers": receivers, "settling": 0, "settling_value": 0, "short": 40})
        self.assertEqual(list(found), sorted(found))

    def test_a_reply_has_its_status_its_type_and_its_body(self):
        sent = b"HTTP/1.1 200 OK\r\nContent-Type: text/csv\r\nContent-Length: 2\r\n\r\na\n"
        self.assertEqual(readings.reply_of(sent), (200, "text/csv", "a\n"))

    def test_the_versions_are_those_of_the_code(self):
        self.assertRegex(readings.program_version(), r"^\d+\.\d+\.\d+$")
        self.assertEqual(readings.tables_version(), "3")


if __name__ == "__main__":
    unittest.main()
