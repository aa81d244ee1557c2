"""Goes through an operator's three days over HTTP alone, with a server that is never stopped.

What an operator asks herself is answered by one request each: which orders wait and why, what a resolution would settle
and did settle, what is held and until when, what a close rejected, where the numbers stand, and how a bank's statement
reads. She withdraws an order and sends an order file in a bank's name. Then random orders of many banks are sent, and
what the readings say of them is compared with the replies, with each other, and with what each resolution does.

Shows: that a running desk answers these questions, and that its readings agree with what its commands do.
Cannot show: that a reading is right where no command shows it; the proofs do.
"""
import collections
import json
import random

from lib import desks, readings, runs
from lib.readings import CSV, JSON

BANKS = tuple(desks.KEYS)
ONE, TWO, THREE = BANKS
DAYS = [desks.weekday(it) for it in (0, 1, 2)]
FIRST, SECOND, THIRD = DAYS
CONNECTIONS = 1_000_000
# the random part: how many banks send how many orders, and how often all readings are compared
MANY_BANKS, ORDERS, BETWEEN, SEED = 24, 3_000, 100, "operator-days"


class Desk:
    """A server over a book, and what its operator and its banks ask of it. Each answer is compared, and counted."""

    def __init__(self, server, keys, report):
        self.server, self.keys, self.report, self.questions = server, keys, report, 0

    def reply(self, method, path, key=desks.OPERATOR, body=None):
        """Returns the status, the type and the body of a reply."""
        self.questions += 1
        return readings.reply_of(desks.reply_on(desks.send(self.server.port, desks.request(method, path, key, body))))

    def reads(self, path, wanted, kind=JSON, key=desks.OPERATOR):
        """The reply to a reading must have this body."""
        body = wanted if isinstance(wanted, str) else readings.compact(wanted)
        self.report.sees(f"GET {path}", self.reply("GET", path, key), (200, kind, body))

    def refuses(self, path, status, number, key=desks.OPERATOR):
        """A reading must be refused so."""
        body = readings.compact({"code": number, "name": runs.refusals()[number][0] if number != 68 else "NoKey"})
        self.report.sees(f"GET {path}", self.reply("GET", path, key), (status, JSON, body))

    def does(self, path, fields, wanted, key=desks.OPERATOR):
        """The reply to a command must have this body."""
        self.report.sees(f"POST {path}", self.reply("POST", path, key, json.dumps(fields)),
                         (200, JSON, readings.compact(wanted)))

    def gives(self, path):
        """Returns what a reading says, as JSON, or as lines of fields."""
        status, kind, body = self.reply("GET", path)
        if status != 200:
            raise desks.Broken(f"GET {path}: {status} {body}")
        return json.loads(body) if kind == JSON else [it.split(",") for it in body.splitlines()]

    def order(self, sender, reference, to, amount, wanted, due=None):
        """An order of a bank must be answered so."""
        fields = {"amount": amount, "reference": reference, "to": to, **({"due": due} if due else {})}
        self.does("/orders", fields, wanted, self.keys[sender])


def first(number, reference, to, amount):
    return {"amount": amount, "number": number, "reference": reference, "to": to}


def queue_of(code, its_first, queued, value, receivers, **more):
    """Returns what `/desk/queues` says of a bank, by its order of keys. All has no headroom."""
    short = its_first["amount"]
    found = {"code": code, "first": its_first, "headroom": 0, "queued": queued, "queued_value": value,
             "receivers": receivers, "settling": 0, "settling_value": 0, "short": short, **more}
    return {key: found[key] for key in sorted(found)}


def receiver(to, queued, value):
    return {"queued": queued, "queued_value": value, "to": to}


def status_of(date, phase, **more):
    """Returns what `/desk/status` says of a desk of three banks without money."""
    found = {"automatic": False, "date": date, "held": 0, "held_value": 0, "next_mark": 1, "next_order": 1,
             "next_posting": 1, "participants": 3, "phase": phase, "queued": 0, "queued_value": 0, "sum": 0,
             "tables": int(readings.tables_version()), "version": readings.program_version(), **more}
    return {key: found[key] for key in sorted(found) if found[key] is not None}


def first_day(desk):
    """A plain day: a gridlock is seen and resolved; orders are held, withdrawn and sent in a bank's name; a close
    rejects one."""
    desk.reads("/desk/status", status_of(None, "CLOSED"))
    desk.reads("/desk/queues", {"automatic": False, "phase": "CLOSED", "queues": []})
    desk.does("/desk/open", {"date": FIRST}, {"answer": "opened"})
    for number, (sender, to) in enumerate(((ONE, TWO), (TWO, THREE), (THREE, ONE)), 1):
        desk.order(sender, "R-1", to, 100, {"answer": "queued", "number": number, "place": 1})
    desk.order(ONE, "R-2", THREE, 40, {"answer": "queued", "number": 4, "place": 2})
    settles = {"settling": 1, "settling_value": 100}
    to_both = [receiver(TWO, 1, 100), receiver(THREE, 1, 40)]
    queues = [queue_of(ONE, first(1, "R-1", TWO, 100), 2, 140, to_both, **settles),
              queue_of(TWO, first(2, "R-1", THREE, 100), 1, 100, [receiver(THREE, 1, 100)], **settles),
              queue_of(THREE, first(3, "R-1", ONE, 100), 1, 100, [receiver(ONE, 1, 100)], **settles)]
    desk.reads("/desk/queues", {"automatic": False, "date": FIRST, "phase": "OPEN", "queues": queues})
    waits = {"first": first(1, "R-1", TWO, 100), "headroom": 0, "held": 0, "held_value": 0, "queued": 2,
             "queued_value": 140, "short": 100}
    desk.reads("/waiting", waits, key=desk.keys[ONE])
    desk.reads(f"/desk/queue/{ONE}", {"orders": [
        {"amount": 100, "number": 1, "place": 1, "reference": "R-1", "to": TWO},
        {"amount": 40, "number": 4, "place": 2, "reference": "R-2", "to": THREE}]})
    desk.does("/desk/resolve", {}, {"answer": "resolved", "count": 3, "mark": 1, "value": 300})
    row = "{},{},{},{},{},,{},{}\n"
    settled = [row.format(1, ONE, "R-1", TWO, 100, "settled", 1), row.format(2, TWO, "R-1", THREE, 100, "settled", 1),
               row.format(3, THREE, "R-1", ONE, 100, "settled", 1)]
    rows = [*settled, row.format(4, ONE, "R-2", THREE, 40, "queued", "")]
    desk.reads(f"/desk/orders/{FIRST}", "".join([readings.ORDERS, *rows]), CSV)
    desk.reads(f"/desk/marks/{FIRST}", readings.MARKS + "1,3,300\n", CSV)
    held_and_withdrawn(desk)
    statements(desk)
    desk.does("/desk/cutoff", {"date": FIRST}, {"answer": "cut off"})
    desk.does("/desk/close", {"date": FIRST}, {"answer": "closed", "rejected": 2})
    rejected = [it for it in desk.gives(f"/desk/orders/{FIRST}") if it[6] == "rejected"]
    desk.report.sees("what the close rejected", [it[0] for it in rejected], ["4", "6"])


def held_and_withdrawn(desk):
    """An order is held, and an order file is sent and an order withdrawn in a bank's name."""
    desk.order(TWO, "H-1", ONE, 60, {"answer": "held", "due": SECOND, "number": 5}, due=SECOND)
    held = {"amount": 60, "due": SECOND, "number": 5, "reference": "H-1", "to": ONE}
    desk.reads(f"/desk/held/{TWO}", {"orders": [held]})
    desk.reads("/held", {"orders": []}, key=desk.keys[ONE])
    text = f"reference,to,amount\nF-1,{ONE},70\nF-2,{TWO},5\n"
    rows = "reference,result,number,detail\nF-1,queued,6,1\nF-2,queued,7,2\n"
    sent = desk.reply("POST", f"/desk/batches/{THREE}", body=text)
    desk.report.sees("an order file in a bank's name", sent, (200, CSV, rows))
    again = [desk.reply("POST", f"/desk/batches/{THREE}", body=text),
             desk.reply("POST", "/batches", desk.keys[THREE], text)]
    desk.report.sees("the same file by both routes", *again)
    desk.reads(f"/desk/orders/{THREE}/F-2", {"amount": 5, "date": FIRST, "number": 7, "reference": "F-2",
                                             "state": "queued", "to": TWO})
    desk.does(f"/desk/orders/{THREE}/F-2/withdraw", {}, {"answer": "withdrawn", "number": 7})
    desk.refuses(f"/desk/orders/{THREE}/F-3", 404, 9)
    desk.refuses("/desk/queue/ZETA", 404, 1)
    desk.refuses("/desk/queues", 403, 68, desk.keys[ONE])
    desk.reads("/desk/status", status_of(FIRST, "OPEN", held=1, held_value=60, next_mark=2, next_order=8, queued=2,
                                         queued_value=110))


def statements(desk):
    """The operator is shown each bank's statement, as the bank is."""
    for code in BANKS:
        own = desk.reply("GET", f"/statements/{FIRST}", desk.keys[code])
        desk.report.sees(f"{code}'s statement", desk.reply("GET", f"/desk/statements/{code}/{FIRST}"), own)


def second_day(desk):
    """An automatic day: what was held came in, and money frees it at once."""
    desk.does("/desk/open", {"automatic": True, "date": SECOND}, {"answer": "opened"})
    desk.reads("/desk/status", status_of(SECOND, "OPEN", automatic=True, next_mark=2, next_order=8, queued=1,
                                         queued_value=60))
    desk.reads("/desk/queues", {"automatic": True, "date": SECOND, "phase": "OPEN", "queues": [
        queue_of(TWO, first(5, "H-1", ONE, 60), 1, 60, [receiver(ONE, 1, 60)])]})
    auto = {"count": 1, "mark": 2, "value": 60}
    posting = {"code": TWO, "reference": "P-1", "cents": 60}
    desk.does("/desk/post", posting, {"answer": "posted", "auto": auto, "number": 1})
    desk.reads(f"/desk/orders/{SECOND}", f"{readings.ORDERS}5,{TWO},H-1,{ONE},60,{SECOND},settled,2\n", CSV)
    desk.reads(f"/desk/marks/{SECOND}", f"{readings.MARKS}2,1,60\n", CSV)
    desk.does("/desk/cutoff", {"date": SECOND}, {"answer": "cut off"})
    desk.does("/desk/close", {"date": SECOND}, {"answer": "closed", "rejected": 0})


def third_day(desk):
    """A day without orders: each reading says so."""
    desk.does("/desk/open", {"date": THIRD}, {"answer": "opened"})
    desk.reads(f"/desk/orders/{THIRD}", readings.ORDERS, CSV)
    desk.reads(f"/desk/marks/{THIRD}", readings.MARKS, CSV)
    desk.reads("/desk/status", status_of(THIRD, "OPEN", next_mark=3, next_order=8, next_posting=2, sum=60))
    desk.does("/desk/cutoff", {"date": THIRD}, {"answer": "cut off"})
    desk.does("/desk/close", {"date": THIRD}, {"answer": "closed", "rejected": 0})


def days(folder, report):
    """Goes through the three days. Returns how many requests were sent."""
    book = f"{folder}/three.desk"
    desks.desk("init", book)
    for code, key in desks.KEYS.items():
        desks.desk("add", book, code, f"{code.title()} Bank", key)
    with desks.Server(book, CONNECTIONS) as server:
        desk = Desk(server, desks.KEYS, report)
        for day in (first_day, second_day, third_day):
            day(desk)
        server.kill()
    return desk.questions


# Random orders


class Random:
    """Random orders of many banks on a plain day, and what was counted of them."""

    def __init__(self, desk):
        self.desk, self.chance, self.counts = desk, random.Random(SEED), collections.Counter()
        self.codes = list(desk.keys)

    def sends(self, number):
        """Sends an order of a random bank to another one, some of them held."""
        sender, to = self.chance.sample(self.codes, 2)
        due = SECOND if self.chance.random() < 0.05 else None
        fields = {"amount": self.chance.randint(1, 500), "reference": f"A-{number}", "to": to}
        fields |= {"due": due} if due else {}
        status, _, body = self.desk.reply("POST", "/orders", self.desk.keys[sender], json.dumps(fields))
        self.counts[json.loads(body)["answer"] if status == 200 else "refused"] += 1

    def compares(self):
        """Compares all readings with each other, then with what a resolution does."""
        desk, queues = self.desk, self.desk.gives("/desk/queues")["queues"]
        accounts = {it["code"]: it for it in desk.gives("/desk/accounts")["accounts"]}
        orders = [readings.Listed(*it) for it in desk.gives(f"/desk/orders/{FIRST}")[1:]]
        later = [readings.Listed(*it) for it in desk.gives(f"/desk/orders/{SECOND}")[1:]]
        desk.report.sees("queues, of the day's orders", queues, readings.queues_of(orders, accounts))
        waits = {"queued": [it for it in orders if it.state == "queued"],
                 "held": [it for it in later if it.state == "held"]}
        status = desk.gives("/desk/status")
        for what, them in waits.items():
            found = status[what], status[f"{what}_value"]
            desk.report.sees(f"how many are {what}", found, (len(them), sum(int(it.amount) for it in them)))
        for code in self.chance.sample(self.codes, 3):
            self.compares_bank(code, accounts[code], queues, waits["held"])
        self.resolves(queues)

    def compares_bank(self, code, account, queues, held):
        """Compares what a bank is told of why it waits with what the operator is."""
        own = json.loads(self.desk.reply("GET", "/waiting", self.desk.keys[code])[2])
        listed = next((it for it in queues if it["code"] == code), {"short": 0})
        wanted = {key: listed[key] for key in ("first", "short") if key in listed}
        mine = [it for it in held if it.sender == code]
        value = sum(int(it.amount) for it in mine)
        wanted |= {"headroom": account["balance"] + account["credit"], "queued": account["queued"],
                   "queued_value": account["queued_value"], "held": len(mine), "held_value": value}
        self.desk.report.sees(f"why {code} waits", own, wanted)
        found = [it["number"] for it in self.desk.gives(f"/desk/held/{code}")["orders"]]
        self.desk.report.sees(f"what {code} has held", found, [int(it.number) for it in mine])
        self.counts["banks compared"] += 1

    def resolves(self, queues):
        """A resolution settles what was said before it."""
        count, value = (sum(it[key] for it in queues) for key in ("settling", "settling_value"))
        body = json.loads(self.desk.reply("POST", "/desk/resolve", body="{}")[2])
        said = (body["count"], body["value"]) if body["answer"] == "resolved" else (0, 0)
        self.desk.report.sees("what a resolution settles", said, (count, value))
        self.counts["settled by resolutions"] += count
        self.counts["resolutions of several queues"] += sum(it["settling"] > 0 for it in queues) > 1
        left = {it["code"]: it["queued"] for it in self.desk.gives("/desk/queues")["queues"]}
        wanted = {it["code"]: it["queued"] - it["settling"] for it in queues if it["queued"] > it["settling"]}
        self.desk.report.sees("what a resolution leaves", left, wanted)


def random_orders(folder, report):
    """Sends random orders, and compares all readings between them. Returns what was counted."""
    book, keys = f"{folder}/random.desk", {f"BANK{it:02}": f"{it:032x}" for it in range(1, MANY_BANKS + 1)}
    desks.desk("init", book)
    for at, (code, key) in enumerate(keys.items()):
        desks.desk("add", book, code, "A Bank", key)
        desks.desk("post", book, code, f"P-{at}", "300")
        desks.desk("credit", book, code, str(at % 3 * 100))
    desks.desk("open", book, FIRST)
    with desks.Server(book, CONNECTIONS) as server:
        found = Random(Desk(server, keys, report))
        for number in range(1, ORDERS + 1):
            found.sends(number)
            if number % BETWEEN == 0:
                found.compares()
        server.kill()
    found.counts["comparisons"] = ORDERS // BETWEEN
    return found.counts


def run(_given, report):
    with desks.room() as folder:
        questions = days(folder, report)
        report.finds(f"three days over HTTP alone: {questions} requests")
        counts = random_orders(folder, report)
    for what in sorted(counts):
        report.finds(f"{counts[what]:>6} {what}")
        report.counts(counts[what] > 0)
    report.sums(f"{report.right} things as they must be, {report.wrong} not")
