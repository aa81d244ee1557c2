"""Random commands of business days, drawn by a seeded generator: a seed gives the same commands again, as long as the
desk gives the same replies."""
import json
import math
import random
import typing

from lib import desks

# how often each kind is drawn, of a hundred
KINDS = {"order": 68, "batch": 2, "withdrawal": 14, "credit": 6, "posting": 6, "repeat": 2, "stray": 2}
# to whom most orders of a day go: to any bank, to the next one in a ring or in a chain, or to the first
PATTERNS = ("any", "ring", "chain", "star")
PATTERNED, DUE, HELD, MOST_ROWS = 0.8, 0.06, 0.1, 12
# how often the bank that was to get the last order sends the next one, in a ring or a chain
PASSED_ON = 0.7
PLACES = {"front": 0, "middle": 0.5, "end": 1}


class Terms(typing.NamedTuple):
    """What the commands of a book are drawn from: how many banks it has, the least and the greatest amount of an order
    in cents, and the most that a bank has at first."""

    banks: int
    least: int
    most: int
    money: int


class Command(typing.NamedTuple):
    """A command: its kind in words, the caller's key, the path, and the body or the orders of a batch."""

    kind: str
    key: str
    path: str
    body: typing.Any

    def request(self):
        """Returns the request of the command, which is no batch."""
        return desks.request("POST", self.path, self.key, json.dumps(self.body))


def batch(key, orders):
    """Returns the request of a batch of these orders."""
    rows = "".join(f"{it['reference']},{it['to']},{it['amount']},{it.get('due', '')}\n" for it in orders)
    return desks.request("POST", "/batches", key, f"reference,to,amount,due\n{rows}")


def key_of(code):
    """Returns the key of a bank."""
    return code.encode().hex().ljust(32, "0")


class Drawer:
    """Draws the commands of a book, by this seed and these terms, with due dates as often as is said. It keeps what was
    sent."""

    def __init__(self, seed, terms, due=DUE):
        self.chance, self.terms, self.due = random.Random(seed), terms, due
        self.codes = [f"BANK{it:02}" for it in range(terms.banks)]
        self.sent = {it: [] for it in self.codes}
        self.credit = dict.fromkeys(self.codes, 0)
        self.postings, self.orders, self.day, self.pattern, self.to = 0, 0, 0, PATTERNS[0], None

    def begin_day(self):
        """Goes to the next weekday, and draws to whom its orders go."""
        self.day += 1
        self.pattern = self.chance.choice(PATTERNS)
        return self.date()

    def date(self, later=0):
        """Returns the date of the day, or of the weekday that is this many later."""
        return desks.weekday(self.day + later)

    def amount(self):
        """Returns an amount: as often one of two digits as one of three."""
        low, high = math.log(self.terms.least), math.log(self.terms.most + 1)
        return min(self.terms.most, int(math.exp(self.chance.uniform(low, high))))

    def receiver(self, sender):
        """Returns a bank other than the sender, by the pattern of the day."""
        at = self.codes.index(sender)
        follows = {"ring": (at + 1) % len(self.codes), "chain": min(at + 1, len(self.codes) - 1), "star": 0}
        found = self.codes[follows.get(self.pattern, at)]
        if found == sender or self.chance.random() > PATTERNED:
            return self.chance.choice([it for it in self.codes if it != sender])
        return found

    def new_order(self, sender):
        """Returns the body of an order that was not sent before."""
        self.orders += 1
        number = len(self.sent[sender]) + 1
        body = {"amount": self.amount(), "reference": f"A-{number}", "to": self.receiver(sender)}
        self.to = body["to"]
        if self.chance.random() < self.due:
            body["due"] = self.date(self.chance.randint(1, 4))
        self.sent[sender].append(body)
        return body

    def posting(self, code, cents):
        """Returns a posting of these cents to a bank."""
        self.postings += 1
        body = {"cents": cents, "code": code, "reference": f"P-{self.postings}"}
        return Command(f"posting {'in' if cents > 0 else 'out'}", desks.OPERATOR, "/desk/post", body)

    def set_credit(self, code, credit):
        """Returns the command that gives a bank this limit."""
        kind = "credit raised" if credit > self.credit[code] else "credit lowered"
        return Command(kind, desks.OPERATOR, "/desk/credit", {"code": code, "credit": credit})

    def command(self, kinds, queue_of):
        """Returns a command of one of these kinds. What a bank has queued is asked for by `queue_of`."""
        kind = self.chance.choices(kinds, [KINDS[it] for it in kinds])[0]
        code = self.chance.choice(self.codes)
        if kind == "withdrawal":
            return self.withdrawal(code, queue_of)
        return {"order": self.order, "batch": self.batch, "credit": self.new_credit, "posting": self.new_posting,
                "repeat": self.repeat, "stray": self.stray}[kind](code)

    def order(self, code):
        if self.to and self.pattern in ("ring", "chain") and self.chance.random() < PASSED_ON:
            code = self.to
        return Command("order", key_of(code), "/orders", self.new_order(code))

    def batch(self, code):
        rows = [self.new_order(code) for _ in range(self.chance.randint(2, MOST_ROWS))]
        return Command("batch", key_of(code), "/batches", rows)

    def new_credit(self, code):
        step = self.amount() if self.chance.random() < 0.5 else -self.amount()
        return self.set_credit(code, max(0, self.credit[code] + step))

    def new_posting(self, code):
        return self.posting(code, self.amount() if self.chance.random() < 0.5 else -self.amount())

    def repeat(self, code):
        """Returns an order that the bank sent before, as it was or with another amount."""
        if not self.sent[code]:
            return self.order(code)
        body = self.chance.choice(self.sent[code])
        if self.chance.random() < 0.3:
            body = {**body, "amount": body["amount"] + 1}
        return Command("order again", key_of(code), "/orders", body)

    def stray(self, code):
        """Returns an order that is refused on every day."""
        good = {"amount": self.amount(), "reference": f"S-{self.orders}", "to": self.receiver(code)}
        others = ({"to": "ZETA"}, {"to": code}, {"amount": 0}, {"due": self.date()}, {"due": "2024-03-09"})
        return Command("order to be refused", key_of(code), "/orders", {**good, **self.chance.choice(others)})

    def withdrawal(self, code, queue_of):
        """Returns the withdrawal of a queued order from some place in its queue, or else of any order."""
        queue = [it["reference"] for it in queue_of(code)]
        place = self.chance.choice(list(PLACES))
        if queue and self.chance.random() > HELD:
            reference = queue[int(PLACES[place] * (len(queue) - 1))]
            kind = f"withdrawal, {place} of a queue" if len(queue) > 2 else "withdrawal, short queue"
            return self.withdrawal_of(kind, code, reference)
        held = [it["reference"] for it in self.sent[code] if it.get("due", "") > self.date()]
        others = held or [it["reference"] for it in self.sent[code]] or ["A-1"]
        return self.withdrawal_of("withdrawal of another order", code, self.chance.choice(others))

    def withdrawal_of(self, kind, code, reference):
        return Command(kind, key_of(code), f"/orders/{reference}/withdraw", {})
