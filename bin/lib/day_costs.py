"""What commands of an automatic day cost beside those of a plain day, over copies of one book in which orders wait.

The kinds of a series follow each other over one server, so that what one gives the next one can take.
"""
import collections
import itertools
import json
import shutil
import statistics
import typing

from lib import desks, plain, queues, resolutions
from lib.queues import BANKS, PAYER, code_of
from lib.random_commands import key_of

# what part of the orders that wait each kind of withdrawal takes back, at most
WITHDRAWN = 5
# the amounts of commands in cents: small ones, and such as those of the orders that wait
SMALL, LARGE = (1, 500), queues.DRAWN
PLAIN, AUTOMATIC = DAYS = ("plain", "automatic")


class Told(typing.NamedTuple):
    """What commands of one kind took on a day, each: microseconds, and those of a processor; and how many orders fewer
    wait after them."""

    taken: float
    processor: float
    left: int


class Commands:
    """A number of commands of each kind, over a book in which orders wait, with amounts in these bounds."""

    def __init__(self, shape, bounds, many):
        self.shape, self.bounds, self.many = shape, bounds, many

    def each(self):
        """Yields the number of each command, its bank, and its amount: banks take turns, and each bank's amounts are
        the same for each kind."""
        least, most = self.bounds
        for it in range(self.many):
            yield it, it % BANKS, least + it * 7919 % (most - least + 1)

    def settle(self, _):
        """A batch of orders that settle at once, each to a bank with a queue."""
        rows = "".join(f"S-{at},{code_of(bank)},{amount}\n" for at, bank, amount in self.each())
        return [desks.request("POST", "/batches", key_of(PAYER), f"reference,to,amount\n{rows}")]

    def settle_singly(self, _):
        """The same, each in a request of its own."""
        return [desks.order(key_of(PAYER), code_of(bank), f"1-{at}", amount) for at, bank, amount in self.each()]

    def post_in(self, _):
        return [posting(bank, f"I-{at}", amount) for at, bank, amount in self.each()]

    def post_out(self, _):
        return [posting(bank, f"O-{at}", -amount) for at, bank, amount in self.each()]

    def raise_credit(self, _):
        limits = [0] * BANKS
        return [credit(bank, limits, amount) for _, bank, amount in self.each()]

    def lower_credit(self, _):
        limits = [0] * BANKS
        for _, bank, amount in self.each():
            limits[bank] += amount
        return [credit(bank, limits, -amount) for _, bank, amount in self.each()]

    def withdraw(self, server, place):
        """The withdrawals of orders from this place of the queues, by turns, of a part of all."""
        waiting = queues.queues_in(server)
        most = min(self.many, sum(map(len, waiting.values())) // WITHDRAWN)
        return [desks.request("POST", f"/orders/{reference}/withdraw", key_of(code), "{}")
                for code, reference in itertools.islice(in_turn(waiting, place), most)]

    def withdraw_first(self, server):
        return self.withdraw(server, 0)

    def withdraw_middle(self, server):
        return self.withdraw(server, 0.5)

    def withdraw_last(self, server):
        return self.withdraw(server, 1)

    def queue(self, server):
        """Orders that are queued. The first of a bank without a queue is as large as those that wait."""
        requests, places = [], {it: len(queue) for it, queue in queues.queues_in(server).items()}
        for at, bank, amount in self.each():
            code = code_of(bank)
            to, more = queues.SHAPES[self.shape](bank, places[code])
            large = 0 if places[code] else int(queues.DRAWN[1] * (1 + more))
            places[code] += 1
            requests.append(desks.order(key_of(code), queues.receiver_of(to), f"Q-{at}", amount + large))
        return requests


def in_turn(waiting, place):
    """Yields banks and their orders of this place of what is left of their queues, one of each bank after another."""
    codes = collections.deque(code for code, queue in waiting.items() if queue)
    while codes:
        code = codes.popleft()
        yield code, waiting[code].pop(int(place * (len(waiting[code]) - 1)))
        if waiting[code]:
            codes.append(code)


def posting(bank, reference, cents):
    body = json.dumps({"cents": cents, "code": code_of(bank), "reference": reference})
    return desks.request("POST", "/desk/post", desks.OPERATOR, body)


def credit(bank, limits, more):
    """Returns the request that raises or lowers the limit of a bank."""
    limits[bank] += more
    body = json.dumps({"code": code_of(bank), "credit": limits[bank]})
    return desks.request("POST", "/desk/credit", desks.OPERATOR, body)


KINDS = {
    "credit limit raised": Commands.raise_credit,
    "credit limit lowered": Commands.lower_credit,
    "posting in": Commands.post_in,
    "posting out": Commands.post_out,
    "settles at once, in a batch": Commands.settle,
    "settles at once": Commands.settle_singly,
    "withdrawn, last of a queue": Commands.withdraw_last,
    "withdrawn, in the middle": Commands.withdraw_middle,
    "withdrawn, first of a queue": Commands.withdraw_first,
    "queued": Commands.queue,
}
# large amounts free orders, so that each kind has a copy of its own, and what was given cannot be taken
OF_LARGE = (["credit limit raised"], ["posting in"], ["settles at once, in a batch"], ["settles at once"],
            ["withdrawn, last of a queue", "queued"])
SERIES = {SMALL: [list(KINDS)], LARGE: OF_LARGE}
# (its orders are one request)
IN_A_BATCH = "settles at once, in a batch"
# what a command of each kind is answered
ANSWERS = {"credit": "credit set", "posting": "posted", "settles": "settled", "withdrawn": "withdrawn",
           "queued": "queued"}
# (more than are needed: servers are killed)
CONNECTIONS = 100000


def measured(programs, server, kind, commands):
    """Returns what the commands of a kind took, or nothing where there is none."""
    requests = KINDS[kind](commands, server)
    if not requests:
        return None
    many = commands.many if kind == IN_A_BATCH else len(requests)
    waiting, before = queues.waiting_in(server), server.processor_time()
    taken = plain.seconds(programs, server.port, requests)
    processor = server.processor_time() - before
    return Told(taken * 1e6 / many, processor * 1e6 / many, waiting - queues.waiting_in(server))


def counted(folder, book, commands):
    """Returns how many resolutions there were for a command of each kind, over copies of a book on an automatic day."""
    found = {}
    for kinds in SERIES[commands.bounds]:
        with resolutions.Server(folder, copied(book, AUTOMATIC), CONNECTIONS) as server:
            found.update({kind: counted_of_a_kind(server, kind, commands) for kind in kinds})
            server.kill()
    return found


def counted_of_a_kind(server, kind, commands):
    """Returns how many resolutions there were for a command of a kind. Each must have the answer of its kind; but among
    large orders that free others, some of those that are to be queued may settle."""
    requests, before = KINDS[kind](commands, server), server.count()
    answered = sum(answers(kind, server.asked(it)) for it in requests)
    many = commands.many if kind == IN_A_BATCH else len(requests)
    if answered != many and commands.bounds == SMALL:
        raise desks.Broken(f"{kind}: {answered} of {many} commands were answered so")
    return (server.count() - before) / many if many else 0


def answers(kind, reply):
    """Returns how many commands of a kind a reply answers as it must."""
    answer = ANSWERS[kind.split()[0].rstrip(",")]
    return reply.count(f",{answer},".encode() if kind == IN_A_BATCH else f'"answer":"{answer}"'.encode())


def copied(book, day):
    """Returns the path of a copy of a book, with a day of this kind."""
    copy = f"{book}.{day}"
    desks.remove(copy)
    shutil.copyfile(book, copy)
    if day == AUTOMATIC:
        desks.stock(copy, queues.AUTOMATIC)
    return copy


def of_a_series(programs, book, day, commands, kinds):
    """Returns what each of these kinds took over a copy of a book, on a day of this kind."""
    with desks.Server(copied(book, day), CONNECTIONS) as server:
        found = {kind: measured(programs, server, kind, commands) for kind in kinds}
        server.kill()
    return found


def rounds(programs, book, commands, many):
    """Returns what each kind took, on each day, in this many rounds: each round begins with another day."""
    found = {day: [{} for _ in range(many)] for day in DAYS}
    for at, kinds, turn in itertools.product(range(many), SERIES[commands.bounds], (0, 1)):
        day = DAYS[(at + turn) % 2]
        found[day][at].update(of_a_series(programs, book, day, commands, kinds))
    return found


def loads_of(found, kind):
    """Returns how many times a plain day's processor time a kind took in each round, or nothing where it had none."""
    beside, automatic = ([it[kind] for it in found[day]] for day in DAYS)
    return [a.processor / b.processor for a, b in zip(automatic, beside)] if automatic[0] else []


def row(found):
    """Returns the medians of all kinds as a row of docs/COSTS.md."""
    loads = [loads_of(found, kind) if kind in found[PLAIN][0] else [] for kind in KINDS]
    return " | ".join(f"{statistics.median(it):.2f}" if it else "" for it in loads)


def tell(found, resolved):
    """Tells what each kind took, on either day, how many times as much on the automatic one, and how many resolutions
    there were for each command."""
    for kind in found[PLAIN][0]:
        beside, automatic = ([it[kind] for it in found[day]] for day in DAYS)
        if automatic[0]:
            ratios = [a.taken / b.taken for a, b in zip(automatic, beside)]
            took = [desks.told([it.processor for it in them], 0) for them in (beside, automatic)]
            words = [f"{desks.told(it, 2):24}" for it in (loads_of(found, kind), ratios)] + [f"{it:22}" for it in took]
            freed = automatic[0].left - beside[0].left
            print(f"  {kind:28}{''.join(words)}{freed:6}  {resolved[kind]:.3f}", flush=True)
