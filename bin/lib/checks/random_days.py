"""Random commands of automatic days end as they do on plain days on which each is followed by `resolve`.

Two books are given the same commands over HTTP: orders, batches, withdrawals from any place of a queue, credit limits,
postings, repeats, and what is refused. The days of one book are automatic; those of the other are plain, and `resolve`
follows each command. Each reply must be the same, and what it says of the resolution that followed
must be what `resolve` settled. At the end of each day accounts, queues, the report and all statements must be the same,
and at the end of a book all rows of its tables: balances, the state and mark of each order, and each mark's count and
value.

There is one long day of a hundred banks, and there are many short days of a few banks that pay each other a few cents,
where resolutions settle something often: rings, chains, withdrawals, the cut-off, openings that let held orders in, and
servers that are killed and begin again. Each kind of command must have been met, and each must have been followed by a
resolution that settled something. The seed is told: with it the same days come again. Needs the stock `sqlite3`.

Shows: that on these days no command of an automatic day leaves anything that `resolve` would settle, and that all that
is read and kept is the same.
Cannot show: days that chance did not make.
"""
import random

from lib import desks
from lib.random_commands import Drawer, KINDS, Terms
from lib.two_days import CLOSED, CUT_OFF, Differs, Pair

NEEDS = ("sqlite3",)
LONG = Terms(100, 100, 1000000, 500000)
# what a short book has at most: the amount of an order, and what each bank has at first
SHORT_MOST, SHORT_MONEY = (2, 5, 30, 1000), (0, 3, 40)
# how often a short day begins without any money
DRY = 0.6
# of a thousand commands of short days, before how many the server begins again
BEGINS_AGAIN = 8
DAYS_OF_A_BOOK = 6
AFTER_THE_CUT_OFF = [it for it in KINDS if it != "batch"]
# what must have been met, in the long day and in short ones
FOLLOWED = ": a resolution settled something"
MET = ("order, settled", "order, queued", "order, held", "order again, repeated", "order again, refused 4",
       "order of a batch, settled", "order of a batch, queued", "withdrawal, front of a queue, withdrawn",
       "withdrawal, middle of a queue, withdrawn", "withdrawal, end of a queue, withdrawn", "credit raised, credit set",
       "credit lowered, credit set", "credit lowered, refused 6", "posting in, posted", "posting out, posted",
       "posting out, refused 6", "order, settled" + FOLLOWED, "posting in, posted" + FOLLOWED,
       "credit raised, credit set" + FOLLOWED, "resolutions of several orders", "comparisons of a day")
MET_IN_SHORT_DAYS = (
    *MET, "order, queued" + FOLLOWED, "order of a batch, settled" + FOLLOWED, "order of a batch, queued" + FOLLOWED,
    "withdrawal, front of a queue, withdrawn" + FOLLOWED, "withdrawal, short queue, withdrawn" + FOLLOWED,
    "opening, opened", "opening, opened" + FOLLOWED, "posting in, posted after the cut-off" + FOLLOWED,
    "credit raised, credit set after the cut-off" + FOLLOWED, "order, refused 5 after the cut-off",
    "withdrawal of another order, withdrawn", "withdrawal of another order, refused 17", "begun again",
    *(f"order to be refused, refused {it}" for it in (2, 3, 16, 20, 32)))


def options(words):
    words.add_argument("--orders", type=int, default=20000, help="how many orders the long day has: 20000 if not given")
    words.add_argument("--days", type=int, default=300, help="how many short days there are: 300 if not given")
    words.add_argument("--seed", type=int, help="what the commands are drawn by: drawn itself if not given")


def run(given, report):
    seed = random.SystemRandom().randrange(10**9) if given.seed is None else given.seed
    report.finds(f"seed {seed}")
    long, short, commands = f"a day of {given.orders} orders", f"{given.days} short days", 0
    with desks.room() as folder:
        if given.orders:
            counts = played(folder, Drawer(f"{seed} long", LONG), long_day(given.orders), report)
            commands += judge(long, counts, MET, report)
        if given.days:
            commands += judge(short, short_days(folder, seed, given.days, report), MET_IN_SHORT_DAYS, report)
    report.sums(f"{long} and {short}, {commands} commands over two books: {report.right} things as they must be, "
                f"{report.wrong} not")


def played(folder, drawer, days, report):
    """Returns what was counted in a book's days. They end where the books differ, which is found."""
    pair = Pair(folder, drawer)
    try:
        with pair:
            days(pair)
        pair.compare_books()
    except Differs as why:
        report.finds(f"{drawer.terms}: {why}")
    report.counts(pair.counts["rows of payment"])
    return pair.counts


def long_day(orders):
    """Returns what plays a day of this many orders."""
    def play(pair):
        for code in pair.drawer.codes:
            pair.give(pair.drawer.posting(code, pair.drawer.terms.money))
        pair.open_day()
        pair.drawer.pattern = "any"
        while pair.drawer.orders < orders:
            pair.give(pair.drawer.command(list(KINDS), pair.queue_of))
        end(pair)

    return play


def short_days(folder, seed, days, report):
    """Plays this many short days, some in each book, and returns what was counted."""
    chance, counts = random.Random(f"{seed} short"), None
    for at in range(0, days, DAYS_OF_A_BOOK):
        terms = Terms(chance.randint(3, 8), 1, chance.choice(SHORT_MOST), chance.choice(SHORT_MONEY))
        drawer = Drawer(f"{seed} {at}", terms)
        found = played(folder, drawer, short_book(min(days - at, DAYS_OF_A_BOOK)), report)
        counts = found + counts if counts else found
        if report.wrong:
            report.finds(f"it was the book of the short days from {at + 1} on")
            return counts
    return counts


def short_book(days):
    """Returns what plays this many short days of one book."""
    def play(pair):
        for code in pair.drawer.codes:
            if pair.drawer.chance.random() < 0.7 and pair.drawer.terms.money:
                pair.give(pair.drawer.posting(code, pair.drawer.chance.randint(1, pair.drawer.terms.money)))
        for _ in range(days):
            short_day(pair)

    return play


def short_day(pair):
    chance = pair.drawer.chance
    if chance.random() < DRY:
        take_all(pair)
    pair.open_day()
    for _ in range(chance.randint(20, 150)):
        if chance.random() < BEGINS_AGAIN / 1000:
            pair.begin_again()
        pair.give(pair.drawer.command(list(KINDS), pair.queue_of))
    end(pair)
    give_some(pair, chance.randint(0, 4))


def give_some(pair, many):
    """Gives this many commands, where orders are refused."""
    for _ in range(many):
        pair.give(pair.drawer.command(AFTER_THE_CUT_OFF, pair.queue_of))


def take_all(pair):
    """Takes from each bank what it has."""
    for it in pair.read("/desk/accounts")["accounts"]:
        if it["balance"]:
            pair.give(pair.drawer.posting(it["code"], -it["balance"]))


def end(pair):
    """Cuts the day off, gives some commands more, and closes it, once each bank was given what it lacks."""
    pair.end_day("/desk/cutoff", CUT_OFF)
    give_some(pair, pair.drawer.chance.randint(5, 25))
    pair.compare()
    while lacking := [it for it in pair.read("/desk/accounts")["accounts"] if it["lacking"]]:
        pair.give(pair.drawer.posting(lacking[0]["code"], lacking[0]["lacking"]))
    pair.end_day("/desk/close", CLOSED)
    pair.compare()


def judge(what, counts, met, report):
    """Tells what was counted, and sees that all was met. Returns how many commands were given."""
    report.finds(f"{what}:")
    for it in sorted(counts):
        report.finds(f"{counts[it]:8} {it}")
    for it in met:
        report.sees(f"{what}: {it}", counts[it] > 0, True)
    return counts["commands"]
