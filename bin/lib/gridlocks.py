"""A book of twelve banks in which a gridlock can be made: two rings that a resolution settles, one of them over orders
behind the first, and two banks that nobody pays. And a book of as many banks as may be, each with an order to each."""
from lib import desks, queues

FIRST, SECOND, THIRD = "2024-03-04", "2024-03-05", "2024-03-06"
# each bank's name, its money and its credit limit, in thousands of units
BANKS = {
    "ALFA": ("Alfa Bank", 2100, 500), "BETA": ("Beta Commercial", 1350, 250), "DELTA": ("Delta Credit", 900, 0),
    "EPSI": ("Epsilon Savings", 1750, 400), "ETA": ("Eta Mutual", 420, 0), "GAMA": ("Gama Bank", 1100, 0),
    "IOTA": ("Iota Clearing", 8200, 0), "KAPPA": ("Kappa Trust", 300, 200), "LAMDA": ("Lamda Bank", 640, 0),
    "OMEGA": ("Omega National", 12500, 0), "THETA": ("Theta Cooperative", 510, 0),
    "ZETA": ("Zeta Development", 760, 100),
}
KEYS = {code: f"{number:032x}" for number, code in enumerate(BANKS, 10)}
# the orders of the first day, in cents, which all settle
SETTLED = (("IOTA", "ALFA", 25000000), ("IOTA", "OMEGA", 4310055), ("IOTA", "ZETA", 990000))
# The orders of the gridlock, in thousands of units: a ring of five banks, then orders behind its first ones, a ring of
# three of which ETA's way leads over both of its orders, and two banks that no ring pays.
ORDERS = (
    ("ALFA", "BETA", 4200), ("BETA", "GAMA", 3900), ("GAMA", "DELTA", 3650), ("DELTA", "EPSI", 3800),
    ("EPSI", "ALFA", 4050), ("ALFA", "IOTA", 180), ("BETA", "IOTA", 260), ("EPSI", "OMEGA", 90),
    ("ZETA", "ETA", 1500), ("ETA", "ZETA", 700), ("ETA", "THETA", 1250), ("THETA", "ZETA", 1300),
    ("THETA", "OMEGA", 240), ("KAPPA", "LAMDA", 2000), ("LAMDA", "OMEGA", 1700), ("LAMDA", "ALFA", 350),
)
RINGS = (("ALFA", "BETA", "DELTA", "EPSI", "GAMA"), ("ETA", "THETA", "ZETA"))
# how many orders of the gridlock a resolution settles at first, and once KAPPA has what it lacks
SETTLING, SETTLING_WITH_KAPPA = 10, 13
CROWD = [f"BANK{number:04}" for number in range(100)]


def cents(thousands):
    """Returns thousands of units in cents."""
    return thousands * 100000


def order_file(rows):
    """Returns the text of an order file of references, receivers and amounts."""
    return "".join(["reference,to,amount\n", *(f"{reference},{to},{amount}\n" for reference, to, amount in rows)])


def write(path, text):
    with open(path, "w", encoding="ascii") as it:
        it.write(text)


def make(book):
    """Makes the book of twelve banks: their money, and a first day that is closed."""
    desks.desk("init", book)
    for number, (code, (name, money, credit)) in enumerate(BANKS.items(), 1):
        desks.desk("add", book, code, name, KEYS[code])
        if credit:
            desks.desk("credit", book, code, str(cents(credit)))
        desks.desk("post", book, code, f"P-{number}", str(cents(money)))
    desks.desk("open", book, FIRST)
    rows = [(f"I-{number}", to, amount) for number, (_, to, amount) in enumerate(SETTLED, 1)]
    write(f"{book}.csv", order_file(rows))
    desks.desk("import", book, "IOTA", f"{book}.csv")
    desks.desk("cutoff", book, FIRST)
    desks.desk("close", book, FIRST)


def balances():
    """Returns the balance of each bank after the first day."""
    found = {code: cents(money) for code, (_, money, _) in BANKS.items()}
    for sender, to, amount in SETTLED:
        found[sender] -= amount
        found[to] += amount
    return found


def send(port):
    """Sends the orders of the gridlock to the desk at a port, each with its bank's key."""
    for number, (sender, to, thousands) in enumerate(ORDERS, 1):
        desks.asked(port, desks.order(KEYS[sender], to, number, cents(thousands)))


def make_crowd(book):
    """Makes the book of a hundred banks without money, each of which has queued an order to each other one."""
    pairs = [(sender, to) for sender in CROWD for to in CROWD if to != sender]
    payments = [(number, sender, f"TO-{to}", to, 10 ** 12, FIRST, queues.QUEUED, None)
                for number, (sender, to) in enumerate(pairs, 1)]
    queues.write_book(book, dict.fromkeys(CROWD, 0), payments)
