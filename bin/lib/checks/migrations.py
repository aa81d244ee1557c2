"""Migrates books with tables of each earlier version, and looks at them with the stock sqlite3.

Makes books by commands, and of each a copy with tables of each earlier version that can hold it. Every command but
`init` and `migrate` refuses the copy with 93. Once it is migrated, its dump and all that the desk shows of it are those
of the book. Then it migrates books of these versions that are broken, each by one rule or form: they must be refused
with that rule or with 93, and no byte of their files may change.

Shows: that a migrated book has the tables and the readings of a new one, and that a broken book stays as it is.
Cannot show: what a crash within a migration leaves.
"""
import shutil

from lib import desks, runs

NEEDS = ("sqlite3",)
KEYS, DAYS = desks.KEYS, ["2024-03-04", "2024-03-05", "2024-03-06", "2024-03-07"]

NEW = ["init @", *[f"add @ {code} {code} {key}" for code, key in KEYS.items()], "post @ BETA P-0 20"]
DAY = [*NEW, "credit @ ALFA 10", "open @ 2024-03-04", "post @ ALFA P-1 150",
       "import @ ALFA A-1,BETA,100 A-2,GAMA,50 A-3,BETA,25 A-4,GAMA,25", "withdraw @ ALFA A-3"]
TWO_DAYS = [*DAY, "import @ GAMA G-1,ALFA,60", "import @ BETA B-1,GAMA,130", "resolve @", "import @ GAMA G-2,BETA,900",
            "cutoff @ 2024-03-04", "close @ 2024-03-04", "post @ GAMA P-2 7", "open @ 2024-03-05",
            "import @ BETA B-2,ALFA,3 B-3,GAMA,5000", "cutoff @ 2024-03-05"]
# orders with a due date behind their amount: held, withdrawn while they were, settled, rejected, and one that waits
DUES = [*DAY, "import @ ALFA A-5,BETA,30,2024-03-05 A-6,GAMA,40,2024-03-05 A-7,BETA,2,2024-03-06 A-8,BETA,1,2024-03-06",
        "import @ BETA B-1,ALFA,7,2024-03-05 B-2,GAMA,400,2024-03-05", "cutoff @ 2024-03-04", "withdraw @ ALFA A-8",
        "close @ 2024-03-04", "open @ 2024-03-05", "resolve @", "cutoff @ 2024-03-05", "close @ 2024-03-05",
        "open @ 2024-03-06", "import @ GAMA G-1,BETA,900,2024-03-07"]
BOOKS = {"a new book": NEW, "an open day": DAY, "two days": TWO_DAYS, "due dates": DUES}
# The first version of tables that can hold such a book, where it is not the first of all.
SINCE = {"due dates": 2}

# What every command but `init` and `migrate` refuses, in the words of the program.
OTHERS = [f"add @ DELTA Delta {'d' * 32}", "credit @ ALFA 1", "post @ ALFA P-9 1", "open @ 2024-03-06",
          "open @ 2024-03-06 --automatic", "import @ ALFA A-9,BETA,1", "resolve @", "cutoff @ 2024-03-05",
          "close @ 2024-03-05", "withdraw @ ALFA A-4", "account @ ALFA", "accounts @", "queue @ ALFA",
          "order @ ALFA A-1", "statement @ ALFA 2024-03-04", "report @ 2024-03-04", "held @ ALFA", "waiting @ ALFA",
          "queues @", "status @", "orders @ 2024-03-04", "marks @ 2024-03-04",
          f"serve @ --port 1 --count 1 --operator-key {'f' * 32}"]
TOLD = [*[f"report @ {day}" for day in DAYS], *[f"statement @ {code} {day}" for code in KEYS for day in DAYS],
        *[f"{reading} @ {code}" for code in KEYS for reading in ("account", "queue")],
        *[f"order @ {code} {code[0]}-{number}" for code in KEYS for number in range(1, 9)]]


def anew(table, columns, rows):
    """Makes a table of the book again, without what is unique in it."""
    return f"CREATE TABLE x ({columns}) STRICT; INSERT INTO x SELECT {rows} FROM {table}; DROP TABLE {table}; " \
        f"ALTER TABLE x RENAME TO {table}"


PARTICIPANT = "code TEXT NOT NULL, name TEXT NOT NULL, key BLOB NOT NULL, credit INTEGER NOT NULL, " \
    "balance INTEGER NOT NULL"
POSTING = "number INTEGER PRIMARY KEY, code TEXT NOT NULL, reference TEXT NOT NULL, cents INTEGER NOT NULL, date TEXT"
PAYMENT = "number INTEGER PRIMARY KEY, sender TEXT NOT NULL, reference TEXT NOT NULL, receiver TEXT NOT NULL, " \
    "amount INTEGER NOT NULL, date TEXT NOT NULL, state INTEGER NOT NULL, mark INTEGER"
MANY = "WITH RECURSIVE n(i) AS (SELECT 1 UNION ALL SELECT i + 1 FROM n WHERE i < {}) "
# Of the book of an open day: the rule that is broken, and what breaks it.
UNSOUND = [
    (1, "UPDATE payment SET number = 5 WHERE number = 4"),
    (2, "UPDATE posting SET number = 3 WHERE number = 2"),
    (3, "UPDATE mark SET number = 3 WHERE number = 2; UPDATE payment SET mark = 3 WHERE mark = 2"),
    (4, anew("participant", PARTICIPANT, "'ALFA', name, key, credit, balance")),
    (4, MANY.format(98) + "INSERT INTO participant SELECT 'BANK' || i, 'B', randomblob(32), 0, 0 FROM n"),
    (5, anew("participant", PARTICIPANT, "code, name, (SELECT min(key) FROM participant), credit, balance")),
    (6, anew("payment", PAYMENT, "number, sender, 'A-1', receiver, amount, date, state, mark")),
    (7, anew("posting", POSTING, "number, code, 'P-1', cents, date")),
    (8, "UPDATE payment SET receiver = 'OMEG' WHERE number = 4"),
    (8, "UPDATE payment SET receiver = sender WHERE number = 4"),
    (8, "UPDATE posting SET code = 'OMEG' WHERE number = 2"),
    (9, "UPDATE mark SET many = 2 WHERE number = 2"),
    (9, "UPDATE mark SET value = value + 1 WHERE number = 2"),
    (9, "UPDATE payment SET mark = 9 WHERE number = 2"),
    (9, "INSERT INTO mark VALUES (3, '2024-03-04', 0, 0)"),
    (10, "UPDATE desk SET phase = 0"),
    (10, "UPDATE payment SET date = '2024-03-01' WHERE number = 4"),
    (10, MANY.format(500)
     + "INSERT INTO payment SELECT 4 + i, 'ALFA', 'B-' || i, 'BETA', 1000, '2024-03-04', 0, NULL FROM n"),
    (11, "UPDATE posting SET date = '2024-03-05' WHERE number = 2"),
    (11, "UPDATE desk SET date = NULL; DELETE FROM payment WHERE number = 4"),
    (12, "UPDATE participant SET credit = 0; UPDATE posting SET cents = 149 WHERE number = 2"),
    (13, "UPDATE posting SET cents = 1000000000000000 WHERE number = 2"),
    (14, "UPDATE participant SET balance = balance + 1 WHERE code = 'GAMA'"),
]
# The same of due dates, which tables have since version 2.
HELD = "INSERT INTO payment VALUES (5, 'ALFA', 'A-5', 'BETA', 1, '{0}', 4, NULL); INSERT INTO forward VALUES (5, '{0}')"
UNSOUND_DUES = [
    (10, MANY.format(500)
     + "INSERT INTO payment SELECT 4 + i, 'ALFA', 'B-' || i, 'BETA', 1000, '2024-03-05', 4, NULL FROM n; "
     "INSERT INTO forward SELECT number, date FROM payment WHERE state = 4"),
    *[(11, HELD.format(date)) for date in ("2024-03-01", "2024-03-04", "2024-03-09")],
    (11, "INSERT INTO forward VALUES (1, '2024-03-05')"),
]
NO_DESK = [
    *[f"DROP TABLE {table}" for table in ("desk", "participant", "posting", "payment", "mark")],
    "DELETE FROM desk",
    "INSERT INTO desk VALUES (2, 1, NULL, 0)",
    *[f"UPDATE desk SET version = {version}" for version in (-1, 0, 3, 4, 7)],
    *[f"UPDATE desk SET {value}" for value in ("id = 2", "phase = 3", "date = '2024-02-30'", "date = 'never'")],
    *[f"UPDATE participant SET {value} WHERE code = 'ALFA'"
      for value in ("code = 'alfa'", "code = 'AL'", "name = ' A'", "name = ''", "key = x'00'", "credit = -1")],
    *[f"UPDATE posting SET {value} WHERE number = 1" for value in ("cents = 0", "reference = ''", "date = '2024-3-4'")],
    *[f"UPDATE payment SET {value} WHERE number = 4"
      for value in ("state = 4", "state = 9", "amount = 0", "reference = 'a-4'", "mark = 1", "date = '2024-02-30'")],
    "UPDATE payment SET mark = NULL WHERE number = 2",
    "UPDATE mark SET date = '2024-02-30' WHERE number = 2",
    "CREATE TABLE resolution (id INTEGER PRIMARY KEY, automatic INTEGER NOT NULL) STRICT",
    "CREATE VIEW resolution AS SELECT id, phase AS automatic FROM desk",
    "CREATE INDEX resolution ON payment (receiver)",
    "CREATE TABLE Resolution (a)",
    "CREATE TRIGGER more AFTER INSERT ON payment BEGIN DELETE FROM mark; END",
    "ALTER TABLE mark RENAME COLUMN many TO few",
]
# Of one version alone.
NO_DESK_OF = {
    1: [
        "UPDATE desk SET version = 2",
        "CREATE TABLE forward (number INTEGER PRIMARY KEY, due TEXT NOT NULL) STRICT",
        "CREATE VIEW forward AS SELECT number, date AS due FROM posting",
        "CREATE INDEX forward ON payment (receiver)",
        "CREATE TABLE Forward (a)",
    ],
    2: [
        "UPDATE desk SET version = 1",
        "DROP TABLE forward",
        "INSERT INTO forward VALUES (9, '2024-03-05')",
        "INSERT INTO forward VALUES (4, '2024-02-30')",
    ],
}


class Books:
    """Books in a folder, and what the check finds of them."""

    def __init__(self, folder, report):
        self.folder, self.sees = folder, report.sees

    def run(self, book, line):
        """Returns how a run ends. Orders behind `import` are those of a file."""
        words = [book if it == "@" else it for it in line.split(" ")]
        if words[0] == "import":
            due = ",due" if words[3].count(",") == 3 else ""
            with open(f"{self.folder}/orders.csv", "w", encoding="utf-8") as it:
                it.write("\n".join([f"reference,to,amount{due}", *words[3:], ""]))
            words[3:] = [f"{self.folder}/orders.csv"]
        return runs.run(*words)

    def made(self, name, commands):
        """Returns a book that these commands made."""
        book = f"{self.folder}/{name.replace(' ', '-')}.desk"
        for line in commands:
            ran = self.run(book, line)
            if ran.status or not runs.is_apart(ran):
                raise desks.Broken(f"{line}: {ran}")
        return book

    def copied(self, version, book, *changes):
        """Returns a copy of the book with tables of this version, which the stock tool then changed."""
        copy = f"{self.folder}/copy.desk"
        desks.remove(copy)
        shutil.copy(book, copy)
        desks.stock(copy, desks.OLDER[version], *changes)
        return copy

    def migrated(self, version, name, book):
        """Migrates a copy of the book with tables of this version, and compares it with the book."""
        copy, name = self.copied(version, book), f"{name} of version {version}"
        before = desks.content(copy)
        for line in OTHERS:
            self.sees(f"{name}: {line}", self.run(copy, line), runs.refused(93))
        self.sees(f"{name}: init", self.run(copy, "init @"), runs.refused(96))
        self.keeps(f"{name}, before its migration", copy, before)
        self.sees(f"{name}: migrate", self.run(copy, "migrate @"), runs.Ran(0, "migrated\n"))
        self.sees(f"{name}, once migrated", desks.stock(copy, ".dump"), desks.stock(book, ".dump"))
        for line in TOLD:
            self.sees(f"{name}: {line}", self.run(copy, line), self.run(book, line))
        after = desks.content(copy)
        self.sees(f"{name}: migrate again", self.run(copy, "migrate @"), runs.Ran(0, "repeated\n"))
        self.keeps(f"{name}, migrated again", copy, after)

    def refused(self, version, book, change, number, detail=""):
        """Migrates a copy of the book with tables of this version and this change, which must be refused so."""
        copy, what = self.copied(version, book, change), f"{change}, of version {version}"
        before = desks.content(copy)
        self.sees(what, self.run(copy, "migrate @"), runs.refused(number, detail))
        self.keeps(what, copy, before)

    def keeps(self, what, file, before):
        self.sees(f"{what}: the bytes of the file", desks.content(file) == before, True)


def run(_given, report):
    with desks.room() as folder:
        books = Books(folder, report)
        made = {name: books.made(name, commands) for name, commands in BOOKS.items()}
        migrated = 0
        for version in desks.OLDER:
            for name, book in made.items():
                if SINCE.get(name, 1) <= version:
                    books.migrated(version, name, book)
                    migrated += 1
            for rule, change in UNSOUND + (UNSOUND_DUES if version > 1 else []):
                books.refused(version, made["an open day"], change, 94, str(rule))
            for change in NO_DESK + NO_DESK_OF[version]:
                books.refused(version, made["an open day"], change, 93)
    report.sums(f"tables of {len(desks.OLDER)} versions: {migrated} books migrated, and unsound books and files that "
                f"are no desk's refused: {report.right} things as they must be, {report.wrong} not")
