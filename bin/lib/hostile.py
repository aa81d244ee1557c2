"""Files of books as stock tools and damage leave them: by name, with a page damaged, large ones whose pages lead to one
another, and as chance changes a file. Each is made of a good book, by a function of its file."""
import os
import random
import shutil
import sqlite3
import struct
import subprocess

from lib import desks

SIZES = [512, 1024, 2048, 4096, 8192, 16384, 32768, 65536]
# The one file that a report changes.
MOVED_IN = "a log with one commit more"
# 10 MB
MANY = 10 * 1024 * 1024


def by_sql(*commands):
    return lambda book: desks.stock(book, *commands)


def with_size(size, *after):
    return by_sql("PRAGMA journal_mode = delete", f"PRAGMA page_size = {size}", "VACUUM", *after)


def dumped(*before):
    """The file as the dump of its tables makes it again."""
    def dumped(book):
        dump = desks.stock(book, ".dump")
        desks.remove(book)
        subprocess.run(["sqlite3", book], input="".join(f"{it};\n" for it in before) + dump, check=True, text=True,
                       stdout=subprocess.DEVNULL)
    return dumped


def replaced_by(command):
    def replaced(book):
        desks.stock(book, f"{command} '{book}.new'")
        desks.remove(book)
        os.replace(f"{book}.new", book)
    return replaced


def left_open(mode, *commands):
    """The file and its log or journal as they stand while a stock tool is at work, as after its sudden end."""
    def left(book):
        link = sqlite3.connect(book, isolation_level=None)
        link.execute(f"PRAGMA journal_mode = {mode}")
        link.execute("PRAGMA wal_autocheckpoint = 0")
        link.execute("PRAGMA cache_size = 1")
        for command in commands:
            link.execute(command)
        for end in desks.parts_of(book):
            shutil.copy(book + end, f"{book}.left{end}")
        link.close()
        desks.remove(book)
        for end in desks.parts_of(f"{book}.left"):
            os.replace(f"{book}.left{end}", book + end)
    return left


def with_log(change):
    """The file beside a log with one commit, in which this was changed."""
    def with_log(book):
        left_open("wal", "UPDATE participant SET name = 'B Bank'")(book)
        log = change(desks.content(book + desks.LOG))
        with open(book + desks.LOG, "wb") as it:
            it.write(log)
    return with_log


FREED = ("CREATE TABLE more (id INTEGER PRIMARY KEY, filling BLOB)",
         "WITH RECURSIVE n(i) AS (SELECT 1 UNION ALL SELECT i + 1 FROM n WHERE i < 100) "
         "INSERT INTO more SELECT i, zeroblob(5000) FROM n", "DELETE FROM more WHERE id % 2")
POSTED = ("WITH RECURSIVE n(i) AS (SELECT 2 UNION ALL SELECT i + 1 FROM n WHERE i < 2 + {0}) "
          "INSERT INTO posting SELECT i, 'GAMA', 'P-' || i, 1, '2024-03-04' FROM n; "
          "UPDATE participant SET balance = balance + {0} + 1 WHERE code = 'GAMA'")
FILES = {
    "as the desk left it": lambda book: None,
    "VACUUM": by_sql("VACUUM"),
    "VACUUM INTO": replaced_by("VACUUM INTO"),
    ".backup": replaced_by(".backup"),
    ".dump, read again": dumped(),
    **{f"journal_mode {it}": by_sql(f"PRAGMA journal_mode = {it}", "UPDATE desk SET id = 1")
       for it in ["wal", "delete", "truncate", "persist"]},
    **{f"page_size {it}": with_size(it) for it in SIZES},
    **{f"page_size {it}, in WAL mode": with_size(it, "PRAGMA journal_mode = wal") for it in [512, 65536]},
    "auto_vacuum full": by_sql("PRAGMA journal_mode = delete", "PRAGMA auto_vacuum = 1", "VACUUM"),
    "auto_vacuum incremental": by_sql("PRAGMA journal_mode = delete", "PRAGMA auto_vacuum = 2", "VACUUM"),
    "encoding UTF-16le": dumped("PRAGMA encoding = 'UTF-16le'"),
    "encoding UTF-16be": dumped("PRAGMA encoding = 'UTF-16be'"),
    "a freelist": by_sql(*FREED),
    "a freelist of all that was in a table": by_sql(*FREED, "DROP TABLE more"),
    "user_version and application_id": by_sql("PRAGMA user_version = 7", "PRAGMA application_id = 7"),
    "ANALYZE": by_sql("ANALYZE"),
    "one more table": by_sql("CREATE TABLE more (a, b)", "INSERT INTO more VALUES (1, 2)"),
    "one more table, WITHOUT ROWID": by_sql("CREATE TABLE more (a PRIMARY KEY, b) WITHOUT ROWID"),
    "one more table, AUTOINCREMENT": by_sql("CREATE TABLE more (a INTEGER PRIMARY KEY AUTOINCREMENT)"),
    "one more table, that refers to another": by_sql("CREATE TABLE more (a TEXT REFERENCES participant (code))"),
    "one more column, of no value": by_sql("ALTER TABLE payment ADD COLUMN more TEXT"),
    "one more column, with a default": by_sql("ALTER TABLE payment ADD COLUMN more TEXT DEFAULT 'x'"),
    "one more column, that is computed": by_sql("ALTER TABLE mark ADD COLUMN more INTEGER AS (many + 1) VIRTUAL"),
    "a column with another name": by_sql("ALTER TABLE mark RENAME COLUMN many TO few"),
    "an index": by_sql("CREATE INDEX more ON payment (receiver)"),
    "an index, partial": by_sql("CREATE INDEX more ON payment (receiver) WHERE state = 0"),
    "an index, of an expression": by_sql("CREATE INDEX more ON payment (lower(receiver))"),
    "an index, NOCASE": by_sql("CREATE INDEX more ON payment (receiver COLLATE NOCASE DESC)"),
    "a view": by_sql("CREATE VIEW more AS SELECT code, balance FROM participant"),
    "a view on no table": by_sql("CREATE VIEW more AS SELECT * FROM absent"),
    "a trigger": by_sql("CREATE TRIGGER more AFTER INSERT ON payment BEGIN DELETE FROM mark; END"),
    "a virtual table": by_sql("CREATE VIRTUAL TABLE more USING fts5 (a)"),
    MOVED_IN: left_open("wal", "UPDATE participant SET name = 'B Bank'"),
    "a log of noise": with_log(lambda log: random.Random(1).randbytes(len(log))),
    "a log of zeros": with_log(lambda log: bytes(len(log))),
    "a log that is cut within its commit": with_log(lambda log: log[:-100]),
    "a log with a bit changed in its commit": with_log(lambda log: log[:-100] + bytes([log[-100] ^ 1]) + log[-99:]),
    "a log with a transaction begun": left_open("wal", "BEGIN", POSTED.format(2000).split("; ")[0]),
    "a journal of a transaction begun": left_open("delete", "BEGIN", POSTED.format(20000).split("; ")[0]),
    "10000 postings more": by_sql(POSTED.format(9999)),
    "1000 views": by_sql("".join(f"CREATE VIEW more{it} AS SELECT 1;" for it in range(1000))),
}


def page_size(data):
    """How many bytes a page has, by the file's header, or as `init` makes them where that was changed."""
    size = int.from_bytes(data[16:18], "big")
    return size if size in SIZES else 512


def pages_of(data):
    size = page_size(data)
    return [bytearray(data[it:it + size]) for it in range(0, len(data), size)]


def damaged(how):
    """A book of many pages of which one in each tenth is damaged, one a file."""
    for tenth in range(10):
        yield f"a page {how.__name__} in tenth {tenth + 1}", lambda book, tenth=tenth: damage(book, tenth, how)


def damage(book, tenth, how):
    desks.stock(book, POSTED.format(9999))
    chance = random.Random(tenth)
    pages = pages_of(desks.content(book))
    at = chance.randrange(len(pages) * tenth // 10, len(pages) * (tenth + 1) // 10)
    how(pages[at], chance)
    rewrite(book, pages)


def rewrite(book, pages):
    desks.remove(book)
    with open(book, "wb") as it:
        it.write(b"".join(pages))


def of_noise(page, chance):
    page[:] = chance.randbytes(len(page))


def of_zeros(page, chance):
    page[:] = bytes(len(page))


def with_a_bit_changed(page, chance):
    page[chance.randrange(len(page))] ^= 1 << chance.randrange(8)


FILLED = ("CREATE TABLE more (id INTEGER PRIMARY KEY, filling BLOB)",
          "WITH RECURSIVE n(i) AS (SELECT 1 UNION ALL SELECT i + 1 FROM n WHERE i < {0}) "
          "INSERT INTO more SELECT i, zeroblob({1}) FROM n")


def filled(most, length):
    """Fills the file with this many bytes of rows of this length in a table more."""
    return by_sql(FILLED[0], FILLED[1].format(most // (length + 8), length))


def changed_pages(make, change):
    """A file as it is made, and each of its pages changed."""
    def changed(book):
        make(book)
        pages = pages_of(desks.content(book))
        for number in range(2, len(pages) + 1):
            change(pages, number)
        rewrite(book, pages)
    return changed


def put(page, at, number):
    page[at:at + 4] = struct.pack(">I", number)


def kind(page):
    return page[0]


def cells(page):
    count = struct.unpack(">H", page[3:5])[0]
    return [struct.unpack(">H", page[12 + 2 * it:14 + 2 * it])[0] for it in range(count)]


def children_to(target):
    """Each page of a tree that has children has this one, by its number, as all of them."""
    def change(pages, number):
        page = pages[number - 1]
        if kind(page) in (2, 5):
            put(page, 8, target(number, len(pages)))
            for at in cells(page):
                if at + 4 <= len(page):
                    put(page, at, target(number, len(pages)))
    return change


def itself(number, count):
    return number


def the_next(number, count):
    return number + 1 if number < count else 2


def the_root(number, count):
    return 2


def chains_to(target):
    """Each page that is in no tree, so of a row or free, has this one as the next."""
    def change(pages, number):
        page = pages[number - 1]
        if kind(page) not in (2, 5, 10, 13):
            put(page, 0, target(number, len(pages)))
    return change


def trunks_to(target):
    """Each page of the free list has this one as the next, and as each of its leaves."""
    def change(pages, number):
        page = pages[number - 1]
        if number >= struct.unpack(">I", pages[0][32:36])[0]:
            put(page, 0, target(number, len(pages)))
            if struct.unpack(">I", page[4:8])[0] <= len(page) // 4 - 2:
                for at in range(8, 8 + 4 * struct.unpack(">I", page[4:8])[0], 4):
                    put(page, at, target(number, len(pages)))
    return change


def all_inner(pages, number):
    """Each page has as many children as it has room for, which are the pages behind it, and then the first ones."""
    size = len(pages[number - 1])
    count = min(500, (size - 12) // 7)
    page = bytearray(size)
    page[0] = 5
    page[1:8] = struct.pack(">HHHB", 0, count, size - 5 * count, 0)
    put(page, 8, the_next(number, len(pages)))
    for it in range(count):
        at = size - 5 * (it + 1)
        page[12 + 2 * it:14 + 2 * it] = struct.pack(">H", at)
        put(page, at, (number + it) % (len(pages) - 1) + 2)
        page[at + 4] = it % 127
    pages[number - 1][:] = page


def large_files():
    """Files of 10 MB whose pages point at one another, and sound ones of as many bytes beside them."""
    tree, rows = filled(MANY, 40), filled(MANY, 200000)
    freed = lambda book: (rows(book), desks.stock(book, "DROP TABLE more"))
    yield "10 MB, sound, of short rows", tree
    yield "10 MB, sound, of long rows", rows
    yield "10 MB, sound, of free pages", freed
    for target in [itself, the_next, the_root]:
        name = target.__name__.replace("_", " ")
        yield f"10 MB, each page of a tree has {name} as its children", changed_pages(tree, children_to(target))
        yield f"10 MB, each page of a row has {name} behind it", changed_pages(rows, chains_to(target))
        yield f"10 MB, each free page has {name} behind it", changed_pages(freed, trunks_to(target))
    yield "10 MB, each page has as many others as it has room for as its children", changed_pages(tree, all_inner)


def changed_by(chance, data):
    """The file with one change: of bits, cut, with a page again or in another's place, or with another number."""
    size = page_size(data)
    page = size * chance.randrange(len(data) // size)
    at = page + chance.choice([chance.randrange(128), chance.randrange(128), chance.randrange(size)])
    other = size * chance.randrange(len(data) // size)
    how = chance.randrange(6)
    if how == 0:
        return data[:chance.choice([page, at])]
    if how == 1:
        return data[:page] + data[other:other + size] + data[page:]
    if how == 2:
        return data[:page] + data[other:other + size] + data[page + size:]
    if how == 3:
        length = chance.choice([1, 2, 4])
        number = chance.choice([0, 1, 2, 3, 5, 255, 256, 4096, 65535, 65536, 2**31 - 1, 2**32 - 1]) % 256**length
        return data[:at] + number.to_bytes(length, "big") + data[at + length:]
    return data[:at] + bytes([data[at] ^ 1 << chance.randrange(8)]) + data[at + 1:]


def all_files():
    """Yields the name of each file, and what makes it."""
    yield from FILES.items()
    for how in [of_noise, of_zeros, with_a_bit_changed]:
        yield from damaged(how)
    yield from large_files()
