"""The plain server and its client, over a book with the tables of a desk that they use."""
import contextlib
import hashlib
import json
import os
import shutil
import sqlite3
import unittest
from unittest import mock

from lib import desks, plain

HERE = os.path.dirname(os.path.realpath(__file__))
TABLES = """
CREATE TABLE desk (id INTEGER PRIMARY KEY, version INTEGER NOT NULL, date TEXT, phase INTEGER NOT NULL) STRICT;
CREATE TABLE participant (code TEXT PRIMARY KEY NOT NULL, name TEXT NOT NULL, key BLOB NOT NULL UNIQUE,
    credit INTEGER NOT NULL, balance INTEGER NOT NULL) STRICT;
CREATE TABLE payment (number INTEGER PRIMARY KEY, sender TEXT NOT NULL, reference TEXT NOT NULL, receiver TEXT NOT NULL,
    amount INTEGER NOT NULL, date TEXT NOT NULL, state INTEGER NOT NULL, mark INTEGER,
    UNIQUE (sender, reference)) STRICT;
CREATE TABLE mark (number INTEGER PRIMARY KEY, date TEXT NOT NULL, many INTEGER NOT NULL,
    value INTEGER NOT NULL) STRICT;
INSERT INTO desk VALUES (1, 3, '2024-03-04', 1);
"""
ACCOUNT = {"balance": 3, "code": "ALFA", "credit": 2, "date": "2024-03-04", "name": "A Bank", "phase": "OPEN",
           "queued": 0, "queued_value": 0}


def can_compile():
    return shutil.which("gcc") and os.path.exists("/usr/include/sqlite3.h")


def make_book(path):
    with contextlib.closing(sqlite3.connect(path)) as conn, conn:
        conn.executescript(TABLES)
        for code in ("ALFA", "BETA"):
            key = hashlib.sha256(desks.KEYS[code].encode()).digest()
            conn.execute("INSERT INTO participant VALUES (?, 'A Bank', ?, 2, 3)", (code, key))


def rows(book, query):
    with contextlib.closing(sqlite3.connect(book)) as conn:
        return conn.execute(query).fetchall()


@unittest.skipUnless(can_compile(), "needs gcc and sqlite3.h")
class Plain(unittest.TestCase):
    def setUp(self):
        folder = desks.room()
        self.addCleanup(folder.cleanup)
        self.folder, self.book = folder.name, f"{folder.name}/bank.desk"
        self.programs = plain.compiled(self.folder)
        make_book(self.book)

    def test_an_account_is_told(self):
        with plain.Server(self.programs, self.book, 1) as server:
            head, body = server.asked(desks.request("GET", "/account", desks.KEYS["ALFA"])).split(b"\r\n\r\n")
        self.assertEqual(json.loads(body), ACCOUNT)
        wanted = b"HTTP/1.1 200 OK\r\nContent-Type: application/json\r\nContent-Length: %d\r\nConnection: close"
        self.assertEqual(head, wanted % len(body))

    def test_orders_are_kept_with_their_marks_and_balances(self):
        with plain.Server(self.programs, self.book, 2) as server:
            server.asked(desks.order(desks.KEYS["ALFA"], "BETA", 7))
            reply = server.asked(desks.order(desks.KEYS["ALFA"], "BETA", 8, 4))
        self.assertTrue(reply.endswith(b'\r\n\r\n{"answer":"settled","mark":2,"number":2}'))
        self.assertEqual(rows(self.book, "SELECT * FROM payment"), [
            (1, "ALFA", "A-7", "BETA", 1, "2024-03-04", 1, 1), (2, "ALFA", "A-8", "BETA", 4, "2024-03-04", 1, 2)])
        self.assertEqual(rows(self.book, "SELECT * FROM mark"), [(1, "2024-03-04", 1, 1), (2, "2024-03-04", 1, 4)])
        self.assertEqual(rows(self.book, "SELECT code, balance FROM participant"), [("ALFA", -2), ("BETA", 8)])

    def test_nothing_else_is_kept(self):
        key, twice = desks.KEYS["ALFA"], desks.order(desks.KEYS["ALFA"], "BETA", 1)
        wrong = [twice, desks.order("f" * 32, "BETA", 2), desks.order(key, "GAMA", 3), desks.order(key, "ALFA", 4),
                 desks.order(key, "BETA", 5, 5), desks.request("POST", "/orders", key, "{}"), b"GET / HTTP/1.1\r\n\r\n"]
        with plain.Server(self.programs, self.book, len(wrong) + 1) as server:
            server.asked(twice)
            for it in wrong:
                with self.assertRaisesRegex(desks.Broken, "400 Bad Request", msg=it):
                    server.asked(it)
        self.assertEqual(rows(self.book, "SELECT reference FROM payment"), [("A-1",)])

    def test_the_client_asks_for_all_and_tells_a_bad_reply(self):
        orders = [desks.order(desks.KEYS["ALFA"], "BETA", it) for it in range(6)]
        with plain.Server(self.programs, self.book, 6) as server:
            self.assertGreater(plain.seconds(self.programs, server.port, orders[:5]), 0)
            with self.assertRaisesRegex(desks.Broken, "a bad reply"):
                plain.seconds(self.programs, server.port, orders[:1])
        self.assertEqual(len(rows(self.book, "SELECT * FROM payment")), 5)

    def test_a_file_that_is_no_book_is_told(self):
        with self.assertRaisesRegex(desks.Broken, "the server does not listen: plain_server: "):
            plain.Server(self.programs, f"{self.folder}/none/bank.desk", 1)


class Missing(unittest.TestCase):
    def test_no_compiler_is_told(self):
        with mock.patch.dict(os.environ, {"PATH": HERE}), self.assertRaisesRegex(desks.Broken, "^gcc is missing$"):
            desks.program("asking", HERE)

    @unittest.skipUnless(shutil.which("gcc"), "needs gcc")
    def test_a_missing_header_is_told(self):
        with desks.room() as folder:
            shutil.copy(f"{HERE}/../plain_server.c", folder)
            source = desks.content(f"{folder}/plain_server.c").replace(b"<sqlite3.h>", b"<no_such_sqlite3.h>")
            with open(f"{folder}/plain_server.c", "wb") as it:
                it.write(source)
            with mock.patch.object(desks, "HERE", folder), \
                    self.assertRaisesRegex(desks.Broken, "^the header no_such_sqlite3.h is missing$"):
                desks.program("plain_server", folder)


if __name__ == "__main__":
    unittest.main()
