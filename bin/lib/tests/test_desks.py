"""What the checks share, with a stand-in for the program."""
import os
import shutil
import signal
import socket
import subprocess
import sys
import unittest
from unittest import mock

from lib import desks

FAKE = f"{os.path.dirname(os.path.realpath(__file__))}/fake_desk.py"


def needs(tool):
    return unittest.skipUnless(shutil.which(tool), f"needs {tool}")


class Desks(unittest.TestCase):
    """Each test has a folder that is removed, and the stand-in as the program."""

    def setUp(self):
        folder = desks.room()
        self.folder = folder.name
        self.book = f"{self.folder}/bank.desk"
        self.addCleanup(folder.cleanup)
        program = mock.patch.object(desks, "DESK", FAKE)
        program.start()
        self.addCleanup(program.stop)


class Runs(Desks):
    def test_a_run_gives_what_it_prints(self):
        self.assertEqual(desks.desk("init", self.book), "done\n")

    def test_a_run_that_does_not_end_with_0_is_told_with_what_it_said(self):
        with self.assertRaisesRegex(desks.Broken, "^desk refuse .*: 1: refused 2 NoParticipant$"):
            desks.desk("refuse", self.book)

    def test_a_new_book_has_its_banks_money_and_day(self):
        desks.new_book(self.book, {"ALFA": "1" * 32, "BETA": "2" * 32}, 150, "{} Bank")
        wanted = ["init", f"add ALFA Alfa Bank {'1' * 32}", f"add BETA Beta Bank {'2' * 32}", "post ALFA P-1 150",
                  "open 2024-03-04"]
        self.assertEqual(desks.content(self.book).decode().splitlines(), wanted)

    def test_the_day_of_a_new_book_is_opened_as_it_is_chosen(self):
        desks.new_book(self.book, {"ALFA": "1" * 32}, 150, "A Bank", "--automatic")
        self.assertEqual(desks.content(self.book).decode().splitlines()[-1], "open 2024-03-04 --automatic")

    def test_a_build_that_fails_is_told(self):
        with mock.patch.object(desks.kit, "TOP", self.folder):
            os.makedirs(f"{self.folder}/bin/lib")
            with open(f"{self.folder}/bin/lib/program", "w", encoding="utf-8") as it:
                it.write("#!/bin/sh\nexit 3\n")
            os.chmod(it.name, 0o755)
            with self.assertRaisesRegex(desks.Broken, "not built"):
                desks.build()

    def test_a_script_that_cannot_go_on_ends_with_1_and_says_why(self):
        def main():
            raise desks.Broken("why")

        with self.assertRaises(SystemExit) as ended:
            desks.end(main)
        self.assertRegex(str(ended.exception.code), ": why$")


class Files(Desks):
    def test_a_books_files_are_found_and_removed(self):
        for it in ("", "-wal", ".lock", ".csv"):
            with open(self.book + it, "wb") as file:
                file.write(b"1")
        self.assertEqual(desks.parts_of(self.book), ["", "-wal"])
        desks.remove(self.book)
        self.assertEqual(os.listdir(self.folder), ["bank.desk.csv"])

    def test_a_room_is_removed(self):
        with desks.room() as folder:
            self.assertTrue(os.path.isdir(folder))
        self.assertFalse(os.path.exists(folder))


class Servers(Desks):
    def test_a_free_port_can_be_listened_at(self):
        with socket.create_server(("127.0.0.1", desks.free_port())):
            pass

    def test_a_server_is_asked_and_ends_by_itself(self):
        with desks.Server(self.book, 2) as server:
            self.assertIn(b'"reference": "A-7"', server.asked(desks.order("1" * 32, "BETA", 7)))
            self.assertGreater(server.memory("VmHWM"), 0)
            self.assertGreater(server.processor_time(), 0)
            with self.assertRaisesRegex(desks.Broken, "404"):
                server.asked(desks.request("POST", "/x", "1" * 32, "{}"))
            self.assertEqual(server.ended(), (0, "served 2\n", ""))

    def test_a_server_is_ended_where_a_check_breaks_off(self):
        with self.assertRaises(desks.Broken), desks.Server(self.book, 2) as server:
            raise desks.Broken("why")
        self.assertEqual(server.process.returncode, -signal.SIGKILL)

    def test_a_server_that_does_not_listen_is_told(self):
        with mock.patch.object(desks, "free_port", lambda: 1), self.assertRaisesRegex(desks.Broken, "not listen"):
            desks.Server(self.book, 1)

    def test_a_server_that_does_not_end_is_told(self):
        with mock.patch.object(desks, "SECONDS", 0.1), self.assertRaisesRegex(desks.Broken, "not end"), \
                desks.Server(self.book, 1) as server:
            server.ended()
        self.assertEqual(server.process.returncode, -signal.SIGKILL)

    def test_a_request_has_its_key_and_the_length_of_its_body(self):
        head, body = desks.request("POST", "/orders", "k", "a\u00e4").split(b"\r\n\r\n")
        self.assertEqual(body, "a\u00e4".encode())
        self.assertIn(b"\r\ndesk-key: k\r\nContent-Length: 3", head)
        self.assertTrue(desks.request("GET", "/account", "k").endswith(b"\r\ndesk-key: k\r\n\r\n"))


class Tools(Desks):
    @needs("sqlite3")
    def test_the_stock_tool_gives_what_it_prints_or_is_told(self):
        said = desks.stock(self.book, "CREATE TABLE a (b)", "INSERT INTO a VALUES (7)", "SELECT * FROM a")
        self.assertEqual(said, "7\n")
        with self.assertRaisesRegex(desks.Broken, "no such table"):
            desks.stock(self.book, "SELECT * FROM absent", "SELECT 1")

    @needs("cc")
    def test_the_libraries_of_c_compile_and_load(self):
        for name in ("counting", "giving"):
            env = {**os.environ, "LD_PRELOAD": desks.library(name, self.folder)}
            self.assertEqual(subprocess.run(["true"], env=env, check=False, stderr=subprocess.PIPE).stderr, b"")

    @needs("cc")
    def test_requests_for_memory_are_counted_where_a_line_says_so(self):
        env = {**os.environ, "LD_PRELOAD": desks.library("counting", self.folder)}
        words = [sys.executable, "-c", "import os; os.write(1, b'it begins')"]
        ran = subprocess.run(words, env=env, capture_output=True, text=True, check=True)
        self.assertEqual(ran.stdout, "it begins")
        self.assertRegex(ran.stderr, r"^requests until begins: \d+\n$")

    def test_measures_are_told_by_median_and_range(self):
        self.assertEqual(desks.told([3, 1, 2.5]), "     2.5 (1.0 to 3.0)")
        self.assertEqual(desks.told([0.5, 1], 2), "    0.75 (0.50 to 1.00)")


del Desks


if __name__ == "__main__":
    unittest.main()
