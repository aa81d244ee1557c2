"""The check of faulty disks, with programs of a few lines in the place of the desk: one that is careful, and others
that each do one thing wrong."""
import errno
import os
import shutil
import sys
import tempfile
import unittest
from unittest import mock

from lib import crash_images, desks, faults, lives, runs, watched
from lib.crash_images import History
from lib.faults import Fault, Said
from lib.runs import Ran
from lib.watched import FAILED, FOLDER, MADE, SYNC, WRITE, Event

BOOK = lives.BOOK
EMPTY = b"." * 8
# Keeps orders as bytes of its book, one after another. `HOW` says what it does wrong.
PROGRAM = f"""#!{sys.executable} -S
import os, sys
command, book, how = sys.argv[1], sys.argv[2], "HOW"

def kept(place):
    while True:
        try:
            if os.pwrite(file, b"x", place) == 1:
                break
        except OSError:
            if how == "loses an order":
                break
            if how != "tries for ever":
                raise
    if how == "answers first":
        os.write(1, b"posted 1\\n")
    try:
        os.fsync(file)
    except OSError:
        if how != "passes over a sync":
            raise

def results():
    yield "reference,result,number,detail"
    for place in range(3):
        try:
            is_new = os.pread(file, 1, place) == b"."
            if is_new:
                kept(place)
            yield f"A-{{place}},{{'settled' if is_new else 'repeated'}},{{place + 1}},1"
        except OSError:
            yield f"A-{{place}},stopped,,91"
            return

try:
    file = os.open(book, os.O_RDWR)
    found = os.pread(file, 8, 0)
    said = found.decode()
    if command == "import":
        said = "\\n".join(results())
    elif command == "post" and found[:1] == b".":
        kept(0)
        said = "" if how == "answers first" else "posted 1"
    elif command == "post":
        said = "repeated"
    os.write(1, f"{{said}}\\n".encode() if said else b"")
    sys.exit(3 if said.endswith(",91") else 0)
except OSError:
    os.write(2, b"refused 93 NotADeskFile\\n" if how == "mistakes a read" else b"refused 91 StoreFault\\n")
    sys.exit(3)
"""


def tables_of(book):
    """Returns the book of the program."""
    return desks.content(book)


@unittest.skipUnless(shutil.which("cc"), "needs cc")
class Faults(unittest.TestCase):
    @classmethod
    def setUpClass(cls):
        room = tempfile.TemporaryDirectory()
        cls.addClassCleanup(room.cleanup)
        cls.library = watched.library(room.name)

    def setUp(self):
        room = tempfile.TemporaryDirectory()
        self.addCleanup(room.cleanup)
        self.room = room.name
        os.mkdir(f"{self.room}/books")
        for what, name, other in ((desks, "DESK", f"{self.room}/desk"), (lives, "tables_of", tables_of),
                                  (faults, "keep", lambda _: "kept")):
            patch = mock.patch.object(what, name, other)
            patch.start()
            self.addCleanup(patch.stop)

    def trial(self, command, how="nothing"):
        """Returns the trial of a command of the program that does this wrong."""
        with open(desks.DESK, "w", encoding="utf-8") as it:
            it.write(PROGRAM.replace("HOW", how))
        os.chmod(desks.DESK, 0o755)
        return faults.prepared(faults.Trial(how, [command], {BOOK: EMPTY}), f"{self.room}/{command}", self.library)

    def found(self, trial, kind, way=faults.ONCE):
        """Returns what is found where each call of a kind on the book fails in turn."""
        return faults.each_call(trial, f"{self.room}/books", self.library, "1", (kind, BOOK, way))

    def wrong(self, command, how, kind, way=faults.ONCE):
        """Returns what is found wrong with the program that does this wrong."""
        return "\n".join(self.found(self.trial(command, how), kind, way).wrong)

    def test_of_a_careful_program_nothing_is_wrong_and_each_call_fails_once(self):
        trial = self.trial("import")
        calls = {("open", BOOK): 1, ("read", BOOK): 4, ("write", BOOK): 3, ("sync", BOOK): 3}
        self.assertEqual((trial.calls, trial.last()), (calls, 3))
        for (kind, name), count in calls.items():
            found = self.found(trial, kind)
            self.assertEqual((found.wrong, dict(found.calls)), ([], {("nothing", kind, name, faults.ONCE): count}))
            self.assertEqual(found.ends, {"refused with 91": 1} if kind == "open" else found.ends)

    def test_a_failed_sync_that_is_passed_over_is_found(self):
        wanted = "sync 1 of book.desk, EIO: after a power cut: book 0 of 1 is found, and not book 1 of 1; kept"
        self.assertRegex(self.wrong("post", "passes over a sync", "sync"), wanted)

    def test_an_answer_before_the_fault_is_found(self):
        self.assertRegex(self.wrong("post", "answers first", "sync"), r"it says Ran\(status=3, out='posted 1")

    def test_an_order_that_is_lost_is_found(self):
        found = self.wrong("import", "loses an order", "write")
        self.assertRegex(found, "write 2 of book.desk, EIO: the command again: ")
        self.assertEqual(len(found.splitlines()), 3)

    def test_a_run_that_does_not_end_is_found(self):
        trial = self.trial("post", "tries for ever")
        with mock.patch.object(faults, "LONGEST", 2):
            wrong = faults.Disk(trial, f"{self.room}/books", self.library, "1")
            self.assertTrue(wrong.fails(Fault("write", BOOK, 1, faults.ON)))
        self.assertRegex(wrong.found.wrong[0], "it does not end within 2 seconds")

    def test_another_refusal_is_found_and_so_is_another_answer_without_a_fault(self):
        trial = self.trial("post", "mistakes a read")
        self.assertRegex(self.found(trial, "read").wrong[0], "it says .*refused 93 NotADeskFile")
        trial.good = Said(Ran(0, "posted 2\n"))
        self.assertRegex("\n".join(self.found(trial, "cut").wrong), "without a fault it says")

    def test_half_a_write_is_made_and_the_next_one_fails(self):
        watch = watched.Watch(f"{self.room}/books", self.library)
        trial = self.trial("import")
        watched.put(watch.folder, trial.files)
        said, events = trial.says(watch, DESK_FAILS=Fault("write", BOOK, 1, faults.HALF).chosen())
        self.assertEqual(said.ran.out.splitlines()[1:], ["A-0,settled,1,1", "A-1,stopped,,91"])
        self.assertEqual([(it.kind, it.at) for it in events if it.kind in (WRITE, FAILED)],
                         [(FAILED, 0), (WRITE, 0), (FAILED, errno.ENOSPC)])


class Ends(unittest.TestCase):
    """What a run may say."""

    def trial(self, words, out="", replies=(), books=2):
        trial = faults.Trial("it", words, requests=replies)
        trial.good, trial.life = Said(Ran(0, out), replies), mock.Mock(books=[None] * books)
        return trial

    def after(self, trial, ran, replies=(), name=BOOK, kind="write"):
        return faults.after(trial, Said(ran, replies), Fault(kind, name, 1, faults.ONCE))

    def test_a_command_that_is_refused_may_have_acted(self):
        trial = self.trial(["post"], "posted 1\n")
        self.assertEqual(self.after(trial, Ran(0, "posted 1\n")), (faults.ANSWERED, range(1, 2)))
        self.assertEqual(self.after(trial, runs.refused(91)), ("refused with 91", range(0, 2)))
        for wrong in (runs.refused(90), runs.refused(95), runs.refused(91)._replace(out="posted 1\n"), Ran(3), Ran(-9)):
            with self.assertRaises(faults.Wrong):
                self.after(trial, wrong)

    def test_a_run_without_the_lock_has_not_acted(self):
        trial = self.trial(["post"], "posted 1\n")
        self.assertEqual(self.after(trial, runs.refused(95), (), faults.LOCK), ("refused with 95", range(0, 1)))
        with self.assertRaises(faults.Wrong):
            self.after(trial, runs.refused(91), (), faults.LOCK)

    def test_a_fault_while_a_book_is_made_is_no_other_file(self):
        trial = self.trial(["init"])
        self.assertEqual(self.after(trial, runs.refused(91)), ("refused with 91", range(0, 2)))
        for wrong in (93, 96):
            with self.assertRaises(faults.Wrong):
                self.after(trial, runs.refused(wrong))

    def test_a_book_is_not_made_whose_name_may_be_lost(self):
        trial = self.trial(["init"])
        self.assertEqual(self.after(trial, Ran(0, ""), kind="sync"), (faults.ANSWERED, range(1, 2)))
        self.assertEqual(self.after(trial, runs.refused(91), (), FOLDER, "sync"), ("refused with 91", range(0, 2)))
        with self.assertRaisesRegex(faults.Wrong, "passes over a sync of the folder"):
            self.after(trial, Ran(0, ""), (), FOLDER, "sync")

    def test_a_statement_may_have_begun_with_whole_lines(self):
        trial = self.trial(["statement"], "one\ntwo\n", books=1)
        self.assertEqual(self.after(trial, runs.refused(91)._replace(out="one\n")), ("refused with 91", range(0, 1)))
        for wrong in ("one\ntw", "two\n"):
            with self.assertRaises(faults.Wrong):
                self.after(trial, runs.refused(91)._replace(out=wrong))

    def test_an_import_stops_at_a_row_after_the_answers_of_those_before_it(self):
        head, first, second = "reference,result,number,detail\n", "A-1,settled,1,1\n", "A-2,queued,2,1\n"
        trial = self.trial(["import"], head + first + second, books=3)
        self.assertEqual(self.after(trial, Ran(3, f"{head}{first}A-2,stopped,,91\n")), (faults.STOPPED, range(1, 3)))
        self.assertEqual(self.after(trial, runs.refused(91)), ("refused with 91", range(0, 1)))
        for wrong in (f"{head}{first}A-3,stopped,,91\n", f"{head}A-1,settled,9,1\nA-2,stopped,,91\n", head + first,
                      f"{head}{first}{second}A-3,stopped,,91\n"):
            with self.assertRaises(faults.Wrong):
                self.after(trial, Ran(3, wrong))

    def test_a_server_ends_after_the_reply_that_says_that_its_storage_failed(self):
        good = tuple(b'HTTP/1.1 200 OK\r\n\r\n{"answer":"queued","number":%d}' % it for it in (1, 2))
        lost = b"HTTP/1.1 503 Service Unavailable\r\nContent-Length: 31\r\n\r\n" + faults.FAILED
        trial, ended = self.trial(["serve"], "", good, 3), Ran(3, "listening P\n")
        self.assertEqual(self.after(trial, ended, (good[0], lost)), (faults.STOPPED, range(1, 3)))
        for wrong in ((Ran(0, "listening P\nserved 2\n"), (good[0], lost)), (ended, (good[0], lost[:-1])),
                      (ended, (good[0], b"")), (ended, (good[1], lost))):
            with self.assertRaises(faults.Wrong):
                self.after(trial, *wrong)

    def test_of_a_batch_again_each_row_is_repeated_that_the_book_has(self):
        trial = self.trial(["import"], "head\nA-1,settled,1,1\nA-2,refused,,3\nA-3,queued,2,1\n", books=3)
        trial.again = Ran(0, "head\nA-1,repeated,1,settled\nA-2,refused,,3\nA-3,repeated,2,queued\n")
        wanted = Ran(0, "head\nA-1,repeated,1,settled\nA-2,refused,,3\nA-3,queued,2,1\n")
        self.assertEqual([trial.again_over(it) for it in range(3)], [trial.good.ran, wanted, trial.again])


class Images(unittest.TestCase):
    def test_what_a_failed_sync_was_to_make_safe_is_lost_and_no_later_sync_makes_it_safe(self):
        history = History({BOOK: b"aa"})
        for it in (Event(WRITE, BOOK, 0, b"b"), Event(FAILED, BOOK, errno.EIO, b"sync"), Event(WRITE, BOOK, 1, b"c"),
                   Event(SYNC, BOOK)):
            history.step(it)
        self.assertEqual(history.image(crash_images.Nothing()), {BOOK: b"ac"})

    def test_nothing_leaves_what_is_safe_alone(self):
        history = History({BOOK: b"aa"})
        for it in (Event(MADE, lives.LOG), Event(WRITE, BOOK, 0, b"b")):
            history.step(it)
        self.assertEqual(history.image(crash_images.Nothing()), {BOOK: b"aa"})


if __name__ == "__main__":
    unittest.main()
