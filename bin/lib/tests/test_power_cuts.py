"""What the checks of power cuts and of faulty disks share, with a program of a few lines in the place of the desk."""
import contextlib
import errno
import os
import shutil
import signal
import subprocess
import sys
import tempfile
import unittest
from unittest import mock

from lib import crash_images, crashes, desks, lives, runs, unsynced, watched
from lib.checks import power_cuts
from lib.crash_images import Chance, History, Kept
from lib.report import Report
from lib.watched import CUT, FOLDER, MADE, SAID, SYNC, WRITE, Event

BOOK, LOG = lives.BOOK, lives.LOG
# makes a file, changes it, makes it and the folder safe, and says so
PROGRAM = """import os, sys
os.chdir(sys.argv[1])
here = os.getcwd()
file = os.open(here + "/book.desk", os.O_RDWR | os.O_CREAT, 0o644)
os.pwrite(file, b"one\\ntwo", 2)
os.ftruncate(file, 4)
os.fsync(file)
os.fsync(os.open(here, os.O_RDONLY))
os.fdatasync(file)
os.write(1, b"added\\n")
"""


@unittest.skipUnless(shutil.which("cc"), "needs cc")
class Watched(unittest.TestCase):
    def setUp(self):
        room = tempfile.TemporaryDirectory()
        self.addCleanup(room.cleanup)
        os.mkdir(f"{room.name}/books")
        self.watch = watched.Watch(f"{room.name}/books", watched.library(room.name))

    def ran(self, **more):
        words = [sys.executable, "-S", "-c", PROGRAM, self.watch.folder]
        return subprocess.run(words, env=self.watch.environment(**more), capture_output=True, text=True, check=False)

    def test_each_change_sync_and_line_is_noted_in_order(self):
        self.assertEqual(self.ran().returncode, 0)
        wanted = [Event(MADE, BOOK), Event(WRITE, BOOK, 2, b"one\ntwo"), Event(CUT, BOOK, 4), Event(SYNC, BOOK),
                  Event(SYNC, FOLDER), Event(SYNC, BOOK), Event(SAID, "out", 0, b"added\n")]
        self.assertEqual(self.watch.events(), wanted)
        self.assertEqual(self.watch.files(), {BOOK: b"\0\0on"})

    def test_the_events_done_again_give_the_same_files(self):
        self.ran()
        with tempfile.TemporaryDirectory() as folder:
            for event in self.watch.events():
                watched.redo(folder, event)
            self.assertEqual(watched.files_in(folder), self.watch.files())

    def test_a_call_fails_where_it_is_chosen(self):
        ran = self.ran(DESK_FAILS=f"sync {BOOK} 2 {errno.EIO}")
        self.assertIn("Input/output error", ran.stderr)
        kinds = [it.kind for it in self.watch.events() if it.name != "error"]
        self.assertEqual(kinds, [MADE, WRITE, CUT, SYNC, SYNC, watched.FAILED])

    def test_a_run_is_killed_before_a_call_that_is_chosen(self):
        self.assertEqual(self.ran(DESK_ENDS=f"cut {BOOK} 1").returncode, -signal.SIGKILL)
        self.assertEqual([it.kind for it in self.watch.events()], [MADE, WRITE])


class Images(unittest.TestCase):
    def history(self, *events, files=None):
        history = History(files or {BOOK: b"a" * 2000})
        for it in events:
            history.step(it)
        return history

    def images(self, history, count=400):
        return [history.image(Chance(str(seed))) for seed in range(count)]

    def test_what_is_safe_stays(self):
        history = self.history(Event(WRITE, BOOK, 0, b"b" * 900), Event(SYNC, BOOK), Event(SAID, "out", 0, b"done"))
        self.assertEqual(history.weight(), 0)
        self.assertEqual({it[BOOK] for it in self.images(history)}, {b"b" * 900 + b"a" * 1100})

    def test_of_a_write_any_sectors_are_there_and_nothing_else_changes(self):
        found = {it[BOOK] for it in self.images(self.history(Event(WRITE, BOOK, 500, b"b" * 1000)))}
        self.assertTrue(all(it[:500] + it[1500:] == b"a" * 1000 and len(it) == 2000 for it in found))
        sectors = {(it[500], it[512], it[1024]) for it in found if len({it[512:1024], b"a" * 512, b"b" * 512}) == 2}
        self.assertEqual(len(sectors), 8)
        self.assertTrue(any(b"ab" in it[520:1020] or b"ba" in it[520:1020] for it in found))

    def test_a_sync_of_another_file_makes_nothing_safe(self):
        history = self.history(Event(MADE, LOG), Event(WRITE, BOOK, 0, b"b"), Event(SYNC, LOG), Event(SYNC, FOLDER))
        self.assertEqual({it[BOOK][:1] for it in self.images(history)}, {b"a", b"b"})

    def test_a_name_may_be_missing_until_the_folder_is_synced(self):
        history = self.history(Event(MADE, LOG), Event(WRITE, LOG, 0, b"b"), Event(SYNC, LOG))
        self.assertEqual({LOG in it for it in self.images(history)}, {True, False})
        history.step(Event(SYNC, FOLDER))
        self.assertEqual({it.get(LOG) for it in self.images(history)}, {b"b"})

    def test_a_length_may_be_any_that_it_had_or_that_lies_between(self):
        history = self.history(Event(CUT, BOOK, 10), Event(WRITE, BOOK, 10, b"b" * 90))
        lengths = {len(it[BOOK]) for it in self.images(history)}
        self.assertEqual((min(lengths), max(lengths)), (10, 2000))
        self.assertTrue({100} < lengths)

    def test_past_what_is_safe_there_may_be_bytes_that_nobody_wrote(self):
        found = {it[BOOK][2000:] for it in self.images(self.history(Event(WRITE, BOOK, 2600, b"b" * 10)))}
        self.assertTrue(any(set(it) - {0, ord("b")} for it in found))

    def test_an_older_write_may_be_seen_over_a_newer_one(self):
        history = self.history(Event(WRITE, BOOK, 0, b"b"), Event(WRITE, BOOK, 0, b"c"))
        self.assertEqual({it[BOOK][:1] for it in self.images(history)}, {b"a", b"b", b"c"})

    def test_each_part_is_counted(self):
        history = self.history(Event(MADE, LOG), Event(WRITE, LOG, 0, b"b" * 600), Event(CUT, BOOK, 10))
        counts = dict.fromkeys(crash_images.PARTS, 0)
        for seed in range(300):
            chance = Chance(str(seed))
            history.image(chance)
            counts = {part: count + chance.counts[part] for part, count in counts.items()}
        self.assertEqual([part for part, count in counts.items() if not count], [])

    def test_the_same_seed_gives_the_same_disk(self):
        history = self.history(Event(WRITE, BOOK, 1900, b"b" * 5000))
        self.assertEqual(history.image(Chance("7")), history.image(Chance("7")))

    def test_a_swallowed_sync_leaves_its_calls_to_be_lost_and_later_ones_stay(self):
        history = self.history(Event(WRITE, BOOK, 0, b"b"))
        history.swallow(Event(SYNC, BOOK))
        history.step(Event(WRITE, BOOK, 1, b"c"))
        self.assertEqual(next(crash_images.lost(history, BOOK, "1"))[BOOK][:2], b"ac")
        history.step(Event(SYNC, BOOK))
        self.assertEqual(history.files[BOOK].swallowed, 0)

    def test_a_swallowed_sync_of_the_folder_leaves_its_names_to_be_lost(self):
        history = self.history(Event(MADE, LOG))
        history.swallow(Event(SYNC, FOLDER))
        self.assertEqual([sorted(it) for it in crash_images.lost(history, FOLDER, "1")], [[BOOK]])

    def test_a_write_of_what_is_there_changes_nothing(self):
        kept = Kept(b"ab")
        kept.later.append(Event(WRITE, BOOK, 0, b"a"))
        self.assertFalse(kept.changes())
        kept.later.append(Event(CUT, BOOK, 1))
        self.assertTrue(kept.changes())


class FakeLife(lives.Life):
    """A life whose book is the number in its file, and whose program prints that."""

    def __init__(self, *events):
        self.name, self.opens, self.files = "fake", "accounts", {BOOK: b"0"}
        self.events, self.sessions = list(events), [lives.Session("serve", "serve", 0, len(events))]
        self.seen, self.least, self.books, self.answers = [0], [0], [], []
        self.watch = mock.Mock()
        self.watch.files.return_value = History(self.files).seen()

    def judge(self, *_):
        history = History(self.files)
        for it in self.events:
            history.step(it)
        self.watch.files.return_value = history.seen()
        with tempfile.TemporaryDirectory() as folder, tempfile.TemporaryDirectory() as other:
            return super().judge(folder, other)

    @staticmethod
    def tables_in(folder, _):
        return desks.content(f"{folder}/{BOOK}")

    def opened(self, folder):
        found = desks.content(f"{folder}/{BOOK}") if os.path.exists(f"{folder}/{BOOK}") else b""
        return lives.Opened(runs.Ran(0, found.decode("latin-1")), found)


def commit(number):
    """The events of a command that makes the book be this one and is answered."""
    return [Event(WRITE, BOOK, 0, b"%d" % number), Event(SYNC, BOOK), Event(SAID, "out", 0, b"added\n")]


class Lives(unittest.TestCase):
    def test_what_is_seen_must_be_found_once_something_is_said(self):
        life = FakeLife(*commit(1), *commit(2))
        self.assertEqual(life.judge(), 2)
        self.assertEqual([list(life.allowed(it)) for it in range(7)], [[0], [0, 1], [0, 1], [1], [1, 2], [1, 2], [2]])

    def test_what_is_seen_must_be_found_once_a_later_command_writes(self):
        life = FakeLife(*commit(1)[:2], *commit(2))
        life.judge()
        self.assertEqual(list(life.allowed(3)), [1, 2])

    def test_an_answer_before_its_book_is_seen_is_wrong(self):
        with self.assertRaisesRegex(desks.Broken, "1 answers, and 0 commands"):
            FakeLife(*reversed(commit(1))).judge()

    def test_a_book_that_comes_back_is_wrong(self):
        with self.assertRaisesRegex(desks.Broken, "comes back"):
            FakeLife(*commit(1), *commit(0)).judge()

    def test_files_that_the_events_do_not_give_are_wrong(self):
        life = FakeLife(*commit(1))
        with mock.patch.object(watched, "files_in", return_value={}):
            with self.assertRaisesRegex(desks.Broken, "the files are not those"):
                life.judge()

    def test_answers_to_commands_that_act_are_counted(self):
        said = (b"reference,result,number,detail\nA-1,settled,1,1\nA-2,repeated,1,settled\nA-3,refused,,3\n"
                b'{"answer":"queued","number":2}{"answer":"repeated","number":2,"state":"settled"}\n'
                b"posted 3\nnothing\nrepeated\nresolved mark 1 count 2 value 3\n")
        self.assertEqual(len(lives.ACTED.findall(said)), 4)


class Crashes(unittest.TestCase):
    def setUp(self):
        # a program that answers before its second sync
        late = [Event(WRITE, BOOK, 0, b"2"), Event(SAID, "out", 0, b"added\n"), Event(SYNC, BOOK)]
        self.lives = [FakeLife(*commit(1), *commit(2)), FakeLife(*commit(1), *late)]
        for it in self.lives:
            it.judge()
        here = mock.patch.object(crashes, "LIVES", self.lives)
        here.start()
        self.addCleanup(here.stop)

    def wrong(self, number):
        pairs = [(moment, str(seed)) for moment in range(1, 7) for seed in range(20)]
        with mock.patch.object(crashes, "keep", return_value="kept"):
            return crashes.opens_disks((number, pairs)).wrong

    def test_a_program_that_syncs_before_it_answers_is_well(self):
        self.assertEqual(self.wrong(0), [])

    def test_a_program_that_answers_before_it_syncs_is_found(self):
        wanted = "^fake, after 5 events, by .*: book 1 of 2 is found, and not book 2 of 2; kept$"
        self.assertRegex(self.wrong(1)[0], wanted)

    def test_as_many_disks_are_chosen_of_each_kind_and_the_safe_moments_once(self):
        pairs = crashes.chosen(100, ["serve"], "1")
        self.assertEqual(sum(map(len, pairs.values())), 100)
        safe = [(number, moment) for number, some in pairs.items() for moment, _ in some if moment in (2, 3)]
        self.assertEqual((len(safe), len(set(safe))), (4, 4))

    def test_syncs_are_left_out_and_those_that_an_answer_rests_on_are_found(self):
        found = list(unsynced.alone(0, self.lives[0]))
        self.assertEqual([(it.what, it.events) for it in found], [(unsynced.PAGES, (1,)), (unsynced.PAGES, (4,))])
        self.assertTrue(all(map(unsynced.shown, found)))

    def test_the_syncs_that_are_found_and_those_that_were_left_out_are_counted(self):
        with mock.patch.object(crashes, "pool") as pool:
            pool.return_value.__enter__.return_value.map = map
            found, tried = unsynced.leave_out("1", Report(lambda *_, **__: None))
        self.assertEqual((found, tried), (5, 5))

    def test_the_sum_of_all_disks_is_found_last(self):
        report, given = Report(lambda *_, **__: None), mock.Mock(seed="1", tried=40)
        with contextlib.ExitStack() as stack:
            for what, name, other in ((power_cuts, "SCENARIOS", ()), (power_cuts, "Lives", mock.MagicMock()),
                                      (crashes, "pool", mock.MagicMock()), (unsynced, "leave_out", lambda *_: (3, 4)),
                                      (crashes, "cut_everywhere", lambda *_: crashes.Found())):
                stack.enter_context(mock.patch.object(what, name, other))
            power_cuts.run(given, report)
        told = (f"40 disks, of which 0 hold another book; 3 of 4 syncs that were left out are found; {report.right} "
                f"things as they must be, {report.wrong} not")
        self.assertEqual((report.is_summed(), report.found[-1]), (True, told))

    def test_all_syncs_of_a_run_are_left_out(self):
        found = list(unsynced.in_whole_runs(0, self.lives[0]))
        self.assertEqual([(it.name, it.what, it.events) for it in found], [(BOOK, unsynced.ALL, (1, 4))])
        self.assertTrue(unsynced.shown(found[0]))

    def test_syncs_that_cover_one_another_are_left_out_together(self):
        write, sync, *said = commit(1)
        life = FakeLife(write, sync, sync, *said, sync)
        life.judge()
        self.assertEqual([(it.what, it.events) for it in unsynced.alone(0, life)], [(unsynced.PAGES, (1, 2))])

    def test_what_a_sync_of_the_log_makes_safe_is_known_by_the_last_call(self):
        calls = {unsynced.SHUT: (0, b"\0"), unsynced.VALID: (0, b"7"), unsynced.HEADER: (1, b"x" * 40),
                 unsynced.AHEAD: (41, b"x" * 9), unsynced.COMMIT: (40, b"x")}
        self.assertEqual({what: unsynced.of_log(Event(WRITE, LOG, *it)) for what, it in calls.items()},
                         {it: it for it in calls})


if __name__ == "__main__":
    unittest.main()
