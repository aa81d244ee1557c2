"""The processor time of tasks that run side by side."""
import os
import subprocess
import sys
import threading
import unittest
from concurrent.futures import ThreadPoolExecutor
from unittest import mock

from lib import processor_time

# what works for a quarter of a second of a processor, by itself or in a process of its own
WORK = "import time\nwhile time.process_time() < 0.25: pass"
BELOW = f"import subprocess, sys\nsubprocess.run([sys.executable, '-c', {WORK!r}])"


def work(text):
    subprocess.run([sys.executable, "-c", text], check=True)


class Tasks(unittest.TestCase):
    def setUp(self):
        for place, name in ((threading.Thread, "start"), (os, "waitpid")):
            patch = mock.patch.object(place, name, getattr(place, name))
            patch.start()
            self.addCleanup(patch.stop)
        processor_time.watch()

    def used(self, call):
        with processor_time.of_task() as used:
            call()
        return used.seconds

    def test_each_task_has_what_its_own_processes_used_and_those_below_them(self):
        calls = [lambda: work(BELOW), lambda: None, lambda: [work(WORK) for _ in range(3)]]
        with ThreadPoolExecutor(3) as pool:
            one, none, three = pool.map(self.used, calls)
        self.assertTrue(none < 0.25 <= one < 0.75 <= three, (one, none, three))

    def test_a_thread_that_a_task_starts_belongs_to_it(self):
        def in_a_pool():
            with ThreadPoolExecutor(2) as pool:
                list(pool.map(work, [WORK, WORK]))

        self.assertGreaterEqual(self.used(in_a_pool), 0.5)

    def test_its_own_work_counts_and_what_comes_after_it_does_not(self):
        self.assertGreaterEqual(self.used(lambda: sum(range(5_000_000))), 0.01)
        with processor_time.of_task() as used:
            pass
        work(WORK)
        self.assertLess(used.seconds, 0.1)

    def test_all_that_was_waited_for_counts_for_the_process(self):
        before = processor_time.of_all()
        work(BELOW)
        self.assertGreaterEqual(processor_time.of_all() - before, 0.25)

    def test_how_a_process_ended_is_told_as_before(self):
        self.assertEqual(subprocess.run(["sh", "-c", "exit 3"], check=False).returncode, 3)
        self.assertEqual(subprocess.run(["sh", "-c", "kill -9 $$"], check=False).returncode, -9)
        with self.assertRaises(ChildProcessError):
            os.waitpid(os.getpid(), 0)


if __name__ == "__main__":
    unittest.main()
