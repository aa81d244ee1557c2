"""Tests of which proofs come first."""
import contextlib
import io
import os
import tempfile
import threading
import types
import unittest
from unittest import mock

import kit
import proofs

TABLE = """lane-minutes               proof   tests  mutants     sum  edits  s an edit
low                          2.0     0.0      0.0     2.0      0          -
side                         4.0     0.0      0.0     4.0      0          -
file                        13.2     0.0      0.0    13.2      0          -
all                         19.2     0.0      0.0    19.2      0          -
"""


def crate(name, *lower):
    return types.SimpleNamespace(name=name, below=lambda: list(lower))


class Chains(unittest.TestCase):
    def setUp(self):
        self.low = crate("low")
        self.side, self.file = crate("side", self.low), crate("file", self.low)
        self.top = crate("top", self.low, self.side, self.file)
        self.all = [self.low, self.side, self.file, self.top]

    def test_minutes_are_those_of_the_last_gate(self):
        with tempfile.TemporaryDirectory() as top:
            self.assertEqual(proofs.minutes_of_proofs(top), {})
            os.mkdir(f"{top}/evidence")
            with open(f"{top}/evidence/gate.txt", "w", encoding="utf-8") as it:
                it.write(TABLE)
            found = proofs.minutes_of_proofs(top)
        wanted = {"low": 2.0, "side": 4.0, "file": 13.2}
        self.assertEqual({name: found[name] for name in wanted}, wanted)

    def test_the_longest_chain_counts_minutes_and_not_crates(self):
        _, longest = proofs.chains(self.all, {"low": 2.0, "side": 4.0, "file": 13.2})
        self.assertEqual(longest, {"top": 1.0, "side": 5.0, "file": 14.2, "low": 16.2})

    def test_without_minutes_crates_are_counted(self):
        _, longest = proofs.chains(self.all, {})
        self.assertEqual(longest, {"top": 1.0, "side": 2.0, "file": 2.0, "low": 3.0})

    def proved(self, *failing):
        """Has the crates proved, except those that fail. Returns whether all are, and what each was given of jobs, in
        the order in which they began."""
        begun, guard = {}, threading.Lock()

        def is_proved(it, jobs, _log):
            with guard:
                begun[it.name] = jobs
            return it.name not in failing

        stands_in = {"is_proved": is_proved, "processors": lambda: 4, "memory_of": lambda _: 1,
                     "held": contextlib.nullcontext}
        with mock.patch.multiple(kit, **stands_in), mock.patch.object(kit.scripts(), "processors", lambda: 4), \
                mock.patch.dict(os.environ, {"RT_JOBS": ""}):
            return proofs.Proofs(self.all, lambda _: None).are_made(), begun

    def test_the_longest_chain_gets_all_processors_and_another_what_is_idle(self):
        with mock.patch.object(proofs, "minutes_of_proofs", lambda: {"low": 2.0, "side": 4.0, "file": 13.2}):
            are_made, begun = self.proved()
        self.assertTrue(are_made)
        self.assertEqual([begun[it] for it in ("low", "file", "top")], [4, 4, 4])
        self.assertGreater(begun["side"], 1)

    def test_what_stands_on_a_crate_that_is_not_proved_is_not_begun(self):
        with contextlib.redirect_stderr(io.StringIO()):
            are_made, begun = self.proved("file")
        self.assertFalse(are_made)
        self.assertEqual(set(begun), {"low", "side", "file"})


if __name__ == "__main__":
    unittest.main()
