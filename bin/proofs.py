"""Crates proved side by side where neither stands on the other, as many at once as there are processors and memory for.

The crate with the longest chain of proofs behind it, in the minutes that the last whole gate took for each, is given
all processors, and another those that no proof waits for. What is proved already is not proved again. Of a crate that
is not proved the log is shown.
"""
import copy
import os
import re
import sys
import tempfile
import threading
import time
from concurrent.futures import ThreadPoolExecutor

import kit

# what a proof takes of memory, as a part of what rt reckons: a quarter at most, as measured
MEMORY = 1 / 3
# how much a proof gives way that a shorter chain waits for
PATIENCE = 10
# a crate's line in the gate's table, and what a crate weighs that has none
PROOF = re.compile(r"^(\w+) +([0-9]+\.[0-9]) ", re.M)
USUAL = 1.0


def minutes_of_proofs(top=kit.TOP):
    """Returns the lane-minutes that the last whole gate took for each crate's proof, as far as its table is there."""
    try:
        with open(f"{top}/evidence/gate.txt", encoding="utf-8") as it:
            return {name: float(minutes) for name, minutes in PROOF.findall(it.read())}
    except OSError:
        return {}


def chains(crates, minutes):
    """Returns for each crate, given lowest first, the minutes of the longest chain that begins with its own proof."""
    weights = {it.name: minutes.get(it.name, USUAL) for it in crates}
    longest = dict(weights)
    for crate in reversed(crates):
        for low in kit.below(crate):
            longest[low.name] = max(longest[low.name], weights[low.name] + longest[crate.name])
    return weights, longest


class Proofs:
    """The proofs of crates, which are given lowest first, and how far they are. `tell` takes a line of that."""

    def __init__(self, crates, tell):
        self.crates, self.tell, self.guard = crates, tell, threading.Lock()
        self.start, self.proved = time.monotonic(), 0
        self.weights, self.chains = chains(crates, minutes_of_proofs())
        self.left = set(self.chains)

    def are_made(self):
        """Proves what is not proved already, and returns whether all is."""
        with kit.held(self.crates):
            return all(kit.in_lanes(self.tasks()).values())

    def tasks(self):
        """Returns the crates as kit.in_lanes takes them: what each waits for, its work, its memory, and its call."""
        waits = {it.name: [kit.proof(low.name) for low in kit.below(it)] for it in self.crates}
        return {kit.proof(it.name): (waits[it.name], *self.needs(it), self.task(it)) for it in self.crates}

    def needs(self, crate):
        """Returns the minutes and the memory that a crate's proof is reckoned to take."""
        return self.weights[crate.name], MEMORY * kit.memory_of(crate)

    def task(self, crate):
        """Returns a call that proves the crate with a number of jobs once the crates below it are proved."""

        def call(given, jobs):
            if not all(given[kit.proof(it.name)] for it in kit.below(crate)):
                return False
            jobs, patience = (kit.processors(), 0) if self.is_first(crate) else (jobs, PATIENCE)
            # (of a thread, so that what it starts gives way and nothing else)
            with ThreadPoolExecutor(1, initializer=os.nice, initargs=(patience,)) as apart:
                return apart.submit(self.prove, copy.copy(crate), jobs).result()

        return call

    def is_first(self, crate):
        """Returns whether no longer chain of proofs begins with another crate that is left."""
        with self.guard:
            return self.chains[crate.name] == max(self.chains[it] for it in self.left)

    def prove(self, crate, jobs):
        """Returns whether the crate is proved, and tells it."""
        with tempfile.TemporaryFile("w+", errors="replace") as log:
            is_proved = kit.is_proved(crate, jobs, log)
            log.seek(0)
            with self.guard:
                self.left.remove(crate.name)
                self.proved += is_proved
                took = time.monotonic() - self.start
                if is_proved:
                    self.tell(f"{self.proved} of {len(self.crates)} crates after {took:.0f} s: {crate.name}")
                else:
                    sys.stderr.write(log.read())
                    self.tell(f"{crate.name} is not proved")
        return is_proved
