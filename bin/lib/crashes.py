"""Disks that a power cut may leave at the moments of lives, opened by the program, by as many workers as there are
processors."""
import collections
import concurrent.futures
import multiprocessing
import os
import random
import tempfile

from lib import lives, runs, watched
from lib.crash_images import Chance, History

NO_BOOK = runs.Ran(3, "", "refused 93 NotADeskFile\n")
MADE = runs.Ran(0, "initialised\n")
# how many disks a worker opens before it asks for more, and the greatest weight of a moment
AT_ONCE, HEAVIEST = 100, 20
# the lives that the workers of a pool look at
LIVES = []


def pool():
    """Returns workers, which see the lives that are here now."""
    return concurrent.futures.ProcessPoolExecutor(os.cpu_count(), multiprocessing.get_context("fork"))


def judged(at):
    """Returns a life, with the book at each of its moments, and how many commands it answered."""
    with watched.room() as folder, watched.room() as other:
        return LIVES[at], LIVES[at].judge(folder, other)


class Found:
    """What was found on disks: how many of which kind of run were opened, how often each part was taken, and what was
    wrong."""

    def __init__(self):
        self.kinds, self.parts, self.wrong = collections.Counter(), collections.Counter(), []

    def joins(self, other):
        """Takes what was found elsewhere."""
        self.kinds.update(other.kinds)
        self.parts.update(other.parts)
        self.wrong += other.wrong


class Disks:
    """Opens the disks of one life, in a folder."""

    def __init__(self, life, folder):
        self.life, self.folder, self.found = life, folder, Found()

    def tries(self, moment, image):
        """Opens a disk of a moment. Returns what is wrong with what was found, or nothing."""
        allowed = [self.life.answers[it] for it in self.life.allowed(moment)]
        watched.put(self.folder, image)
        opened = self.life.opened(self.folder)
        if opened not in allowed:
            return f"{self.told(opened)} is found, and not {' or '.join(self.told(it) for it in allowed)}"
        return self.made_again(image) if opened.ran == NO_BOOK else None

    def told(self, opened):
        """Says in words which book was found."""
        if opened in self.life.answers:
            return f"book {self.life.answers.index(opened)} of {len(self.life.books) - 1}"
        return f"no book of the life ({opened.ran.status} {(opened.ran.err or opened.ran.out).strip()[:60]})"

    def made_again(self, image):
        """Makes a book where none was found. It is made where the file is missing or empty, and else refused. Returns
        what is wrong."""
        watched.put(self.folder, image)
        book = f"{self.folder}/{lives.BOOK}"
        ran = runs.run("init", book)
        if image.get(lives.BOOK):
            return None if ran == runs.refused(96) else f"`init` of a file that is not empty: {ran}"
        is_made = ran == MADE and lives.tables_of(book) == self.life.books[1]
        return None if is_made else f"`init` where no book is: {ran}"

    def by_chance(self, history, moment, seed):
        """Opens a disk of a moment that is built by a seed. One that is wrong is kept."""
        chance = Chance(seed)
        image = history.image(chance)
        self.found.kinds[self.life.session_at(moment).kind] += 1
        self.found.parts.update(chance.counts)
        wrong = self.tries(moment, image)
        if wrong:
            self.found.wrong.append(f"{self.life.name}, after {moment} events, by {seed}: {wrong}; {keep(image)}")


def keep(image):
    """Keeps a disk, and says where."""
    folder = tempfile.mkdtemp(prefix="power-cut-")
    watched.put(folder, image)
    return f"kept in {folder}"


def opens_disks(task):
    """Opens disks of one life, given as pairs of a moment and a seed in the order of the moments."""
    number, pairs = task
    life, done = LIVES[number], 0
    history = History(life.files)
    with watched.room() as folder:
        disks = Disks(life, folder)
        for moment, seed in pairs:
            for event in life.events[done:moment]:
                history.step(event)
            done = moment
            disks.by_chance(history, moment, seed)
    return disks.found


def moments_of_kinds():
    """Returns the moments of each kind of run, as numbers of a life and of its events, with how much is not safe."""
    moments = collections.defaultdict(dict)
    for number, life in enumerate(LIVES):
        history = History(life.files)
        for at, event in enumerate(life.events, 1):
            history.step(event)
            moments[life.session_at(at).kind][number, at] = min(history.weight(), HEAVIEST)
    return moments


def chosen(images, kinds, seed):
    """Returns the disks to open of each life: as many of each kind of run, at each moment at which all is safe at most
    one, and at the others more the more is not safe."""
    chance, moments, pairs = random.Random(seed), moments_of_kinds(), collections.defaultdict(list)
    for nth, kind in enumerate(kinds):
        count = images * (nth + 1) // len(kinds) - images * nth // len(kinds)
        safe = [it for it, weight in moments[kind].items() if not weight][:count // 5]
        unsafe = {it: weight for it, weight in moments[kind].items() if weight}
        picked = safe + chance.choices(list(unsafe), list(unsafe.values()), k=count - len(safe))
        for place, (number, at) in enumerate(picked):
            pairs[number].append((at, f"{seed}/{kind}/{place}"))
    return pairs


def cut_everywhere(images, kinds, seed):
    """Opens this many disks of all lives, and returns what was found."""
    tasks, found = [], Found()
    for number, pairs in sorted(chosen(images, kinds, seed).items()):
        pairs.sort()
        tasks += [(number, pairs[at:at + AT_ONCE]) for at in range(0, len(pairs), AT_ONCE)]
    with pool() as workers:
        for it in workers.map(opens_disks, tasks):
            found.joins(it)
    return found
