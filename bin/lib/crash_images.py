"""What a power cut may leave of the files of a folder, whose calls were noted.

Of each file that is what its last sync made safe, and of what came later any part, in any order. A write may be there
whole, or some of its sectors, or a part of one of them, or nothing of it. Past the length that is safe the file may
hold anything. The length is any of those that it had or lay between. A name may be missing where no sync of the folder
came after it was made. What a sync of a file that failed was to make safe is not there, and no later sync makes it
safe: systems take it for written.
"""
import random

from lib.watched import CUT, FAILED, FOLDER, MADE, SYNC, WRITE

SECTOR = 512
# what may be there of a write, of a file, or of a folder
WHOLE, TORN, BYTES, NONE = "whole", "torn into sectors", "torn within a sector", "not there"
MISSING, SHORTER, LONGER, NOISE = "a name missing", "a file shorter", "a file longer", "noise past what is safe"
PARTS = (WHOLE, TORN, BYTES, NONE, MISSING, SHORTER, LONGER, NOISE)
# how likely each part of a write is, of which one row is taken for an image
MOODS = ((4, 2, 1, 3), (1, 1, 0, 8), (8, 1, 0, 1), (1, 5, 2, 2), (0, 0, 0, 1), (1, 0, 0, 0))


class Kept:
    """A file: what is safe of it, and the calls that came later."""

    def __init__(self, safe=b""):
        self.safe, self.later = bytes(safe), []
        # how many of the later calls a swallowed sync would have made safe
        self.swallowed = 0

    def seen(self):
        """Returns the file's bytes as a read gives them."""
        data = bytearray(self.safe)
        for it in self.later:
            apply(data, it)
        return bytes(data)

    def changes(self):
        """Returns whether later calls changed what is safe."""
        return bool(self.later) and self.seen() != self.safe

    def sync(self):
        """Makes all of it safe."""
        self.safe, self.later, self.swallowed = self.seen(), [], 0

    def lengths(self):
        """Returns the least and the greatest length that it may have."""
        least = most = len(self.safe)
        for it in self.later:
            least, most = min(least, it.at if it.kind == CUT else least), max(most, it.at + len(it.data))
        return least, most


def apply(data, event):
    """Makes a call's change to a file's bytes."""
    end = event.at + len(event.data)
    if len(data) < end:
        data.extend(bytes(end - len(data)))
    if event.kind == CUT:
        del data[event.at:]
    else:
        data[event.at:end] = event.data


class History:
    """The files of a folder after some events, and which of their names are not safe."""

    def __init__(self, files):
        self.files, self.unsafe = {name: Kept(data) for name, data in files.items()}, set()
        # the names that a swallowed sync of the folder would have made safe
        self.swallowed = set()

    def swallow(self, event):
        """Leaves out a sync, and keeps what it would have made safe."""
        if event.name == FOLDER:
            self.swallowed = set(self.unsafe)
        else:
            self.files[event.name].swallowed = len(self.files[event.name].later)

    def step(self, event):
        """Goes on by an event."""
        if event.kind == MADE:
            self.files[event.name] = Kept()
            self.unsafe.add(event.name)
        elif event.kind in (WRITE, CUT):
            self.files[event.name].later.append(event)
        elif event.kind == SYNC and event.name == FOLDER:
            self.unsafe.clear()
            self.swallowed.clear()
        elif event.kind == SYNC:
            self.files[event.name].sync()
        elif event.kind == FAILED and event.data == SYNC.encode() and event.name in self.files:
            self.files[event.name].later.clear()

    def seen(self):
        """Returns the bytes of each file as reads give them."""
        return {name: it.seen() for name, it in self.files.items()}

    def weight(self):
        """Returns how much is not safe: calls, sectors of writes, and, since there are few, names more than these."""
        return 10 * len(self.unsafe) + sum(
            (it.at + len(it.data)) // SECTOR - it.at // SECTOR + 1 for kept in self.files.values() for it in kept.later)

    def image(self, chance):
        """Returns the bytes of each file that is there after a power cut, by chance."""
        image = {}
        for name, kept in self.files.items():
            if name in self.unsafe and chance.loses():
                continue
            image[name] = chance.left(kept) if kept.later else kept.safe
        return image


def sectors_of(event):
    """Returns the parts of a write that lie in one sector each, as the offsets where they begin and end."""
    end = event.at + len(event.data)
    edges = [event.at, *range(event.at - event.at % SECTOR + SECTOR, end, SECTOR), end]
    return list(zip(edges, edges[1:]))


class Chance:
    """What a power cut leaves, by a seed. `counts` has how often each part was taken."""

    def __init__(self, seed):
        self.random, self.counts = random.Random(seed), dict.fromkeys(PARTS, 0)
        self.mood = self.random.choice(MOODS)
        self.noisy = self.random.random() < 0.2

    def takes(self, part):
        """Counts a part."""
        self.counts[part] += 1

    def loses(self):
        """Returns whether a name is missing that is not safe."""
        is_lost = self.random.random() < 0.3
        self.counts[MISSING] += is_lost
        return is_lost

    def filled(self, count):
        """Returns this many bytes that nobody wrote."""
        return self.random.randbytes(count) if self.noisy else bytes(count)

    def left(self, kept):
        """Returns what is left of a file."""
        least, most = kept.lengths()
        data = bytearray(kept.safe)
        data.extend(self.filled(most - len(data)))
        self.counts[NOISE] += self.noisy and most > len(kept.safe)
        later, natural = list(kept.later), len(kept.safe)
        if self.random.random() < 0.3:
            self.random.shuffle(later)
        for it in later:
            natural = self.changed(data, it, natural)
        return self.cut(data, natural, least, most, len(kept.seen()))

    def changed(self, data, event, length):
        """Makes a part of a call's change to a file's bytes, and returns the length that the file has by it."""
        if event.kind == CUT:
            if self.random.choices((True, False), (self.mood[0] + 1, self.mood[3] + 1))[0]:
                data[event.at:] = self.filled(max(0, len(data) - event.at))
                return event.at
            return length
        for start, end in self.parts(event):
            data[start:end] = event.data[start - event.at:end - event.at]
            length = max(length, end)
        return length

    def parts(self, event):
        """Returns which parts of a write are there, as the offsets where they begin and end."""
        sectors = sectors_of(event)
        part = self.random.choices((WHOLE, TORN, BYTES, NONE), self.mood)[0]
        if part == TORN and len(sectors) == 1 or part == BYTES and all(it[1] - it[0] == 1 for it in sectors):
            part = self.random.choice((WHOLE, NONE))
        self.takes(part)
        if part in (WHOLE, NONE):
            return [(event.at, event.at + len(event.data))] if part == WHOLE else []
        if part == TORN:
            return self.random.sample(sectors, self.random.randrange(1, len(sectors)))
        start, end = self.random.choice([it for it in sectors if it[1] - it[0] > 1])
        middle = self.random.randrange(start + 1, end)
        return [self.random.choice(((start, middle), (middle, end)))]

    def cut(self, data, natural, least, most, seen):
        """Returns the file's bytes up to its length: the one that its calls give, or any that it may have."""
        choices = (natural, seen, least, most, self.random.randint(least, most))
        length = self.random.choices(choices, (6, 1, 1, 1, 1))[0]
        self.counts[SHORTER] += length < seen
        self.counts[LONGER] += length > seen
        return bytes(data[:length])


class Nothing:
    """Leaves what is safe, and nothing else."""

    @staticmethod
    def loses():
        """Returns whether a name is missing that is not safe."""
        return True

    @staticmethod
    def left(kept):
        """Returns what is left of a file."""
        return kept.safe


class Lost:
    """Loses of one file these calls, by their places among those that came later, and nothing else."""

    def __init__(self, name, places):
        self.name, self.places = name, places

    def loses(self):
        """Returns whether a name is missing that is not safe."""
        return False

    def left(self, kept):
        """Returns what is left of a file."""
        data = bytearray(kept.safe)
        for place, it in enumerate(kept.later):
            if not (kept.swallowed and place in self.places):
                apply(data, it)
        return bytes(data)


def lost(history, name, seed, most=12, by_chance=8):
    """Yields disks on which something is lost of what a swallowed sync of a file would have made safe: all of it, one
    call, all but one, and parts by chance."""
    if name == FOLDER:
        for it in sorted(history.swallowed):
            yield {key: data for key, data in history.seen().items() if key != it}
        return
    count = history.files[name].swallowed
    places = range(count)
    yield history.image(Lost(name, set(places)))
    for it in list(places)[:most] if count > 1 else []:
        yield history.image(Lost(name, {it}))
        yield history.image(Lost(name, set(places) - {it}))
    for it in range(by_chance):
        yield history.image(Chance(f"{seed}/{it}"))
