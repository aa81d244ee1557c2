"""Syncs that are left out, as if the program had not made them: the disks must show each that something rests on.

Syncs of one file between which nothing is said and nothing written stand for one another, and are left out together.
Then all syncs of one file are left out of a whole run.
"""
import collections
import random
import typing

from lib import crash_images, crashes, lives, watched
from lib.crash_images import FOLDER, History
from lib.watched import CUT, MADE, SAID, SYNC, WRITE

FILES = {lives.BOOK: "book", lives.LOG: "log", FOLDER: "folder"}
# what a sync makes safe that the disks must show
COMMIT, PAGES, LEFT, ALL = "a commit", "pages copied from the log", "a commit that a killed run left", "all of a run"
MUST = (COMMIT, PAGES, LEFT, ALL)
# what it makes safe that they do not show, and why
NOTHING, COVERED, EARLY = "nothing", "what a later sync covers", "a file without a book"
NAMES, OTHERS, AHEAD = "names", "what else an earlier run left", "frames without their commit"
SHUT, HEADER, VALID = "a log's header, shut", "a log's header, rewritten", "a log's header, valid"
WHY = {
    NOTHING: "what it makes safe was so before",
    COVERED: "the file is synced again before anything is said or written",
    EARLY: "nothing that was answered rests on a file that has no book",
    NAMES: "a run opens its files twice, and syncs the folder again before anything rests on the names",
    OTHERS: "it has no commit that was seen, or pages that the log has too",
    AHEAD: "the sums of the frames refuse a part of a commit; the store trusts no sum, and so makes this sync",
    SHUT: "the log has then no frames, or those whose pages the book has",
    HEADER: "the log has then no frames, or those whose pages the book has; a header that is torn has a wrong sum",
    VALID: "a log that is passed over has no frames yet, and the syncs of the next commit make its header safe",
}
# how many syncs of one sort are left out, and how many moments are looked at after one
MOST, MOMENTS = 5, 4


class LeftOut(typing.NamedTuple):
    """Syncs of one file of a life that are left out together: the kind of their run, what they make safe, and the
    numbers of their events."""

    life: int
    kind: str
    name: str
    what: str
    events: tuple


def what_is_safe_by(life, session, history, at):
    """Returns what a sync makes safe."""
    name = life.events[at].name
    if not (history.unsafe if name == FOLDER else history.files[name].changes()):
        return NOTHING
    if life.books[life.seen[at]] is None:
        return EARLY
    if name == FOLDER:
        return NAMES
    is_earlier = not any(it.name == name and it.kind in (WRITE, CUT) for it in life.events[session.first:at])
    if is_earlier:
        is_open = life.seen[session.first] > life.least[session.first]
        return LEFT if is_open and name == lives.LOG else OTHERS
    return PAGES if name == lives.BOOK else of_log(history.files[name].later[-1])


def of_log(last):
    """Returns what a sync of the log makes safe, by the last call before it."""
    if last.kind == WRITE and last.at == 0:
        return VALID if last.data[0] else SHUT
    if last.kind == WRITE and last.at == 1:
        return HEADER
    return COMMIT if last.kind == WRITE and len(last.data) == 1 else AHEAD


def alone(number, life):
    """Yields the syncs of a life that are left out together since they stand for one another."""
    history, groups = History(life.files), {}
    for at, event in enumerate(life.events):
        session = life.session_at(at + 1)
        if event.kind == SYNC and event.name not in groups:
            groups[event.name] = (session.kind, event.name, what_is_safe_by(life, session, history, at), [])
        if event.kind == SYNC:
            groups[event.name][3].append(at)
        elif groups:
            yield from (covered(life, LeftOut(number, *rest, tuple(events))) for *rest, events in groups.values())
            groups = {}
        history.step(event)


def covered(life, left_out):
    """Returns syncs that are left out, marked where a later one covers them."""
    is_covered = left_out.what != NOTHING and not moments_without(life, left_out)
    return left_out._replace(what=COVERED) if is_covered else left_out


def in_whole_runs(number, life):
    """Yields all syncs of a file of each run in which the book changes, and all of the folder where a name is made."""
    for session in life.sessions:
        events = list(enumerate(life.events))[session.first:session.last]
        answers = life.least[session.last] > life.seen[session.first] and any(it.kind == SAID for _, it in events)
        changed = {it.name if it.kind == WRITE else FOLDER for _, it in events if it.kind in (WRITE, MADE)}
        for name in changed if answers else ():
            syncs = tuple(at for at, it in events if it.kind == SYNC and it.name == name)
            yield LeftOut(number, session.kind, name, ALL, syncs)


def sorts(seed):
    """Returns the syncs that may be left out, of each sort, which is a kind of run, a file and what is made safe."""
    found = collections.defaultdict(list)
    for number, life in enumerate(crashes.LIVES):
        for it in (*alone(number, life), *in_whole_runs(number, life)):
            found[it.kind, it.name, it.what].append(it)
    chance = random.Random(seed)
    return {sort: (len(all_), chance.sample(all_, min(MOST, len(all_)))) for sort, all_ in sorted(found.items())}


def moments_without(life, left_out):
    """Returns moments at which it may show that syncs were left out: after something is said or written, until a later
    sync of the file makes it good."""
    moments, first = [], left_out.events[0]
    for at in range(first + 1, len(life.events)):
        event = life.events[at]
        if event.kind == SYNC and event.name == left_out.name and at not in left_out.events:
            break
        if event.kind != SYNC:
            moments.append(at + 1)
    said = [it for it in moments if life.events[it - 1].kind == SAID]
    # (more must be found from here on than before)
    more = [it for it in moments if life.least[it] > life.least[it - 1]]
    return sorted({*moments[:MOMENTS], *more[:MOMENTS], *more[-MOMENTS:], *said[-1:], *moments[-MOMENTS:]})


def shown(left_out):
    """Leaves syncs out, and returns what disks then show that is wrong, or nothing."""
    life, done = crashes.LIVES[left_out.life], 0
    history, events = History(life.files), set(left_out.events)
    if left_out.what in (NOTHING, COVERED):
        return None
    with watched.room() as folder:
        disks = crashes.Disks(life, folder)
        for moment in moments_without(life, left_out):
            for at in range(done, moment):
                (history.swallow if at in events else history.step)(life.events[at])
            done = moment
            for image in crash_images.lost(history, left_out.name, f"{left_out}/{moment}"):
                wrong = disks.tries(moment, image)
                if wrong:
                    return wrong
    return None


def leave_out(seed, report):
    """Leaves out syncs of each sort, and tells which the disks show, and of the others why they do not. What something
    rests on they must show each time, and the others never. Returns how many are shown of how many."""
    found = sorts(seed)
    tried = [it for _, some in found.values() for it in some]
    with crashes.pool() as workers:
        answers = dict(zip(tried, workers.map(shown, tried)))
    for name, what in sorted({(name, what) for _, name, what in found}, key=lambda it: (it[1] in WHY, *it)):
        of_sort = {kind: it for (kind, *rest), it in found.items() if rest == [name, what]}
        tells(f"{FILES[name]}, {what}", of_sort, answers, report)
    report.sees("what no sync made safe", sorted({*MUST, *WHY} - {COVERED, *(what for _, _, what in found)}), [])
    return sum(bool(it) for it in answers.values()), len(tried)


def tells(sort, of_kinds, answers, report):
    """Tells what was found of one sort of syncs, by kinds of run."""
    tried = [it for _, some in of_kinds.values() for it in some]
    wrong, must = [it for it in tried if answers[it]], [it for it in tried if it.what in MUST]
    count = sum(count for count, _ in of_kinds.values())
    told = f"{sort}: {len(wrong)} found of {len(tried)} left out, of {count} in {', '.join(of_kinds)}"
    report.finds(f"{told}. {WHY.get(tried[0].what, '')}".removesuffix(". "))
    report.sees(f"{sort}: those that are found", where(wrong), where(must))


def where(syncs):
    """Says where syncs are: the life's name, and the number of the first one's event."""
    return [f"{crashes.LIVES[it.life].name}, event {it.events[0]}" for it in syncs]
