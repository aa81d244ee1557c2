"""Tells what tests of the gate assert of hostile requests, hostile files, and stores and keepers that fail.

The tests fail at any other count, and state theirs in texts, which are read here. Hostile requests: each is sent to a
desk of its own, in whose keeper the commits are counted; a fixed generator changes one good request of each route (bits
and bytes, the length and the values of its body). The reply must be right to the byte for its body, and a request that
was refused or that reads makes no commit and leaves the book. Hostile files: each is opened by a report, which must
leave every byte. Failing stores: a disk in memory, of the log or of the database file, fails at its n-th call and each
later one, or a keeper before or after it passes its n-th call on; after a crash the book is opened again, an allowed
book is found, and the same commands end as if given once. The numbers say for how many n a failure was met.

Shows: what the tests assert. It builds and runs nothing, so `bin/checks documents` compares it with the tests.
Cannot show: that the tests passed: gate.txt says that.
"""
import collections
import glob
import re

from lib import stated

NEEDS_THE_PROGRAM = False
NAME = "asserted"
HOSTILE = f"{stated.CRATES}/rtgs_cli_trials/src/tests/hostile"
FAILING = f"{stated.CRATES}/rtgs_keeper_trials/src/tests"
TEST = re.compile(r"^#\[test\]\nfn (\w+)\(.*?^\}", re.M | re.S)
# words with counts, as tests state them: "read 10, 40 4"
COUNTS = re.compile(r'"((?:\w+ \d+, )+\w+ \d+)"')
# what a test of failing stores asserts: failures of the log, the file and the keeper; of the keeper alone; and of the
# log and the file, each with how many left the new tables
OF_ALL = re.compile(r"\bmeets\(rt\.alloc\(\), &\w+, \[(\d+), (\d+), (\d+)\]\)")
OF_KEEPER = re.compile(r"each_of_the_keeper\(rt\.alloc\(\), &\w+\)\? == (\d+)")
OF_TABLES = re.compile(
    r"(?:is_migrated\(rt\.alloc\(\), &\w+,|\blog ==) \((\d+), (\d+)\)(?: && db ==|,) \((\d+), (\d+)\)")
OF_READS = re.compile(r"\breads_are\(rt\.alloc\(\), \w+(?:\(\"\w+\"\))?, (\d+)\)")
FORMS = {
    OF_ALL: "{} of the log, {} of the file, {} of the keeper",
    OF_KEEPER: "{} of the keeper",
    OF_TABLES: "{} of the log, after {} of them the new tables; {} of the file, after {} of them the new tables",
    OF_READS: "each of {} reads",
}


def told(counts):
    """Returns words with their counts, those of numbers in the order of these."""
    words = sorted(counts, key=lambda it: (it.isdigit(), int(it) if it.isdigit() else 0, it))
    return ", ".join(f"{it}: {counts[it]:,}" for it in words)


def asserted_by(path):
    """Returns the words that the tests of a file count, each with its count, by the test."""
    found = {}
    for test in TEST.finditer(stated.content(path)):
        for counts in COUNTS.findall(test[0]):
            found[test[1]] = {word: int(count) for word, count in (it.split() for it in counts.split(", "))}
    return found


def summed(of_tests):
    """Returns the counts of several tests together."""
    return sum(map(collections.Counter, of_tests.values()), collections.Counter())


def cases(path, head):
    """Returns how many cases a file lists one by one of each refusal: lines or blocks that begin so."""
    return collections.Counter(re.findall(head, stated.content(path), re.M))


def requests():
    """Yields the lines on hostile requests."""
    listed = f"{HOSTILE}/requests/listed.rt"
    named = cases(listed, r'^(?:const \w+: &str = r#"|= )(\d\d)$')
    named += cases(listed, r'letters_are_refused\(.*, "(\d\d)"\)')
    yield f"Hostile requests by name: {named.total()}, refused with {told(named)}"
    by_test = asserted_by(f"{HOSTILE}/requests/changed.rt")
    counts = summed(by_test)
    yield f"Hostile requests of the generator: {counts.total():,}"
    yield from (f"  {name.replace('_', ' ')}: {sum(of.values()):,}" for name, of in by_test.items())
    yield f"  readings, commands and refusals by number: {told(counts)}"
    statuses = dict(re.findall(r"^(?:pub const.*r#\"|= )(\w+) \|.*\| (\d{3}) ", stated.content(
        f"{HOSTILE}/requests/replies.rt"), re.M))
    replies = collections.Counter()
    for word, count in counts.items():
        replies[statuses.get(word, "200")] += count
    yield f"  replies by status: {told(replies)}"


def hostile_files():
    """Yields the lines on hostile files."""
    listed = cases(f"{HOSTILE}/files/listed.rt", r"^(?:.*= \")?(\d\d) \w+(?: \d+)? ! ")
    crowds = cases(f"{HOSTILE}/files/crowds.rt", r"^(?:.*= \")?(\d\d) \w+ ! ")
    yield f"Hostile files by name: refused with {told(listed)}"
    yield f"Hostile files of many views, without sums, or of ten megabytes: refused with {told(crowds)}"
    for name, counts in asserted_by(f"{HOSTILE}/files/changed.rt").items():
        yield f"Hostile files, the test {name}: {sum(counts.values())}: {told(counts)}"


def failures():
    """Yields the lines on stores and keepers that fail."""
    for path in sorted(glob.glob(f"{FAILING}/*.rt")):
        for test in TEST.finditer(stated.content(path)):
            for form, text in FORMS.items():
                yield from (f"Failures, {test[1].replace('_', ' ')}: {text.format(*it.groups())}"
                            for it in form.finditer(test[0]))


def lines():
    """Returns the lines on all of them, and one that counts them."""
    found = [*requests(), *hostile_files(), *failures()]
    return [*found, f"{len(found)} lines of counts, as the tests of this tree assert them"]


def run(_given, report):
    report.sees("more than twenty tests of failing stores", len([*failures()]) > 20, True)
    *found, last = lines()
    for it in found:
        report.finds(it)
    report.sums(last)
