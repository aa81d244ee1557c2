"""Plants wrong bodies under the contracts of crates, by `rt plant`, and tells which of them are proved.

A wrong body is one that gives up, or that calls the real function wrongly. One that is proved shows what a contract
leaves open, or that the body is not wrong: which of both, a reader has to judge. So none of them is a failure here.
First each crate is proved, and the libraries below it, where they are not kept. The crates are tried side by side.

Shows: which wrong bodies the contracts of these crates let through.
Cannot show: wrong bodies of other kinds, and crates that are not named.
"""
import re
from concurrent.futures import ThreadPoolExecutor

import kit

NEEDS_THE_PROGRAM = False
# the last line of rt plant, which counts
COUNTS = re.compile(r"^.*\bproves=\d+.*$", re.M)
PROVED = re.compile(r"^.*\bproves\b(?!=).*$", re.M)


def options(words):
    words.add_argument("crates", nargs="+", metavar="CRATE")
    words.add_argument("--minutes", type=int, default=10, help="how long each crate may take: 10 minutes if not given")


def run(given, report):
    with ThreadPoolExecutor() as side_by_side:
        told = [*side_by_side.map(lambda crate: kit.planted(crate, given.minutes), given.crates)]
    for crate, said in zip(given.crates, told):
        counts = COUNTS.findall(said)
        report.counts(bool(counts))
        report.finds(f"{crate}: {counts[-1].strip() if counts else 'it was not judged: ' + said[-300:].strip()}")
        for line in PROVED.findall(said):
            report.finds(f"    {line.strip()}")
    proved = sum(len(PROVED.findall(said)) for said in told)
    report.sums(f"{len(told)} crates: {proved} wrong bodies are proved, each listed for a reader to judge")
