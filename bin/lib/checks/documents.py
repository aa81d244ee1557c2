"""Compares the documents with the tree: how long they are, what they name and link to, and the numbers they state.

README.md has at most 900 words, docs/GUARANTEES.md at most 6,000, and docs/DECISIONS.md at most 60 entries, all of one
form. Each file that a document names must be there, and each heading to which it links. GUARANTEES.md must have each
promise of the crate `rtgs_promises` with its first sentences, and no other, and in the table on top with its number and
how many files have to be judged; the functions, clauses and types that it names must stand in the list that
`bin/contracts` makes, or else in the code. The documents that name the program's version, or its kit, must name those
that it tells itself. SPECIFICATION.md must have the refusals as the code has them; what bin/tables writes into other
documents must be there; and the day in OPERATORS.md has commands and refusals as SPECIFICATION.md lists them. Each
number must be that of a refusal or a status, or stand in a text of bin/lib/stated.py with the number that the code has,
a test, a script, or a session that `bin/checks handbooks` runs: whether the words around it are true is not seen.
Measures stand in COSTS.md alone, in sections that name what measured them. No text has the words that CONTRIBUTING.md
lists as not to be used. And since no contract can say that memory was refused, or that a store failed, each place where
the code answers so stands right behind its cause (bin/lib/causes.py).

Of each file of evidence it says whether it is of the tree that is checked out. README.md and GUARANTEES.md may name a
file of evidence only if it is, or its lines are what its script makes of the tests of this tree; beside that they name
evidence/README.md, the table of all, which must be what the files make it. Evidence that is older fails nothing else.
Builds and runs nothing, and writes no evidence, since each gate runs it again.
"""
import functools
import glob
import os
import re

import kit
from lib import contracts as listing
from lib import causes, columns, evidence, findings, stated, tables, words
from lib.checks import asserted

NEEDS_THE_PROGRAM = False
WORDS = {"README.md": 900, "docs/GUARANTEES.md": 6000, "docs/OPERATORS.md": 5500, "docs/AUDITORS.md": 4000}
ENTRIES = 60
DECISIONS, GUARANTEES, COSTS = "docs/DECISIONS.md", "docs/GUARANTEES.md", "docs/COSTS.md"
AUDIT = "docs/audit.sql"
SPECIFICATION, OPERATORS = "docs/SPECIFICATION.md", "docs/OPERATORS.md"
AUDITORS, OPENAPI, MAN_PAGE = "docs/AUDITORS.md", "docs/openapi.yaml", "docs/desk.1.in"
CALLERS = "docs/CALLERS.md"
RELEASE = "crates/rtgs_release/src/lib.rt"
FORM = ["Chosen", "Because", "Instead of", "Price"]
PROMISE = re.compile(r"((?:^///[^\n]*\n)+)// To judge it, read (?:[^\n]*\n)(?:// [^\n]*\n)*^pub fn (\w+)", re.M)
# what stands for a name, or is made by a run
NO_FILES = re.compile(r"crates/(?:CRATE|desk/out)\b|evidence/NAME|CRATE/|NAME\.")


def names_of(folder, pattern="*.md"):
    return sorted(os.path.relpath(it, kit.TOP) for it in glob.glob(f"{kit.TOP}/{folder}{pattern}"))


def read(name):
    return stated.content(f"{kit.TOP}/{name}")


def folded(text):
    return " ".join(text.split())


def documents():
    """Returns the names of the documents."""
    return names_of("") + names_of("docs/") + names_of("evidence/")


def lengths(sees):
    for name, most in WORDS.items():
        words = len(read(name).split())
        sees(f"{name} has {words} words, at most {most}", words <= most, True)


def decisions(text, sees):
    """Each entry has a name of its own, a place in the table on top, and the four parts."""
    table, _, body = text.partition("\n# ")
    entries = re.findall(r"^## ([^\n]+)\n(.*?)(?=^#|\Z)", body, re.M | re.S)
    sees(f"{DECISIONS} has {len(entries)} entries, at most {ENTRIES}", len(entries) <= ENTRIES, True)
    named = sorted(anchor(name) for name, _ in entries)
    sees("entries with one name", sorted({it for it in named if named.count(it) > 1}), [])
    sees(f"{DECISIONS}, the entries in the table by topic", sorted(re.findall(r"\]\(#([^)]*)\)", table)), named)
    for name, entry in entries:
        found = re.findall(r"^\*\*([\w ]+):\*\* ", entry, re.M)
        sees(f"{DECISIONS}, the parts of: {name}", (found, len(entry.strip().split("\n\n"))), (FORM, 4))


# Files


@functools.lru_cache(maxsize=None)
def all_files():
    """Returns the paths of the files of the tree, each with a slash before it."""
    found = []
    for top in ("bin", "crates", "deploy", "docs", "evidence", "."):
        for folder, folders, files in os.walk(f"{kit.TOP}/{top}"):
            folders[:] = [] if top == "." else [it for it in folders if it not in ("out", "__pycache__")]
            found += [f"/{os.path.relpath(folder, kit.TOP)}/{it}" for it in files]
    return found


def is_there(path):
    """Returns whether there is a file, or a folder, whose path ends with this."""
    path = path.rstrip("/")
    found = os.path.exists(f"{kit.TOP}/{path}") or os.path.exists(f"{kit.TOP}/crates/{path}")
    return found or any(it.endswith(f"/{path}") for it in all_files())


def named_files(text):
    """Yields the paths of files that a text names."""
    for it in re.findall(r"(?<![\w/.])((?:docs|evidence|bin|crates|deploy|\.ci)/[\w./-]*\w)", text):
        yield it
    for it in re.findall(r"(?<![\w/])[A-Z]+\.md\b", text):
        yield it
    for it in re.findall(r"`([\w./-]+\.(?:rt|antt|py|edit|c))`", text):
        yield it


def anchor(head):
    """Returns what leads to a heading."""
    return re.sub(r"[^\w -]", "", head.lower()).replace(" ", "-")


def anchors(text):
    """Returns what leads to the headings of a text."""
    return {anchor(it) for it in re.findall(r"^#+ (.*)$", text, re.M)}


def files(name, text, sees):
    """Each file that a document names is there, and each place to which it links."""
    bare = re.sub(r"```.*?```|^    [^\n]*$", "", text, flags=re.S | re.M)
    for it in sorted(set(named_files(bare))):
        if not NO_FILES.search(it):
            sees(f"{name} names {it}", is_there(it), True)
    for link in sorted(set(re.findall(r"\]\(([^)\s]+)\)", bare))):
        path, _, anchor = link.partition("#")
        found = os.path.normpath(f"{os.path.dirname(name)}/{path}" if path else name)
        is_good = os.path.exists(f"{kit.TOP}/{found}") and (not anchor or anchor in anchors(read(found)))
        sees(f"{name} links to {link}", is_good, True)


# Promises and contracts


def promises():
    """Returns the promises of the crate: the name and the first sentences of each, by its file."""
    found = {}
    for path in names_of("crates/rtgs_promises/src/", "*.rt"):
        for said, name in PROMISE.findall(read(path)):
            first = re.split(r"^///\n", said, flags=re.M)[0]
            found[f"[`{name}`](../{path})"] = folded(re.sub(r"^///", "", first, flags=re.M))
    return found


def section(text, *heads):
    """Returns the sections of a text that have these headings."""
    parts = re.split(r"^## ", text, flags=re.M)
    return "\n".join(it.partition("\n")[2] for it in parts if it.partition("\n")[0] in heads)


def same_promises(text, sees):
    """The list of promises has each promise of the crate, as it says it, and no other."""
    entries = {}
    for it in re.split(r"^- ", section(text, "The promises"), flags=re.M)[1:]:
        link, _, said = folded(it).partition(": ")
        entries[link] = said
    wanted = promises()
    sees("links of the promises", sorted(entries), sorted(wanted))
    for link, first in wanted.items():
        said = entries.get(link, "")
        sees(f"the sentences of {link}", said[:len(first)], first)
        sees(f"premises of {link}", said.count("*Premises:*"), 1)


# a row of the table on top of GUARANTEES.md: a promise's number, and its functions, each with a number of files
GLANCE = re.compile(r"^\| (\d+) \| [^|]* \| (`\w+` \(\d+\)(?:, `\w+` \(\d+\))*) \|", re.M)
JUDGED = re.compile(r"^/// \*\*Promise (\d+)\b[^\n]*\n(?:///[^\n]*\n)*// To judge it, read (?:these (\d+) files"
                    r"|this file)[^\n]*\n(?:// [^\n]*\n)*pub fn (\w+)", re.M)


def judged():
    """Returns for each promise of the crate its number, and how many files of definitions its list has."""
    found = {}
    for path in names_of("crates/rtgs_promises/src/", "*.rt"):
        found |= {name: (int(number), int(files or 1)) for number, files, name in JUDGED.findall(read(path))}
    return found


def at_a_glance(text, sees):
    """The table on top has each promise with its number, and the number of files that bin/promises lists above it."""
    rows = GLANCE.findall(section(text, "At a glance"))
    sees("numbers of the promises at a glance", [int(it) for it, _ in rows], list(range(1, len(rows) + 1)))
    found = {name: (int(number), int(files)) for number, functions in rows
             for name, files in re.findall(r"`(\w+)` \((\d+)\)", functions)}
    wanted, named = judged(), [re.search(r"`(\w+)`", it)[1] for it in promises()]
    sees("promises that have a list of files", sorted(wanted), sorted(named))
    for name in sorted({*found, *wanted}):
        sees(f"number and files of {name} at a glance", found.get(name), wanted.get(name))


@functools.lru_cache(maxsize=None)
def contracts():
    """Returns the names of the clauses of each function, by its path."""
    found = {}
    for part in re.split(r"^### ", listing.text(), flags=re.M)[1:]:
        path = part.partition("\n")[0].strip("`")
        found[path] = set(re.findall(r"^- (?:ensures\*?|requires|ghost) (\w+):", part, re.M))
    return found


@functools.lru_cache(maxsize=None)
def words_of_code():
    """Returns all words of the code and of its definitions."""
    paths = [it for it in all_files() if it.startswith("/crates/") and it.endswith((".rt", ".antt"))
             and "/proofs/" not in it]
    return {word for it in paths for word in re.findall(r"\w+", stated.content(f"{kit.TOP}{it}"))}


def clauses_of(function, crate):
    """Returns the clauses of the functions whose path ends so, or nothing where there is no such function."""
    ends = [path for path in contracts() if f"::{path}".endswith(f"::{function}") and path.startswith(crate or "")]
    return set().union(*(contracts()[it] for it in ends)) if ends else None


CITED = re.compile(r"`([\w:]+)`(?: and `([\w:]+)`)?(?: of `(\w+)`)? \(([^()]*`[^()]*)\)")


def cited_clauses(text, sees):
    """Each clause that stands in parentheses behind a function is one of its clauses."""
    for first, second, crate, inner in CITED.findall(text):
        for function in filter(None, (first, second)):
            clauses = clauses_of(function, crate)
            if clauses is None:
                continue
            for part in inner.split(";"):
                # (those that stand first in a part are clauses; behind a colon, fields of their records)
                named = re.findall(r"`(\w+)`", re.match(r"\s*((?:`\w+`(?:, )?)*)", part)[1])
                missing = [it for it in named if it not in clauses and it.islower()]
                sees(f"clauses of {function}", missing, [])


def names(name, text, sees):
    """Each name of a function or a type stands in the code. Those that stand among the promises must be public."""
    listed = set(re.findall(r"\w+", listing.text())) | words_of_definitions()
    promised = section(text, "The promises", "Beside the main promises")
    for it in sorted(set(re.findall(r"`([A-Za-z]\w*(?:::\w+)*)`", text))):
        parts = it.split("::")
        if len(parts) == 1 and not re.search(r"_|[a-z][A-Z]", it):
            continue
        is_named = all(part in words_of_code() or is_crate(part) for part in parts)
        if f"`{it}`" in promised:
            is_public = all(part in listed or is_crate(part) for part in parts)
            is_named = (is_public or is_told_private(it)) and (len(parts) == 1 or clauses_of(it, "") is not None)
        sees(f"{name} names `{it}`", is_named, True)


def is_crate(word):
    return os.path.isdir(f"{kit.TOP}/crates/{word}") or word in ("serde_json",)


def is_told_private(name):
    # (the promises' own functions, whose crate is no part of the program's lists)
    return any(f"`{name}`" in link for link in promises())


@functools.lru_cache(maxsize=None)
def words_of_definitions():
    """Returns the names of records, of their fields and of other definitions."""
    paths = [it for it in all_files() if "/specs/" in it]
    return {word for it in paths for word in re.findall(r"\w+", stated.content(f"{kit.TOP}{it}"))}


# Numbers

# what has digits and is no number of a document's own: code, links, names, texts of others, and numbers of parts
OTHER = re.compile("|".join((
    r"```.*?```", r"^    [^\n]*$", r"`[^`]*`", r"\]\([^)]*\)", r"^#+ \d+\.", r"^\d+\. ", r"^\|? ?\*\*Q\d+",
    r"\b\w*[A-Za-z_-]\d[\w.-]*", r"RFC \d+(?:, section [\d.]+)?", r"HTTP/1\.[01]", r"\d{4}-\d\d-\d\d", r"127\.0\.0\.1",
    r"\b0\.\d+\.\d+", r"\b(?:entry|entries|steps?|[Rr]ules?) \d+(?:(?:,| and| to) \d+)*",
    r"\bversions? \d(?:(?:,| and| or) \d)*", r"Soramäki \d{4}", r"2\^\d+", r"\b0-9\b", "64-bit float")), re.S | re.M)
UNIT = " (?:more )?(?:" + "|".join((
    "seconds?", "minutes?", "milliseconds", "ms", "µs", "cents?", "bytes", "KiB", "KB", "MB", "GB", "rows?", "orders?",
    "participants", "banks", "characters?", "(?:header )?fields?", "digits?", "tables", "levels", "files", "views",
    "times", "lines", "columns", "lane-minutes", "functions", "processors", "connections?", "postings")) + r")\b"
# a table that bin/tables writes, which is compared as a whole
MADE = re.compile(r"<!-- (\w+): written by bin/tables -->.*?<!-- end of \1 -->", re.S)
# the statuses of a proxy's own replies, which bin/checks limits, proxy and clients meet
OF_PROXIES = {429, 502, 504}
NAMED = " [A-Z][a-z]+[A-Z]\\w+"
NUMBER = re.compile(
    rf"(?<![\w.,^-])(\d[\d,]*\d|\d)(?:\.\d+)?(?:\^\d+)?(?: (?:to|and) \d+)*({UNIT}|{NAMED})?(?![\w^])")


def blanked(text, spans):
    """Returns a text with blanks in the place of these."""
    for start, end in spans:
        text = text[:start] + re.sub(r"[^\n]", " ", text[start:end]) + text[end:]
    return text


def without_stated(name, text, sees):
    """Returns a document without the texts that state a number of the code. Each of them must be in it."""
    for it in map(stated.told, stated.TEXTS.get(name, [])):
        found = [m.span() for m in re.finditer(r"\s+".join(map(re.escape, it.split())), text)]
        sees(f"{name} says: {it}", bool(found), True)
        text = blanked(text, found)
    return text


def is_known(found, refusals):
    """Returns whether a number that no text states is that of a refusal, with its name if one follows, or a status."""
    number, behind = int(found[1].replace(",", "")), (found[2] or "").strip()
    if re.fullmatch(r"[A-Z]\w+", behind):
        return number in refusals and refusals[number][0] == behind
    replies = {reply for _, reply, _ in refusals.values()} | {200} | OF_PROXIES
    ends = {end for _, _, end in refusals.values()} | {0, 2}
    return not behind and (number in refusals or number in replies or number in ends)


def queries(text, sees):
    """The auditors' queries have the limits and the numbers of the code."""
    text = folded(re.sub(r"^-- ", "", text, flags=re.M))
    for it in map(stated.told, stated.QUERIES):
        sees(f"{AUDIT} says: {it}", it in text, True)


def numbers(name, text, sees):
    """Each number of a document is stated by the code, or is that of a refusal or a status."""
    text, refusals = without_stated(name, text, sees), stated.refusals()
    forms = (MADE, GLANCE, OTHER) if name == GUARANTEES else (MADE, OTHER)
    text = blanked(text, [it.span() for form in forms for it in form.finditer(text)])
    for found in NUMBER.finditer(text):
        line = text.count("\n", 0, found.start()) + 1
        sees(f"{name}, line {line}: {folded(found[0])} is stated by nothing", is_known(found, refusals), True)


def refusals_as_specified(text, sees):
    """The specification has each refusal of a run with its name and status, and the status of each reply."""
    refusals = stated.refusals()
    rows = re.findall(r"^\| (\d+) \| (\w+) \| .* \| (\d) \|$", text, re.M)
    forms = re.findall(r"^\| \w+ \| .* \| (3\d) (\w+) \|$", text, re.M)
    of_forms = re.search(r"^\| 30 to 35 \| .* \| (\d) \|$", text, re.M)
    found = {int(number): (name, int(end)) for number, name, end in rows}
    found |= {int(number): (name, int(of_forms[1])) for number, name in forms}
    sees("refusals of runs", found, {it: (of[0], of[2]) for it, of in sorted(refusals.items()) if of[2] is not None})
    told = re.search(r"^\| a refusal \| (.*?); all others: (\d+) \|", text, re.M)
    replies = {}
    for group in told[1].split("; "):
        which, _, status = group.partition(": ")
        for first, last in re.findall(r"(\d+)(?: to (\d+))?", which):
            replies |= {it: int(status) for it in range(int(first), int(last or first) + 1)}
    wanted = {it: of[1] for it, of in refusals.items() if of[1] is not None}
    sees("statuses of replies", {it: replies.get(it, int(told[2])) for it in wanted}, wanted)


def columns_as_shown(text, sees):
    """The columns that the specification states are those of the lines that it shows."""
    ranges, lines = columns.stated(text), columns.shown(text)
    for kind, of in lines.items():
        sees(f"{SPECIFICATION}, lines that are shown: {kind}", len(of) > 2, True)
        for line in of:
            sees(f"{SPECIFICATION}, columns of: {line}", columns.fits(line, ranges[kind]), True)


def versions(sees):
    """Each document that names the program's version, or its logic, names what the program itself says."""
    program, tables_are, kit_is = stated.version()
    sees("the version of the tables that the program tells", tables_are, str(stated.constants()["version"]))
    newest = re.search(r"^## (.*)$", read("CHANGELOG.md"), re.M)
    newest = newest[1].partition(", commit ")[0]
    sees("the newest version in CHANGELOG.md", newest, f"{program}, tables version {tables_are}")
    sees(f"the newest version in {CALLERS}", re.search(r"^## (.*)$", read(CALLERS), re.M)[1], program)
    sees(f"versions in {OPENAPI}", set(re.findall(r"^ +version: (\d.*)$", read(OPENAPI), re.M)), {program})
    released = re.findall(r'^pub const \w+: .* = "?([\d.]+)"?;$', read(RELEASE), re.M)
    sees(f"versions in {RELEASE}", released, [program, tables_are])
    shown = re.findall(r"^    desk (\d.*)$", read(OPERATORS), re.M)
    sees(f"versions that {OPERATORS} shows", shown, [f"{program}, tables {tables_are}"])
    # (bin/install takes it from the program)
    titled = re.findall(r'^\.TH .*"(\S*)" "User Commands"$', read(MAN_PAGE), re.M)
    sees(f"the version of {MAN_PAGE}", titled, ["@VERSION@"])
    for name in ("README.md", AUDITORS):
        named = set(re.findall(r"`(logic [^`]*)`", read(name)))
        sees(f"logics that {name} names", named, {kit_is[kit_is.find("logic "):]})


def made_tables(sees):
    """The program explains each refusal, in the order of their numbers; and the tables of documents are those made."""
    heads = [f"{number:02} {of[0]}" for number, of in sorted(stated.refusals().items())]
    sees("refusals that the program explains", [it[0] for it in stated.explanations()], heads)
    sees("documents that differ from what bin/tables writes", sorted(tables.differing()), [])


# a step of the day in OPERATORS.md: its number, its cell with a command, and the one with what else may come
STEP = re.compile(r"^\| (\d+) \| (.*) \| .* \| (.*) \|$", re.M)
# the row of a command's tests in SPECIFICATION.md
TESTS = re.compile(r"^\| (?:`(\w+)`|an order) \| ((?:repeated|\d+)(?:, (?:repeated|\d+))*) \|$", re.M)
# what each run may meet; what an order file may bring; and what a reading of one participant may
OF_EACH_RUN, OF_FILES, OF_READINGS = {*range(30, 36), *range(90, 99)}, {40, 41, 42, 63}, {1}


def numbers_in(cell):
    return {int(it) for it in re.findall(r"\d+", cell)}


def day_of_commands(text, specified, sees):
    """Each step of the day has a command as the specification lists it, and refusals that this command may meet."""
    forms = {re.sub(r" \[.*", "", it) for it in re.findall(r"^    (desk \w+ .*)$", specified, re.M)}
    tests = {name or "import": numbers_in(cell) for name, cell in TESTS.findall(specified)}
    tests["import"] |= OF_FILES
    steps = STEP.findall(section(text, "A day on one page"))
    sees(f"steps of the day in {OPERATORS}", [int(it[0]) for it in steps], list(range(1, len(steps) + 1)))
    sees("commands of the day and of the specification", (len(steps) > 9, len(tests) > 8), (True, True))
    for number, command, refused in steps:
        given = re.findall(r"`(desk [^`]*)`", command)
        sees(f"{OPERATORS}, commands of step {number}", [it for it in given if it not in forms], [])
        named = numbers_in(" ".join(re.findall(r"(?:^|\. )((?:\d+, )*\d+): ", refused)))
        may = set().union(OF_EACH_RUN, *(tests.get(it.split()[1], OF_READINGS) for it in given))
        sees(f"{OPERATORS}, refusals of step {number}", sorted(named - may), [])


def plain_words(sees):
    """No file has words that are not used."""
    sees("words that are not used", len(words.avoided(read(words.LIST))[0]) > 8, True)
    sees("files that have words that are not used, and how many each", words.found(), {})


def answers_with_a_cause(sees):
    """Each place of the code that answers that memory ran out, or that the store failed, stands behind its cause."""
    for answer in causes.ANSWERS:
        many, free = causes.found(answer)
        sees(f"the code names the answer that {answer.words}", many > 2, True)
        sees(f"places that answer that {answer.words}, and not for that cause", free, [])


def measures(text, sees):
    """Each section of the costs that has a number names what measured it."""
    for part in re.split(r"^## ", text, flags=re.M)[1:]:
        head, _, body = part.partition("\n")
        if re.search(r"\d", body):
            sees(f"{COSTS}, what measured {head}", bool(re.search(r"`(?:bin/\w|\w+_bench )|tests in `", body)), True)


# Evidence


def states(report):
    """Tells whether each file of evidence is of this tree, and returns the names of those that are, or that say
    what the tests of this tree assert."""
    tree, own = evidence.tree(), set()
    for name, finding in findings.all_files().items():
        state = findings.state(finding, tree)
        if name == asserted.NAME:
            wanted = asserted.lines()
            report.sees(f"evidence/{name}.txt: its lines", len(finding.lines), len(wanted))
            for line, it in zip(finding.lines, wanted):
                report.sees(f"evidence/{name}.txt: what the tests assert", line, it)
            state = f"{state}, and says what the tests of this tree assert"
        own |= {name} if state == findings.THIS or name == asserted.NAME else set()
        report.tells(f"evidence/{name}.txt: {state}")
    return own


def called_on(name, text, own, sees):
    """A document calls on no evidence of another tree."""
    found = set(re.findall(r"\bevidence/([\w-]+)\.(?:txt|md)\b", text)) - {"README"}
    for it in sorted(found):
        sees(f"{name} calls on evidence/{it}.txt, which is of this tree", it in own, True)


def evidence_is_told(report):
    """The table of evidence is what its files make it, and no document calls on evidence of another tree."""
    own = states(report)
    report.sees("evidence/README.md, which bin/checks --table writes", read("evidence/README.md"), findings.table())
    for name in ("README.md", GUARANTEES):
        called_on(name, read(name), own, report.sees)


def run(_given, report):
    lengths(report.sees)
    decisions(read(DECISIONS), report.sees)
    for name in documents():
        files(name, read(name), report.sees)
        if name != COSTS and not name.startswith("evidence/"):
            numbers(name, read(name), report.sees)
    guarantees = read(GUARANTEES)
    same_promises(guarantees, report.sees)
    at_a_glance(guarantees, report.sees)
    cited_clauses(folded(guarantees), report.sees)
    for name in ("README.md", GUARANTEES):
        names(name, read(name), report.sees)
    refusals_as_specified(read(SPECIFICATION), report.sees)
    columns_as_shown(section(read(SPECIFICATION), "Statement and day report"), report.sees)
    versions(report.sees)
    made_tables(report.sees)
    day_of_commands(read(OPERATORS), read(SPECIFICATION), report.sees)
    queries(read(AUDIT), report.sees)
    measures(read(COSTS), report.sees)
    plain_words(report.sees)
    answers_with_a_cause(report.sees)
    evidence_is_told(report)
    report.sums(f"{report.right} things as they must be, {report.wrong} not")
