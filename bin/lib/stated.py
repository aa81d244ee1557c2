"""The numbers that documents state, beside what they stand for.

A text has a name in braces where a document has a number: of a constant of the code, of a count of what stands in the
code, or of what stands in a line of the code, of a test, or of a session that bin/checks handbooks runs. `{total:p}` is
the power of ten, `{tables:w}` the word, `{lingered:K}` the number of KiB.
"""
import functools
import re

import kit
from lib import columns, unproved

CRATES = f"{kit.TOP}/crates"
WORDS = "no one two three four five six seven eight nine ten eleven twelve".split()
# what the constant is called in which file
CONSTANTS = {
    "amount": ("rtgs_money/src/amount.rt", "MAX"),
    "posting": ("rtgs_money/src/posting_amount.rt", "MAX"),
    "credit": ("rtgs_money/src/credit.rt", "MAX"),
    "shortest_code": ("rtgs_money/src/code.rt", "SHORTEST"),
    "code": ("rtgs_money/src/code.rt", "LONGEST"),
    "reference": ("rtgs_money/src/reference.rt", "LONGEST"),
    "name": ("rtgs_money/src/name.rt", "LONGEST"),
    "key": ("rtgs_money/src/key.rt", "LENGTH"),
    "digest": ("rtgs_money/src/key_digest.rt", "LENGTH"),
    "first": ("rtgs_money/src/date.rt", "FIRST_YEAR"),
    "last": ("rtgs_money/src/date.rt", "LAST_YEAR"),
    "participants": ("rtgs_book/src/limits.rt", "MOST_PARTICIPANTS"),
    "queue": ("rtgs_book/src/limits.rt", "LONGEST_QUEUE"),
    "number": ("rtgs_book/src/limits.rt", "LARGEST_NUMBER"),
    "total": ("rtgs_book/src/limits.rt", "LARGEST_TOTAL"),
    "objects": ("rtgs_book_file/src/limits.rt", "MOST_OBJECTS"),
    "page": ("rtgs_book_file/src/small_pages.rt", "SMALL_SIZE"),
    "large_page": ("rtgs_book_file/src/schema_size.rt", "NEW_SIZE"),
    "rows": ("rtgs_order_files/src/limits.rt", "MOST_ROWS"),
    "file": ("rtgs_order_files/src/limits.rt", "MOST_BYTES"),
    "head": ("rtgs_http_requests/src/feeds/limits.rt", "LONGEST_HEAD"),
    "body": ("rtgs_http_requests/src/feeds/limits.rt", "LONGEST_BODY"),
    "fields": ("rtgs_http_requests/src/heads/limits.rt", "MOST_FIELDS"),
    "digits": ("rtgs_http_requests/src/heads/limits.rt", "MOST_DIGITS"),
    "request": ("rtgs_http_server/src/request_reader.rt", "SECONDS_FOR_A_REQUEST"),
    "after": ("rtgs_http_server/src/request_reader.rt", "SECONDS_AFTER_A_REPLY"),
    "reply": ("rtgs_http_server/src/reply_writer.rt", "SECONDS_FOR_A_REPLY"),
    "pieces": ("rtgs_http_server/src/port.rt", "MOST_PIECES_DROPPED"),
    "piece": ("rtgs_http_server/src/input/piece.rt", "PIECE"),
    "leaps": ("rtgs_sql_look_ups/src/leaping.rt", "MOST_LEAPS"),
    "in_a_row": ("rtgs_sql_look_ups/src/skipping.rt", "MOST_IN_A_ROW"),
    "halvings": ("rtgs_sql_look_ups/src/seeking.rt", "MOST_HALVINGS"),
    "version": ("rtgs_rows/src/numbers.rt", "VERSION"),
    "closed": ("rtgs_rows/src/numbers.rt", "PHASE_CLOSED"),
    "open": ("rtgs_rows/src/numbers.rt", "PHASE_OPEN"),
    "cut_off": ("rtgs_rows/src/numbers.rt", "PHASE_CUT_OFF"),
    "plain": ("rtgs_rows/src/numbers.rt", "RESOLUTION_ON_REQUEST"),
    "automatic": ("rtgs_rows/src/numbers.rt", "RESOLUTION_AUTOMATIC"),
    "queued": ("rtgs_rows/src/numbers.rt", "STATE_QUEUED"),
    "settled": ("rtgs_rows/src/numbers.rt", "STATE_SETTLED"),
    "withdrawn": ("rtgs_rows/src/numbers.rt", "STATE_WITHDRAWN"),
    "rejected": ("rtgs_rows/src/numbers.rt", "STATE_REJECTED"),
    "held": ("rtgs_rows/src/numbers.rt", "STATE_HELD"),
    "done": ("rtgs_refusals/src/exit_status.rt", "DONE"),
    "refused": ("rtgs_refusals/src/exit_status.rt", "REFUSED"),
    "misused": ("rtgs_refusals/src/exit_status.rt", "MISUSED"),
    "failed": ("rtgs_refusals/src/exit_status.rt", "FAILED"),
    "gate": ("../bin/gate-times", "LIMIT"),
}
# numbers that are no constant: in which file each stands, and what stands around it
BANKS, HANDBOOKS, STYLE = "docs/BANKS.md", "bin/lib/checks/handbooks.py", "bin/lib/tests/test_scripts.py"
LINES = {
    "summed_bits": ("crates/rtgs_soundness/src/soundness.rt", r"^pub fn balances\(.*BTreeMap<Code, i(\d+)>"),
    "resolved_bits": ("crates/rtgs_gridlock/src/fundings.rt", r"^    funds: u(\d+),$"),
    "stored_bits": ("crates/rtgs_money/src/cents.rt", r"^pub struct Cents\(i(\d+)\);$"),
    "shown_bits": ("crates/rtgs_http_bodies/src/members.rt", r"^pub\(crate\) fn in_64_bits\(cents: i128\) -> i(\d+)$"),
    "queues": ("crates/rtgs_http_trials/src/tests/all_queues.rt", r"text\.len\(\) < (\d+)_000\)$"),
    "levels": ("crates/rtgs_http_trials/src/tests/bodies.rt", r"^    let most = nested\(rt.alloc\(\), (\d+)\)\?;$"),
    "smallest_page": ("bin/lib/hostile.py", r"^SIZES = \[(\d+), "),
    "largest_page": ("bin/lib/hostile.py", r"^SIZES = \[.*, (\d+)\]$"),
    "columns": (STYLE, r"if len\(it\) > (\d+)\]"),
    "more_lines": (STYLE, r"it\.end_lineno - it\.lineno >= (\d+)\]"),
    "ring": ("README.md", r"'reference,to,amount\\nA-1,BETA,(\d+)\\n'"),
    "build": ("docs/COSTS.md", r"other work: (\d+) minutes, and \d+ minutes of processor time\."),
    "empty_log": ("docs/OPERATORS.md", r"^    \$ stat -c %s bank\.desk-wal\n    (\d+)$"),
    "banks_port": (HANDBOOKS, r"desk serve bank\.desk --port (\d+) "),
    "banks_money": (HANDBOOKS, r"desks\.new_book\(book, keys, (\d+),"),
    "banks_credit": (BANKS, r'"code":"ALFA","credit":(\d+),'),
    "pause": ("console/polling.js", r"^const PAUSE = (\d+)000, "),
}
# the texts of the auditors' queries, of which no other number is compared
QUERIES = [
    "id <> 1 OR version <> {version} OR phase NOT IN ({closed}, {open}, {cut_off})",
    "automatic NOT IN ({plain}, {automatic})",
    "length(CAST(code AS BLOB)) NOT BETWEEN {shortest_code} AND {code}",
    "length(CAST(name AS BLOB)) NOT BETWEEN 1 AND {name}",
    "length(key) <> {digest} OR credit NOT BETWEEN 0 AND {credit}",
    "cents NOT BETWEEN -{posting} AND {posting}",
    "amount NOT BETWEEN 1 AND {amount}",
    "state NOT IN ({queued}, {settled}, {withdrawn}, {rejected}, {held})",
    "(state = {settled}) <> (mark IS NOT NULL)",
    "length(CAST(reference AS BLOB)) NOT BETWEEN 1 AND {reference}",
    "date NOT BETWEEN '{first}-01-01' AND '{last}-12-31'",
    "max(number) > {number};",
    "FROM participant HAVING count(*) > {participants};",
    "state IN ({queued}, {held}) GROUP BY sender HAVING count(*) > {queue};",
    "at most {total};",
]
# the texts of each document
TEXTS = {
    "README.md": [
        "a file of {tables:w} SQLite tables",
        "at most {participants} banks, and {queue} waiting orders a bank",
        "Three banks owe each other {ring} cents in a ring",
        "A first build took {build} minutes on four processors",
    ],
    "docs/GUARANTEES.md": [
        "more than {objects} tables, indexes, views and triggers",
        "with status {failed}. Else",
        "what was printed ({done}, and {failed} for a batch",
        "of the refusal ({refused} or {failed}), of help ({done}) or of a misuse ({misused})",
        "between -{least:d} times {total_bound:p} and {least:d} times {total_bound:p}",
        "at most {looks} by a search of halves",
        "at most {leaps} leaps of at most {in_a_row} looks each",
        "fewer than {queues},000 bytes (tested)",
        "let go (that it is after {request:w} seconds was read)",
        "numbers have at most {number:n} digits",
    ],
    "docs/SPECIFICATION.md": [
        "| amount of an order | 1 to {amount} ({amount:p}) cents |",
        "| credit limit | 0 to {credit} ({credit:p}) cents |",
        "| queued and held orders of one sender, together | {queue} |",
        "| amount of a posting | not 0, from -{posting} to {posting} ({posting:p}) cents |",
        "| sum of all balances | at most {total:p} cents |",
        "| participants | {participants} |",
        "| posting numbers, order numbers | 1 to {number} each |",
        "| business dates | weekdays of the years {first} to {last}, in rising order |",
        "| order file | 1 to {rows} rows, at most {file} bytes |",
        "| code | {shortest_code} to {code} characters: a capital letter",
        "| reference | 1 to {reference} characters, each",
        "| name | 1 to {name} printable ASCII characters",
        "| key | {key} characters of 0-9 and a-f |",
        "in the years {first} to {last} | 35 BadDate |",
        "and {queue} orders of the sender are queued or held already",
        "the book has {number} postings, or orders",
        "the book has {participants} participants",
        "the sum of all balances would exceed {total:p}",
        "has no row, or more than {rows} |",
        "Fewer than {queues},000 bytes |",
        "an order file is longer than {file} bytes",
        "more than {objects} tables, indexes, views and triggers",
        "the run ends with status {misused}, and the reason",
        "Help goes to standard output, with status {done}.",
        "to standard output, the run ends with status {failed}.",
        "A book has {tables:w} STRICT tables",
        "The file that `init` makes has pages of {page} bytes;",
        "`id` INTEGER PRIMARY KEY, always 1; `version` INTEGER NOT NULL, {version};",
        "`phase` INTEGER NOT NULL: {closed} closed, {open} open, {cut_off} cut off",
        "`key` BLOB NOT NULL UNIQUE, {digest} bytes;",
        "`state` INTEGER NOT NULL: {queued} queued, {settled} settled, {withdrawn} withdrawn, {rejected} rejected, "
        "{held} held;",
        "`automatic` INTEGER NOT NULL: {automatic} on an automatic day, else {plain}.",
        "The newest is {version}.",
        "`resolution` with {plain}, and sets the version to {version}, in one",
        "- A book of version {version} is judged by the same rules.",
        "or those of version {version}, whole",
        "without a gap, up to {number}.",
        "and there are at most {participants}.",
        "No sender has more than {queue} queued and held orders.",
        "The balances add up to at most {total:p}.",
        "P is 1 to {port}, and N is 1 to {connections};",
        "an error of the command line (status {misused})",
        "closes the file and ends with status {done}.",
        "with status {failed} and without the line `served N`",
        "must arrive within {request} seconds after",
        "a reply together may take {reply} seconds.",
        "still sends, at most {lingered:K} KiB and for at most a second,",
        "ends within the first {head} bytes of the input",
        "and has at most {fields} fields.",
        "of 1 to {digits} digits; in a GET its value is 0",
        "that length is at most {body} |",
        "An order file is CSV (RFC 4180) of at most {file} bytes.",
        "Then come 1 to {rows} rows, each with",
        "One of the first {rows} rows is not of its form",
        "The file has more than {rows} rows",
        "at most {levels} levels deep, without a number too large for a 64-bit float",
        "| {entries[0]} | kind | | {entries[1]} | number, in {number_digits:w} digits | | {entries[2]} | reference |",
        "| {entries[3]} | the other party, `-` for a posting | | {entries[4]} | amount, right-aligned |",
        "| {entries[5]} | mark, right-aligned, or `-` if there is none |",
        "label in columns {sums[0]} and its amount, right-aligned, in columns {sums[1]}.",
        "| {participants_of[0]} | code | {states[0]} | state | | {participants_of[1]} | posted, right-aligned | "
        "{states[1]} | number of orders",
        "| {participants_of[2]} | sent, right-aligned | {states[2]} | value, right-aligned |",
        "| {participants_of[3]} | received, right-aligned |",
    ],
    "docs/OPERATORS.md": [
        "After a run that ended by itself it holds no commits ({empty_log} bytes).",
        "A key is {key} characters of 0-9 and a-f.",
        "holds up all others for {request} seconds",
        "This program makes tables of version {version};",
        "An `import` ends with {done} even if rows were refused",
        "The page pauses for at least {pause} seconds between two readings;",
    ],
    "docs/BANKS.md": [
        "on port {banks_port}, without a proxy.",
        "ALFA has {banks_money} cents and a credit limit of {banks_credit},",
        "1 to {reference} capital letters, digits and dashes",
        "| the head of a request | {head} bytes, {fields} header fields |",
        "| the body of a request | {body} bytes |",
        "| the time in which a request must arrive | {request} seconds |",
        "| an order file | 1 to {rows} rows |",
        "| queued and held orders of a bank, together | {queue} |",
        "7: {queue} orders of yours are queued or held;",
    ],
    "docs/AUDITORS.md": [
        "any page size from {smallest_page} to {largest_page};",
        "| the version of these tables | INTEGER, {version} |",
        "null before the first day; {first} to {last} |",
        "| {closed} closed, {open} open, {cut_off} cut off | INTEGER |",
        "TEXT PRIMARY KEY, {shortest_code} to {code} of A-Z and 0-9, a letter first",
        "TEXT, 1 to {name} printable characters",
        "digest of the key's {key} characters, never the key itself | BLOB, {digest} bytes, UNIQUE |",
        "INTEGER, 0 to {credit:p} |",
        "INTEGER PRIMARY KEY, to {number} |",
        "TEXT, 1 to {reference} of A-Z, 0-9 and `-`, UNIQUE |",
        "INTEGER, not 0, to {posting:p} either way |",
        "INTEGER, 1 to {amount:p} |",
        "(a book has {tables:w} tables and four indexes)",
        "| {queued} queued, {settled} settled, {withdrawn} withdrawn, {rejected} rejected, {held} held | INTEGER |",
        "{automatic} if the day is an automatic one, else {plain}. A closed desk has {plain} |",
    ],
    "docs/DECISIONS.md": [
        "The limit of {queue} counts both.",
        "No queue has more than {queue} orders when a day opens.",
        "A bank with {queue} held orders can queue none.",
        "the sum over all accounts, at most {participants}.",
        "Above {objects} it is 93,",
        "looks at FILE alone, and gives it pages of {page} bytes",
        "an empty database with pages of {page} bytes there",
        "with the {large_page} bytes that it gives to new files",
        "A row after {rows} good ones makes the file too long",
        "at most {file} bytes, and the body of a request too,",
        "are errors of the command line (status {misused}).",
        "Sums have {summed_bits} bits, stored amounts {stored_bits}",
        "Judging a book and resolving add in {added_bits} bits.",
        "are kept as signed {stored_bits}-bit cents.",
        "a sound book's balances and marks fit {balance_bits} bits is proved.",
        "worth more than 2^{shown_bits_but_one} - 1 cents would be shown as that, since JSON holds {shown_bits} bits",
    ],
    "docs/ARCHITECTURE.md": ["The desk is a stack of {crates} crates."],
    "CONTRIBUTING.md": [
        "The gate may take {gate} lane-minutes",
        "Lines fit into {columns} columns. A function has fewer than {lines} lines,",
    ],
    "CHANGELOG.md": [
        "The limit of {queue} orders of a sender (refusal 7)",
        "The file of a new book has pages of {page} bytes, where it had {large_page}:",
    ],
}
class Number(int):
    """A number, as documents write it: in digits, or as its format asks."""

    def __format__(self, how):
        if how == "p":
            return f"10^{len(str(int(self))) - 1}"
        if how == "w":
            return WORDS[self] if self < len(WORDS) else str(int(self))
        if how == "n":
            return WORDS[len(str(int(self)))]
        if how == "K":
            return str(self // 1024)
        if how == "d":
            return str(self / 10 ** (len(str(int(self))) - 1))
        return str(int(self))


def content(path):
    with open(path, encoding="utf-8") as it:
        return it.read()


def constant(path, name):
    """Returns the number of a constant of a file."""
    form = rf"^ *(?:pub(?:\(crate\))? )?(?:const )?{name}(?:: \w+)? = ([\d_]+);?$"
    found = re.search(form, content(f"{CRATES}/{path}"), re.M)
    if not found:
        raise ValueError(f"no number {name} in {path}")
    return Number(found[1].replace("_", ""))


def in_line(path, form):
    """Returns the number that stands in the one place of a file that has this form."""
    found = re.findall(form, content(f"{kit.TOP}/{path}"), re.M)
    if len(found) != 1:
        raise ValueError(f"{len(found)} places in {path} have the form {form}")
    return Number(found[0])


def of_columns():
    """Returns the columns of each kind of line, and how many digits a number has there."""
    kinds = columns.of_code()
    first, last = kinds["entries"][1]
    told = {kind: [f"{it} to {end}" for it, end in ranges] for kind, ranges in kinds.items()}
    told["participants_of"] = told.pop("participants")
    return {**told, "number_digits": Number(last - first + 1)}


def bits_of(number):
    """Returns how many bits a signed integer of the code has at least that holds this number and its negative."""
    return Number(next(it for it in (8, 16, 32, 64, 128) if number < 2 ** (it - 1)))


def of_lines(found):
    """Returns the numbers that follow from those of lines."""
    if found["summed_bits"] != found["resolved_bits"]:
        raise ValueError("judging and resolving add in different numbers of bits")
    return {
        "added_bits": found["summed_bits"],
        "shown_bits_but_one": Number(found["shown_bits"] - 1),
        "lines": Number(found["more_lines"] + 1),
    }


@functools.lru_cache(maxsize=None)
def constants():
    """Returns each number that a text may name, and the columns of each kind of line."""
    found = {name: constant(*place) for name, place in CONSTANTS.items()}
    lines = {name: in_line(*place) for name, place in LINES.items()}
    tables = re.search(r"^known_tables = (.*?)\[\]", content(f"{CRATES}/rtgs_rows/specs/Tables.antt"), re.M | re.S)
    crates = re.findall(r"^\w+:", content(f"{kit.TOP}/crates.txt"), re.M)
    served = re.findall(r"\.range\(1\.\.=(\d+)\)", content(f"{CRATES}/rtgs_cli_arguments/src/serving.rt"))
    largest = found["total"] + (found["participants"] - 1) * found["credit"]
    return {
        **found,
        **lines,
        **of_lines(lines),
        **of_columns(),
        "balance_bits": bits_of(largest),
        "tables": Number(tables[1].count("∷")),
        "crates": Number(len(crates)),
        "port": Number(served[0]),
        "connections": Number(served[1]),
        "lingered": Number(found["pieces"] * found["piece"]),
        "looks": Number(found["halvings"] + 2),
        "least": Number(largest),
        "total_bound": Number(largest),
    }


def told(text):
    """Returns a text with its numbers."""
    return text.format(**constants())


def explanations():
    """Returns what the program says of each refusal: its number and name, its meaning, its sources, and what to do."""
    text = content(f"{CRATES}/rtgs_refusal_texts/src/texts.rt")
    found = []
    for said in re.findall(r'^const \w+: &str = "\\\n(.*?)\n";$', text, re.M | re.S):
        head, *parts = re.sub(r"\n {6}", " ", said).replace('\\"', '"').split("\n")
        found.append((head, *(re.sub(r"^  (?:means|comes from|do): ", "", it) for it in parts)))
    return found


def version():
    """Returns what `--version` says: the program's version, that of its tables, and the kit. All others take it from
    there."""
    text = content(f"{CRATES}/{unproved.CRATE}/{unproved.VERSION}")
    return re.search(r'^ +"([\d.]+), tables (\d+), ([^",]+), commit ', text, re.M).groups()


def refusals():
    """Returns for the number of each refusal its name, and the statuses of a reply and of a run, or nothing."""
    text = content(f"{CRATES}/rtgs_refusals/src/refusal_kind.rt")
    found = re.findall(r"=> \((\d+), \"(\w+)\", (?:Some\((\d+)\)|None), (?:Some\((\w+)\)|None)\)", text)
    ends = {"REFUSED": constants()["refused"], "FAILED": constants()["failed"], "": None}
    return {int(number): (name, int(reply) if reply else None, ends[end]) for number, name, reply, end in found}
