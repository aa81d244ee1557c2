"""The columns of a text's lines, as the code gives them and the specification states them, beside the lines that it
shows."""
import re

import kit

# rows of the tables of columns: a range with what stands there, and in a wider table a second one
RANGES = re.compile(r"^\| (\d+) to (\d+) \| [^|]*(?:\| (?:(\d+) to (\d+) )?\| [^|]*)?\|$", re.M)
# the first sum's columns, of a statement
OF_SUMS = re.compile(r"label in columns (\d+) to (\d+) and its amount, right-aligned, in columns (\d+) to (\d+)\.")
KINDS = "posting|sent|received|queued|held|withdrawn|rejected"
# the lines that are shown of each kind: of a statement's entries and sums, and of a report's participants and states
ENTRIES = re.compile(rf"^    ((?:{KINDS}) +\d{{9}} .*)$", re.M)
SUMS = re.compile(r"^    ((?:sum-\w+|net) .*)$", re.M)
PARTICIPANTS = re.compile(r"^    ([A-Z][A-Z0-9]{2,7} .*)$", re.M)
STATES = re.compile(rf"^    ((?:{KINDS}|settled|marks) +\d+(?: +[\d.]+)?)$", re.M)
# what makes each kind of line in the code: the file and the function
CODE = f"{kit.TOP}/crates/rtgs_statements/src"
FUNCTIONS = {
    "entries": ("row.rt", "columns"), "sums": ("line.rt", "sum_columns"),
    "participants": ("line.rt", "account_columns"), "states": ("line.rt", "value_columns"),
}
FIELD = r"\{\w+:[<>0](\d+)\}"


def of_code():
    """Returns the ranges of columns that the formats of the code give each kind of line."""
    return {kind: ranges(widths_of(*place)) for kind, place in FUNCTIONS.items()}


def widths_of(name, function):
    """Returns the widths of the fields that a function of the code writes, with one blank between two."""
    with open(f"{CODE}/{name}", encoding="utf-8") as it:
        body = re.search(rf"^fn {function}\(.*?^}}", it.read(), re.M | re.S)[0]
    formats = "".join(re.findall(r'"([^"\\]*)(?:\\n)?"', body))
    if not re.fullmatch(rf"{FIELD}(?: {FIELD})*", formats):
        raise ValueError(f"{function} of {name} writes no columns: {formats}")
    return [int(it) for it in re.findall(FIELD, formats)]


def ranges(widths):
    """Returns the first and the last column of fields of these widths, with one blank between two."""
    found, first = [], 1
    for width in widths:
        found.append((first, first + width - 1))
        first += width + 1
    return found


def stated(text):
    """Returns the ranges of columns that a text states of each kind of line: first and last, from 1."""
    rows = [[int(it) for it in row if it] for row in RANGES.findall(text)]
    wide = next(at for at, row in enumerate(rows) if len(row) == 4)
    report = rows[wide:]
    sums = [int(it) for it in OF_SUMS.search(text).groups()]
    return {
        "entries": [tuple(it) for it in rows[:wide]],
        "sums": [tuple(sums[:2]), tuple(sums[2:])],
        "participants": [tuple(it[:2]) for it in report],
        "states": [tuple(it[2:]) for it in report if len(it) == 4],
    }


def shown(text):
    """Returns the lines that a text shows of each kind."""
    kinds = {"entries": ENTRIES, "sums": SUMS, "participants": PARTICIPANTS, "states": STATES}
    return {kind: form.findall(text) for kind, form in kinds.items()}


def fits(line, ranges):
    """Returns whether a line has a field in each of these columns, or ends before it, and nothing beside them."""
    firsts, lasts = [it for it, _ in ranges], [it for _, it in ranges]
    if firsts != [1, *(it + 2 for it in lasts[:-1])]:
        return False
    fields = [line[first - 1:last] for first, last in ranges if first <= len(line)]
    ends = lasts[len(fields) - 1]
    # (each field begins or ends where its columns do, and one column is free between two)
    is_placed = all(it.strip() and (it[0] != " " or it[-1] != " ") for it in fields)
    return is_placed and len(line) == ends and all(line[it] == " " for it in lasts[:len(fields) - 1])
