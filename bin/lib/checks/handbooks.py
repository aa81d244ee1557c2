"""Runs each command that the documents for users show, and compares what it prints with what they say.

Standard output and standard error are kept apart: a refusal and a stock tool's error must stand on standard error, all
else on standard output, and the exit status must be the one that goes with that.

OPERATORS.md is one session in a folder that has a book of an earlier version, and so is CHANGELOG.md. AUDITORS.md goes
on with the book that OPERATORS.md makes before its section on HTTP: each query of audit.sql over a copy, and each fault
in a copy of its own. BANKS.md has a book and a server made for it. The examples of the man page are a session too, and
so are those of README.md over the book that it makes, and those of SPECIFICATION.md over one that is made for it. What
README.md shows of the tour must be some of its lines, as they follow one another. The order files of SPECIFICATION.md
are read, and the words of each command are those of the program's help. Needs the stock `sqlite3` and `curl`.

Shows: that each command and query of the handbooks and of the man page prints what they show, on its stream, and ends
with its status.
Cannot show: that what they say in words is true.
"""
import contextlib
import os
import re
import shutil
import signal
import subprocess
import typing

import kit
from lib import desks, manual, runs

NEEDS = ("sqlite3", "curl")
OLD, QUERIES = f"{kit.TOP}/kept_books/closed.desk", "docs/audit.sql"
END = "-- end of a command --"
SHOWN = re.compile(r"    \$ ")
SHOWN_TO_BANKS = re.compile(r"    (curl|printf|KEY=|DESK=)")
# what README.md gives without its answer, to make the book of its session; and the server that it starts in the end
MADE = re.compile(r"^    (?:bin/(desk (?!serve).*)|(printf .*))$", re.M)
STARTED = re.compile(r"^    bin/(desk serve .*)$", re.M)
GIVEN_ALONE = re.compile(r"^    (?:bin/|printf ).*\n", re.M)
# what makes the book of the texts in SPECIFICATION.md: a posting, and a ring of orders
BOOK_OF_TEXTS = [
    "desk init bank.desk",
    *[f"desk add bank.desk {code} '{code} Bank' {key}" for code, key in desks.KEYS.items()],
    "desk open bank.desk 2024-03-04",
    "desk post bank.desk ALFA P-1 100000",
    *[f"printf 'reference,to,amount\\n{row},150000\\n' > {code}.csv; desk import bank.desk {code} {code}.csv"
      for code, row in {"ALFA": "A-1,BETA", "BETA": "B-1,GAMA", "GAMA": "G-1,ALFA"}.items()],
    "desk resolve bank.desk",
]
# what README.md shows of the tour
OF_THE_TOUR = re.compile(r"^    bin/tour\n.*?^```text\n(.*?)^```$", re.M | re.S)
ORDER_FILE = re.compile(r"^    reference,to,amount(?:,due)?\n(?:    [^ ].*\n)+", re.M)
FORM = re.compile(r"^    desk (\w+ .*)$", re.M)
REPORT, REPORTED = "desk report {0} 2024-03-05", "report 2024-03-05"
# what stands on standard error: a refusal, or what the stock sqlite3 says of an error or of a command's status
ON_ERROR = re.compile(r"refused (?P<refusal>\d\d) |Error: .*\((?P<error>\d+)\)$|System command returns ")


class Session:
    """A shell in a folder of its own, with the program on its path. In what it runs and prints, its port is 8080."""

    def __init__(self, folder):
        self.folder, self.port = folder, desks.free_port()
        env = {**os.environ, "PATH": f"{desks.PROGRAMS}:{os.environ['PATH']}"}
        pipes = {"stdin": subprocess.PIPE, "stdout": subprocess.PIPE, "stderr": subprocess.PIPE}
        self.shell = subprocess.Popen(["bash"], cwd=folder, env=env, text=True, start_new_session=True, **pipes)
        self.run('curl() { command curl -s "$@"; echo; }')

    def __enter__(self):
        return self

    def __exit__(self, *_):
        self.shell.stdin.close()
        self.shell.stdout.close()
        self.shell.stderr.close()
        # (what a session that was broken off still runs)
        with contextlib.suppress(ProcessLookupError):
            os.killpg(self.shell.pid, signal.SIGKILL)
        self.shell.wait()

    def run(self, command):
        """Returns how a command ends, and what lines it prints on each stream, once it has ended, or listens."""
        waits = "\nuntil grep -qs listening server.txt; do sleep 0.1; done" if command.endswith("&") else ""
        ends = f"echo '{END}' $?; echo '{END}' >&2"
        self.shell.stdin.write(f"{command}{waits}\n{ends}\n".replace("8080", str(self.port)))
        self.shell.stdin.flush()
        out, status = self.until_the_end(self.shell.stdout)
        return Ended(int(status or -1), out, self.until_the_end(self.shell.stderr)[0])

    def until_the_end(self, stream):
        """Returns the lines that the shell prints on a stream until a command has ended, and what its end says."""
        lines = []
        while (line := stream.readline()) and not line.startswith(END):
            lines.append(line.rstrip("\n"))
        return [it.replace(str(self.port), "8080") for it in lines if it], line[len(END):].strip()

    def follow(self, text, is_command, report):
        """Runs the commands of a handbook's indented lines. The lines behind each are what it prints."""
        for command, shown in commands(text, is_command):
            report.sees(command, self.run(command), ended(shown))


class Ended(typing.NamedTuple):
    """How a command ended, and the lines that it printed on standard output and on standard error."""

    status: int
    out: list
    err: list


def ended(shown):
    """Returns how a command must end of which a handbook shows these lines."""
    out, err = ([it for it in shown if bool(ON_ERROR.match(it)) == is_error] for is_error in (False, True))
    last = ON_ERROR.match(err[-1]).groupdict() if err else {}
    status = runs.refusals()[int(last["refusal"])][1] if last.get("refusal") else int(last.get("error") or 0)
    return Ended(status, out, err)


def document(name):
    with open(f"{kit.TOP}/{name}", encoding="utf-8") as text:
        return text.read()


def handbook(name):
    return document(f"docs/{name}.md")


def commands(text, is_command):
    """Returns the commands of a text's indented lines, each with the lines behind it."""
    found = []
    for line in re.sub(r"```.*?```", "", text, flags=re.S).splitlines():
        if not line.startswith("    "):
            continue
        if is_command.match(line):
            found.append((line[4:].removeprefix("$ "), []))
        elif found:
            found[-1][1].append(line[4:])
    return found


class Fault(typing.NamedTuple):
    """A fault of a book: the query under which it stands, if one finds it, the fault itself, the rows that the query
    then gives, the other queries that find it, and what the desk does."""

    query: str
    fault: str
    gives: list
    others: list
    desk: str


# a query with all that stands under it, or the faults that no query finds
PART = re.compile(r"^-- (Q\d+|What no query finds)(.*?)(?=^-- Q\d+|^-- What no query finds|\Z)", re.M | re.S)
# the lines of comments that name a fault, and those that say what is found of it
FAULT = re.compile(r"^-- fault: (.*\n(?:--        .*\n)*)(?:-- gives: (.*)\n)?(?:-- others: (.*)\n)?-- desk: (.*)$",
                   re.M)


def audit_of(text):
    """Returns the queries of the auditors' file, by their names, and its faults. Each query begins with its name."""
    queries, faults = {}, []
    for name, part in PART.findall(text):
        for fault, gives, others, desk in FAULT.findall(part):
            whole = " ".join(fault.replace("\n--", "\n").split())
            faults.append(Fault(name, whole, rows_of(gives), others.split(), desk))
        if name.startswith("Q"):
            bare = re.sub(r"^--.*\n", "", f"--{part}", flags=re.M).strip()
            queries[name] = bare.removeprefix(f"SELECT '{name}';").strip()
    return queries, faults


class Audit:
    """The queries of the auditors, over a session's copy of the book."""

    def __init__(self, session, text, report):
        self.session, self.report = session, report
        self.queries, self.faults = audit_of(text)

    def answers(self, book):
        """Returns the lines that each query prints over a book, on standard output and on standard error."""
        said = {}
        for name, sql in self.queries.items():
            words = ["sqlite3", "-readonly", "-csv", book, sql]
            ran = subprocess.run(words, cwd=self.session.folder, capture_output=True, text=True, check=False)
            said[name] = tuple(it.split("\n")[:-1] for it in (ran.stdout, ran.stderr))
        return said

    def of_a_good_book(self):
        good = self.answers("audit.desk")
        wanted = {**{name: [] for name in good}, "Q2": ["ok"], "Q13": ["165000,165000"]}
        for name, found in good.items():
            self.report.sees(name, found, (wanted[name], []))
        return good

    def of_a_fault(self, good, it):
        """Puts a fault into a copy of the book, and compares what the queries and the desk say with what is said."""
        book = f"{self.session.folder}/fault.desk"
        shutil.copy(f"{self.session.folder}/audit.desk", book)
        subprocess.run(["sqlite3", book, it.fault], check=True)
        said = self.answers(book)
        changed = {name for name in said if said[name] != good[name]}
        found, error = said.get(it.query, ([], []))
        found = [row.split(",")[0] for row in found] if it.query == "Q1" else found
        sees = self.report.sees
        sees(f"{it.query} of {it.fault}", (found, error), (it.gives, []))
        sees(f"queries of {it.fault}", sorted(changed), sorted({*it.others} | ({it.query} & set(said))))
        shown = self.session.run(REPORT.format("fault.desk"))
        if it.desk == "opens it":
            sees(f"the desk of {it.fault}", (shown.status, shown.out[:1], shown.err), (0, [REPORTED], []))
        else:
            sees(f"the desk of {it.fault}", shown, ended([f"refused {it.desk}"]))
        desks.remove(book)


def rows_of(cell):
    """Returns the rows that a line names, where they are spelt out."""
    return re.findall(r"`([^`]*)`", cell)


def operators(session, report):
    shutil.copy(OLD, f"{session.folder}/old.desk")
    session.follow(handbook("OPERATORS"), SHOWN, report)


def auditors(session, report):
    text = handbook("AUDITORS")
    shutil.copy(OLD, f"{session.folder}/old.desk")
    for command, _ in commands(handbook("OPERATORS").split("## By HTTP")[0], SHOWN):
        session.run(command)
    shutil.copy(f"{kit.TOP}/{QUERIES}", session.folder)
    session.follow(text, SHOWN, report)
    audit = Audit(session, document(QUERIES), report)
    report.sees("queries and faults", (len(audit.queries), len(audit.faults) > 30), (16, True))
    good = audit.of_a_good_book()
    for it in audit.faults:
        audit.of_a_fault(good, it)


def changelog(session, report):
    shutil.copy(OLD, f"{session.folder}/old.desk")
    session.follow(document("CHANGELOG.md"), SHOWN, report)


def requests_of_banks():
    """Returns the banks' handbook, and how many requests it shows."""
    text = handbook("BANKS")
    return text, len([it for it, _ in commands(text, SHOWN_TO_BANKS) if it.startswith("curl")])


def book_of_banks(book):
    """Makes the book of the banks' handbook."""
    keys = {code: f"{10 + at:032x}" for at, code in enumerate(desks.KEYS)}
    desks.new_book(book, keys, 150, "{} Bank", "--automatic")


def banks(session, report):
    text, many = requests_of_banks()
    book_of_banks(f"{session.folder}/bank.desk")
    session.run(f"desk serve bank.desk --port 8080 --count {many} --operator-key {255:032x} > server.txt &")
    session.follow(text, SHOWN_TO_BANKS, report)
    served = session.run("wait $! && cat server.txt")
    report.sees("server.txt", served, ended(["listening 8080", f"served {many}"]))


def man_page(session, report):
    session.follow(manual.examples(manual.page()), SHOWN, report)


def tour(text, report):
    """What a document shows of the tour are lines that it prints, one after another."""
    ran = subprocess.run([f"{kit.TOP}/bin/tour"], capture_output=True, text=True, check=False)
    for it in (shown := OF_THE_TOUR.findall(text)):
        report.sees(f"the tour prints: {it}", f"\n{it}" in f"\n{ran.stdout}", True)
    report.sees("how the tour ends, and texts that show some of it", (ran.returncode, len(shown)), (0, 1))


def readme(session, report):
    text = document("README.md")
    tour(text, report)
    made = ["".join(it) for it in MADE.findall(text)]
    report.sees("commands that make the book of README.md", len(made) > 3, True)
    for command in made:
        report.sees(command, session.run(command).status, 0)
    session.follow(GIVEN_ALONE.sub("", text), SHOWN, report)
    for command in STARTED.findall(text):
        session.run(f"{command} > server.txt &")
        report.sees(command, session.run("cat server.txt"), ended(["listening 8080"]))


def words_of(form):
    """Returns the words of a command that must be given, in one order, without the marks of their kinds."""
    return sorted(re.sub(r"[<>]", "", re.sub(r"\[[^]]*\]", "", form)).split())


def order_files(session, files, report):
    """Each order file that is shown is taken, and has an answer for each row."""
    report.sees("order files that are shown", len(files), 2)
    for it in files:
        with open(f"{session.folder}/shown.csv", "w", encoding="utf-8") as file:
            file.write(re.sub(r"^    ", "", it, flags=re.M))
        taken = session.run("desk import bank.desk ALFA shown.csv")
        report.sees(f"rows of {it}", (taken.status, len(taken.out)), (0, it.count("\n")))


def specification(session, report):
    text = handbook("SPECIFICATION")
    for command in BOOK_OF_TEXTS:
        session.run(command)
    session.follow(text, SHOWN, report)
    order_files(session, ORDER_FILE.findall(text), report)
    forms = FORM.findall(text)
    report.sees("commands that are listed", len(forms) > 15, True)
    for form in forms:
        usage = session.run(f"desk {form.split()[0]} --help | sed -n 's/Usage: desk //p'").out
        report.sees(f"the words of {form}", words_of(" ".join(usage)), words_of(form))


def run(_given, report):
    shown = {"README.md": readme, "OPERATORS.md": operators, "AUDITORS.md": auditors, "BANKS.md": banks,
             "SPECIFICATION.md": specification, "CHANGELOG.md": changelog, "desk(1)": man_page}
    for name, follow in shown.items():
        right, wrong = report.right, report.wrong
        with desks.room() as folder, Session(folder) as session:
            follow(session, report)
        report.finds(f"{name}: {report.right - right} as they say, {report.wrong - wrong} not")
    report.sums(f"{len(shown)} texts: {report.right} things as they say, {report.wrong} not")
