"""A book of automatic days beside one of plain days on which each command is followed by `resolve`: both are given the
same commands, and each reply must be the same, with the same orders settled by what follows."""
import collections
import itertools
import json
import typing

from lib import desks, random_commands

CONNECTIONS = 1000000
# what is read of the tables of a book, all but what tells an automatic day from a plain one; the key comes first
TABLES = {"desk": "*", "participant": "code, hex(key), credit, balance", "posting": "*", "payment": "*", "mark": "*",
          "forward": "*"}
OPEN, CUT_OFF, CLOSED = "OPEN", "CUTOFF", "CLOSED"
SETTLED = "count", "mark", "value"


class Differs(Exception):
    """How the two books differ."""


class Reply(typing.NamedTuple):
    """The status of a reply, and its body: a text, or what its JSON says."""

    status: int
    body: typing.Any

    def auto(self):
        """Returns what it says of the resolution that followed, or nothing."""
        return self.body.get("auto")

    def own(self):
        """Returns what it says of the command by itself."""
        return self.status, {key: it for key, it in self.body.items() if key != "auto"}


def replies_of(*requests):
    """Returns the replies to requests, each with its server. All are sent before the first is awaited: a server takes
    them in their order."""
    return [reply_on(it) for it in [desks.send(server.port, request) for server, request in requests]]


def reply_on(link):
    """Returns the reply on a connection."""
    head, _, body = desks.reply_on(link).partition(b"\r\n\r\n")
    if not head.startswith(b"HTTP/1.1 ") or b" 503 " in head[:16]:
        raise desks.Broken(f"a server replied {head!r} {body[-400:]!r}")
    is_json = b"application/json" in head
    return Reply(int(head[9:12]), json.loads(body) if is_json else body.decode())


def row_of(reference, reply):
    """Returns the row of a result file that says what this reply says of an order."""
    if reply.status != 200:
        return f"{reference},refused,,{reply.body['code']}"
    answer, detail = reply.body["answer"], {"settled": "mark", "queued": "place", "held": "due", "repeated": "state"}
    return f"{reference},{answer},{reply.body['number']},{reply.body[detail[answer]]}"


def settled_by(reply=None):
    """Returns what the reply to `resolve` says that it settled, and nothing where that is none."""
    if reply and reply.body.get("answer") not in ("resolved", "nothing"):
        raise desks.Broken(f"a resolution is answered {reply}")
    return {it: reply.body[it] for it in SETTLED} if reply and reply.body["answer"] == "resolved" else None


class Pair:
    """The two books, a server of each, and what was counted of the commands and of what followed them."""

    def __init__(self, folder, drawer):
        self.books = [f"{folder}/automatic.desk", f"{folder}/plain.desk"]
        self.drawer, self.phase = drawer, CLOSED
        self.counts, self.last = collections.Counter(), collections.deque(maxlen=5)
        for it in self.books:
            desks.remove(it)
            desks.desk("init", it)
            for code in drawer.codes:
                desks.desk("add", it, code, "A Bank", random_commands.key_of(code))
        self.servers = []

    def __enter__(self):
        for it in self.books:
            self.servers.append(desks.Server(it, CONNECTIONS))
        return self

    def __exit__(self, *_):
        for it in self.servers:
            it.kill()

    def begin_again(self):
        """Kills the server of the automatic days, and starts it again."""
        self.servers[0].kill()
        self.servers[0] = desks.Server(self.books[0], CONNECTIONS)
        self.counts["begun again"] += 1

    def same(self, what, automatic, plain):
        """Both books must say the same. Returns that."""
        if automatic != plain:
            raise Differs(f"{what}: the automatic day says {automatic}, the plain one {plain}; before it {self.last}")
        return automatic

    def read(self, path, key=desks.OPERATOR):
        """Returns what both books reply to a reading."""
        request = desks.request("GET", path, key)
        return self.same(path, *replies_of(*((it, request) for it in self.servers))).body

    def queue_of(self, code):
        return self.read("/queue", random_commands.key_of(code))["orders"]

    def on_the_plain_day(self, command):
        """Returns the requests of a command on a plain day: `resolve` follows, if that can settle."""
        follows = desks.request("POST", "/desk/resolve", desks.OPERATOR, "{}")
        requests = [command.request()] if self.phase == CLOSED else [command.request(), follows]
        return [(self.servers[1], it) for it in requests]

    def give(self, command):
        """Gives both days a command, and compares what they reply and what follows. Returns the reply."""
        if command.path == "/batches":
            return self.give_batch(command)
        return self.compared(command, command, (self.servers[0], command.request()))

    def compared(self, command, plain_command, on_the_automatic_day):
        """Gives the plain day a command, and the automatic one this request of the same."""
        reply, plain, *resolved = replies_of(on_the_automatic_day, *self.on_the_plain_day(plain_command))
        follows = settled_by(*resolved)
        self.same(str(command), (reply.own(), reply.auto()), (plain.own(), follows))
        self.count(command, reply, follows)
        self.last.append((command.kind, command.path, command.body, reply))
        return reply

    def give_batch(self, command):
        """Gives the automatic day a batch, and the plain one its orders, one after another."""
        found, = replies_of((self.servers[0], random_commands.batch(command.key, command.body)))
        rows = ["reference,result,number,detail"]
        for body in command.body:
            order = command._replace(kind="order of a batch", path="/orders", body=body)
            reply, *resolved = replies_of(*self.on_the_plain_day(order))
            rows.append(row_of(body["reference"], reply))
            self.count(order, reply, settled_by(*resolved))
        self.same(str(command), found, Reply(200, "".join(f"{it}\n" for it in rows)))
        self.last.append((command.kind, command.body, found.body))
        return found

    def count(self, command, reply, follows):
        """Counts a command by its kind and its answer, and what followed."""
        answer = reply.body["answer"] if reply.status == 200 else f"refused {reply.body['code']}"
        kind = f"{command.kind}, {answer}" + (" after the cut-off" if self.phase == CUT_OFF else "")
        self.counts["commands"] += 1
        self.counts[kind] += 1
        if follows:
            self.counts["orders that a resolution settled"] += follows["count"]
            self.counts[f"{kind}: a resolution settled something"] += 1
        if follows and follows["count"] > 1:
            self.counts["resolutions of several orders"] += 1
        if answer == "credit set":
            self.drawer.credit[command.body["code"]] = command.body["credit"]

    def open_day(self):
        """Opens the next day, of either kind."""
        date = self.drawer.begin_day()
        bodies = {"date": date, "automatic": True}, {"date": date}
        commands = [random_commands.Command("opening", desks.OPERATOR, "/desk/open", it) for it in bodies]
        self.phase = OPEN
        self.compared(*commands, (self.servers[0], commands[0].request()))

    def end_day(self, path, phase):
        """Cuts the day off, or closes it."""
        command = random_commands.Command(path, desks.OPERATOR, path, {"date": self.drawer.date()})
        replies = replies_of(*((it, command.request()) for it in self.servers))
        self.phase = phase
        self.counts[f"{path}, {self.same(path, *replies).status}"] += 1

    def compare(self):
        """Compares the accounts, the day's report, and each bank's statement and queue, with each order's state and
        mark."""
        self.read("/desk/accounts")
        self.read(f"/desk/report/{self.drawer.date()}")
        for code in self.drawer.codes:
            self.read(f"/statements/{self.drawer.date()}", random_commands.key_of(code))
            self.queue_of(code)
        self.counts["comparisons of a day"] += 1

    def compare_books(self):
        """Compares all rows of the two books, whose servers have ended, once each was found sound."""
        for it in self.books:
            desks.desk("accounts", it)
        for table, columns in TABLES.items():
            rows = [desks.stock(it, f"SELECT {columns} FROM {table} ORDER BY 1").splitlines() for it in self.books]
            differing = [them for them in itertools.zip_longest(*rows) if len(set(them)) > 1]
            self.same(f"the first row of {table} that differs", *(differing or [(None, None)])[0])
            self.counts[f"rows of {table}"] += len(rows[0])
