"""A plain server in C beside which the desk's is measured, and a client in C that keeps either of them busy."""
import subprocess
import typing

from lib import desks

# how many requests are sent ahead of the replies
AHEAD = 4


class Programs(typing.NamedTuple):
    """The compiled programs: the client, and the plain server."""

    client: str
    server: str


def compiled(folder):
    """Compiles both in a folder."""
    return Programs(desks.program("asking", folder), desks.program("plain_server", folder, "sqlite3"))


def client(folder):
    """Compiles the client alone."""
    return Programs(desks.program("asking", folder), None)


class Server(desks.Listening):
    """A plain server of a book that the desk made, for a number of connections."""

    def __init__(self, programs, book, connections):
        super().__init__([programs.server, book, str(connections)])


def seconds(programs, port, requests):
    """Asks a server for all of this, each on a connection of its own, and returns how long it took. The replies must be
    good."""
    sent = b"".join(b"%d\n%s" % (len(it), it) for it in requests)
    ran = subprocess.run([programs.client, str(port), str(AHEAD)], input=sent, capture_output=True, check=False)
    if ran.returncode:
        raise desks.Broken(ran.stderr.decode(errors="replace").strip())
    return int(ran.stdout) / 1e9
