"""What each reading takes a server over a book as large as a book may be, beside that of one order."""
import statistics

from lib import desks, full
from lib.random_commands import key_of

ROUNDS = 7
CODE = full.CODES[0]
# a book of queues that reach each other bank, one of orders that are held, and one of a long day
WAITING = ("/desk/status", "/desk/queues", f"/desk/queue/{CODE}", "/waiting", "/desk/accounts")
HELD = (f"/desk/held/{CODE}", "/desk/status")
DAY = (f"/desk/orders/{full.FIRST}", f"/desk/marks/{full.FIRST}", f"/desk/report/{full.FIRST}",
       f"/desk/statements/{CODE}/{full.FIRST}")
# what the operator reads of one order
ORDER = f"/desk/orders/{CODE}/A-1"
CONNECTIONS = 4 * ROUNDS


def books():
    """Yields the books, each with its readings."""
    most = full.BANKS * full.WAITING
    yield full.Book(full.FIRST, full.OPEN, full.crossed(most, date=full.FIRST), []), WAITING
    yield full.Book(full.FIRST, full.OPEN, full.ring(most, full.HELD, date=full.SECOND, due=full.SECOND), []), HELD
    settled = [it._replace(mark=it.number) for it in full.ring(most, full.SETTLED, date=full.FIRST)]
    yield full.Book(full.FIRST, full.OPEN, settled, []), DAY


def asked(server, path):
    """Returns the reply to a reading: the operator's, or a bank's own."""
    key = desks.OPERATOR if path.startswith("/desk/") else key_of(CODE)
    reply = server.asked(desks.request("GET", path, key))
    if not reply.startswith(b"HTTP/1.1 200 "):
        raise desks.Broken(f"{path} was replied {reply[:200]!r}")
    return reply


def took(server, path):
    """Returns the milliseconds of a processor that a reading takes."""
    before = server.processor_time()
    asked(server, path)
    return (server.processor_time() - before) * 1000


def peak(server, path):
    """Returns the bytes of the body of a reading, and how much more memory in kB the server has at most while it
    answers than it used before."""
    before = server.used()
    server.forget_peak()
    body = asked(server, path).partition(b"\r\n\r\n")[2]
    return len(body), server.memory("VmHWM") - before


def measured(folder):
    """Yields each reading, and of it and then of one order: what it takes, the bytes of the body, and the memory."""
    giving = desks.library("giving", folder)
    for at, (book, paths) in enumerate(books()):
        path = f"{folder}/{at}.desk"
        full.write(book, path)
        for reading in paths:
            with desks.Server(path, CONNECTIONS, giving) as server:
                found = [(statistics.median(took(server, it) for _ in range(ROUNDS)), *peak(server, it))
                         for it in (reading, ORDER)]
                server.kill()
            yield reading, *found


def tell(folder):
    print("reading  ms of a processor, bytes, kB of memory more  the same of one order")
    for reading, *found in measured(folder):
        print(f"| `GET {reading}` | {' | '.join(f'{ms:.2f} | {size:,} | {more:,}' for ms, size, more in found)} |",
              flush=True)
