"""What the checks and measures of a built program share: the program and its runs, a small book, a server over it, the
stock sqlite3, and libraries of C."""
import argparse
import datetime
import json
import os
import re
import shutil
import signal
import socket
import statistics
import subprocess
import sys
import tempfile
import time

import kit
from lib import unproved

HERE = os.path.dirname(os.path.realpath(__file__))
PROGRAMS = f"{kit.TOP}/crates/desk/out"
DESK = f"{PROGRAMS}/desk"
KEYS = {"ALFA": "a" * 32, "BETA": "b" * 32, "GAMA": "c" * 32}
OPERATOR = "f" * 32
DATE = "2024-03-04"
# a book's file, and what may stand beside it
LOG = "-wal"
BESIDE = (LOG, "-shm", "-journal")
PARTS = ("", *BESIDE)
LOCK = ".lock"
# the longest time of a reply
SECONDS = 60
# what makes of the tables of a book, by their version, those of an earlier one
OLDER = {
    1: "DROP TABLE resolution; DROP TABLE forward; UPDATE desk SET version = 1",
    2: "DROP TABLE resolution; UPDATE desk SET version = 2",
}


class Broken(Exception):
    """Why a check or a measure cannot go on."""


def options(text):
    """Returns what reads the words of a script, whose help is this text."""
    return argparse.ArgumentParser(description=text, formatter_class=argparse.RawDescriptionHelpFormatter)


def end(main):
    """Runs a script, and ends with its exit status, or with 1 and the reason where it could not go on."""
    try:
        sys.exit(main())
    except Broken as why:
        sys.exit(f"{os.path.basename(sys.argv[0])}: {why}")


def room():
    """Returns a folder that is removed at the end of its `with`."""
    return tempfile.TemporaryDirectory(prefix="desk-")


# The program


def program_of(*words):
    """Returns the path of the program that is to be run, which is built where there is none that is current."""
    how = {"stdout": subprocess.PIPE, "text": True, "check": False}
    ran = subprocess.run([f"{kit.TOP}/bin/lib/program", *words], **how)
    if ran.returncode:
        raise Broken("the program is not built")
    return ran.stdout.strip()


def build():
    """Has the program proved and built where it is missing or older than its sources."""
    program_of("--proved")
    refuse_one_not_proved()


def choose():
    """Takes the program that bin/desk takes, which may be one that is not proved."""
    global DESK
    DESK = program_of()


def is_proved():
    """Returns whether the program does not say of itself that it is not proved."""
    how = {"stdout": subprocess.PIPE, "stderr": subprocess.STDOUT, "text": True, "check": False}
    return unproved.SAID not in subprocess.run([DESK, "--version"], **how).stdout


def refuse_one_not_proved():
    """Refuses to go on with a program that says that it is not proved."""
    if os.path.exists(DESK) and not is_proved():
        raise Broken(f"{DESK} is not proved: bin/build proves it")


def desk(*words):
    """Returns what a run of the program prints. It must end with 0."""
    ran = subprocess.run([DESK, *words], capture_output=True, text=True, check=False)
    if ran.returncode:
        raise Broken(f"desk {' '.join(words)}: {ran.returncode}: {(ran.stdout + ran.stderr).strip()}")
    return ran.stdout


def new_book(book, keys, money, name="A Bank", *choice):
    """Makes a book of banks with these keys, gives money to the first, and opens a day, with this choice. The name may
    have {} for a bank's code."""
    desk("init", book)
    for code, key in keys.items():
        desk("add", book, code, name.format(code.title()), key)
    desk("post", book, next(iter(keys)), "P-1", str(money))
    desk("open", book, DATE, *choice)


def weekday(number):
    """Returns the weekday of this number, from a Monday, which has the number 0, on."""
    return str(datetime.date.fromisoformat(DATE) + datetime.timedelta(days=number // 5 * 7 + number % 5))


def parts_of(book, ends=PARTS):
    """Returns the ends of the names of those files of a book that are there."""
    return [it for it in ends if os.path.exists(book + it)]


def remove(book):
    """Removes a book's files, and its lock."""
    for it in parts_of(book, (*PARTS, LOCK)):
        os.remove(book + it)


def content(path):
    """Returns the bytes of a file."""
    with open(path, "rb") as it:
        return it.read()


# The server


def free_port():
    """Returns a port that nothing listens at."""
    with socket.socket() as it:
        it.bind(("127.0.0.1", 0))
        return it.getsockname()[1]


class Listening:
    """A server that was started by these words, and first says at which port it listens. It takes a number of
    connections, and at the end of its `with` it must have had them all."""

    def __init__(self, words, env=None):
        pipes = {"stdout": subprocess.PIPE, "stderr": subprocess.PIPE}
        self.process = subprocess.Popen(words, env=env, **pipes)
        listens = re.fullmatch(rb"listening (\d+)\n", self.process.stdout.readline())
        self.port = int(listens[1]) if listens else None
        if not listens:
            self.process.kill()
            said = self.process.stderr.read().decode().strip()
            self.wait()
            raise Broken(f"the server does not listen: {said}")

    def __enter__(self):
        return self

    def __exit__(self, kind, *_):
        if kind:
            self.process.kill()
        self.wait()

    def kill(self):
        """Ends the server at once."""
        self.process.kill()
        self.wait()

    def wait(self):
        """Waits until the server has ended."""
        self.process.stdout.close()
        self.process.stderr.close()
        self.process.wait()

    def ended(self):
        """Returns how the server ended that has had its connections: its exit status, and what it printed since it
        listens on standard output, and on standard error."""
        try:
            status = self.process.wait(SECONDS)
        except subprocess.TimeoutExpired as why:
            raise Broken("the server does not end") from why
        return status, self.process.stdout.read().decode(), self.process.stderr.read().decode()

    def asked(self, request):
        """Returns the server's reply to a request."""
        return asked(self.port, request)

    def memory(self, what="VmRSS"):
        """Returns the server's memory in kB: VmRSS what it has now, VmHWM the most that it had."""
        with open(f"/proc/{self.process.pid}/status", encoding="utf-8") as status:
            return int(next(line.split()[1] for line in status if line.startswith(what)))

    def used(self):
        """Returns the memory that the server uses, in kB, once it gave back what it does not. It needs the library
        `giving`."""
        self.process.send_signal(signal.SIGUSR1)
        time.sleep(1)
        return self.memory()

    def forget_peak(self):
        """Has the most memory that the server had counted from now on."""
        with open(f"/proc/{self.process.pid}/clear_refs", "w", encoding="utf-8") as it:
            it.write("5")

    def processor_time(self):
        """Returns how many seconds of a processor the server has had. It is of one thread."""
        return processor_time(self.process.pid)


def processor_time(pid):
    """Returns how many seconds of a processor a process of one thread has had."""
    return int(content(f"/proc/{pid}/schedstat").split()[0]) / 1e9


class Server(Listening):
    """A desk that serves a book, as many connections as are said, at a port that is free or at this one. With a
    library, that one is loaded first, with more in its environment."""

    def __init__(self, book, connections, library=None, operator=OPERATOR, port=None, more=None):
        words = ["--port", str(port or free_port()), "--count", str(connections), "--operator-key", operator]
        env = {**os.environ, "LD_PRELOAD": library, **(more or {})} if library else None
        super().__init__([DESK, "serve", book, *words], env)


def request(method, path, key, body=None):
    """Returns the bytes of a request."""
    head = f"{method} {path} HTTP/1.1\r\nHost: desk\r\ndesk-key: {key}\r\n"
    if body is None:
        return f"{head}\r\n".encode()
    return f"{head}Content-Length: {len(body.encode())}\r\n\r\n{body}".encode()


def order(key, to, number, amount=1):
    """Returns the request of an order, whose reference has this number."""
    return request("POST", "/orders", key, json.dumps({"amount": amount, "reference": f"A-{number}", "to": to}))


def send(port, sent):
    """Sends a request on a connection of its own, which is returned."""
    link = socket.create_connection(("127.0.0.1", port), timeout=SECONDS)
    link.sendall(sent)
    return link


def reply_on(link):
    """Returns the whole reply on a connection, whatever it says."""
    with link:
        reply = bytearray()
        while part := link.recv(65536):
            reply += part
    return bytes(reply)


def asked(port, sent):
    """Returns the whole reply to one request on a connection of its own. It must be good."""
    reply = reply_on(send(port, sent))
    if b" 200 OK\r\n" not in reply[:20]:
        raise Broken(f"a server replied {reply[-400:]!r}")
    return reply


# Other tools


def installed(tool):
    """Returns where a tool is installed, or nothing. Some tools stand where only administrators have them."""
    return shutil.which(tool, path=f"{os.environ.get('PATH', '')}:/usr/sbin:/usr/local/sbin")


def stock(book, *commands, words=()):
    """Does this to a book with the stock sqlite3, and returns what it prints."""
    ran = subprocess.run(["sqlite3", *words, "-bail", book, *commands], capture_output=True, text=True, check=False)
    if ran.returncode:
        raise Broken(f"sqlite3 said {ran.stderr.strip()} at {commands}")
    return ran.stdout


def library(name, folder):
    """Compiles the file of C of this name, which stands beside this one, to a library in the folder."""
    made, source = f"{folder}/{name}.so", f"{HERE}/{name}.c"
    subprocess.run(["cc", "-shared", "-fPIC", "-O2", "-o", made, source], check=True)
    return made


def program(name, folder, *libraries):
    """Compiles the file of C of this name, which stands beside this one, with gcc to a program in the folder, over
    these libraries. It is told plainly where gcc or a header is missing."""
    made, source = f"{folder}/{name}", f"{HERE}/{name}.c"
    if not shutil.which("gcc"):
        raise Broken("gcc is missing")
    words = ["gcc", "-O2", "-o", made, source, *(f"-l{it}" for it in libraries)]
    ran = subprocess.run(words, capture_output=True, text=True, check=False)
    missing = re.search(r"fatal error: (\S+): No such file", ran.stderr)
    if ran.returncode:
        raise Broken(f"the header {missing[1]} is missing" if missing else f"gcc said: {ran.stderr.strip()}")
    return made


def told(measures, digits=1):
    """Returns the median and the range of what was measured, in words, with this many digits behind the point."""
    middle, least, most = (f"{it:.{digits}f}" for it in (statistics.median(measures), min(measures), max(measures)))
    return f"{middle:>8} ({least} to {most})"
