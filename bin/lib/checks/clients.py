"""Has five clients of HTTP do a bank's day over a running desk: curl, wget, Python, node and Java.

The day stands in bin/lib/clients/day.txt: orders, repeats, readings, a queued order that settles by a resolution, an
order file, refusals. Each client must get the same replies, status and body. To one order the first reply is lost, and
a proxy's 429, 502, 503 and 504 follow: the client sends the same order again until it is answered. Then it is looked
what curl and wget do by themselves where a reply is lost. Where nginx is installed the banks' requests go through it
too, with the configuration of deploy/, and a reply that is lost is a 502 of nginx itself. Needs the five clients;
`--only NAME` tries one alone.

Shows: that five stock clients get the same replies, also through nginx and where a reply is lost.
Cannot show: other clients, and other versions of these.
"""
import contextlib
import json
import os
import re
import shutil
import subprocess
import sys

import kit
from lib import desks, proxies, relays

NEEDS = ("curl", "wget", "node", "java")
PARTS = {"through nginx": "nginx"}
FOLDER = f"{kit.TOP}/bin/lib/clients"
CLIENTS = {
    "curl": ["bash", f"{FOLDER}/curl.sh"],
    "wget": ["bash", f"{FOLDER}/wget.sh"],
    "python3": [sys.executable, f"{FOLDER}/client.py"],
    "node": ["node", f"{FOLDER}/client.mjs"],
    # (one file of source, which needs the JDK, and not the JRE alone)
    "java": ["java", "-XX:TieredStopAtLevel=1", "-Xshare:auto", f"{FOLDER}/Client.java"],
}
KEYS = {**desks.KEYS, "OPERATOR": desks.OPERATOR, "NOBODY": "0" * 32}
STEP = re.compile(r"^> (\w+)(\*?) (\w+) (\S+)(?: (.*))?\n< (\d+)\n((?:(?!> ).*\n)*)", re.M)
UNLUCKY = (relays.LOST, 429, 502, 503, 504)
# what a client does by itself where the first reply is lost: its words, how it ends, and how many connections it makes
ALONE = (
    (("curl", "-s", "-d", "BODY"), 52, 1),
    (("curl", "-s", "--retry", "2", "-d", "BODY"), 52, 1),
    (("curl", "-s", "--retry", "2", "--retry-all-errors", "-d", "BODY"), 0, 2),
    (("wget", "-q", "-O", "-", "--post-data", "BODY"), 0, 2),
)
SECONDS = 600
QUIET = {"capture_output": True, "text": True, "timeout": SECONDS, "check": False}


def options(words):
    words.add_argument("--only", choices=sorted(CLIENTS), help="one client alone")


class Step:
    """A request of the day: whose it is, whether the first reply is lost, and what the reply must be."""

    def __init__(self, who, star, method, path, body, status, reply):
        self.who, self.is_unlucky, self.method, self.path = who, bool(star), method, path
        self.body, self.reply = body or "", f"{status}\n{reply[:-1]}"

    def line(self, url):
        """Returns the line of the request for a client, whose folder has the order file."""
        return "\t".join([f"{url}{self.path}", KEYS[self.who], self.method, self.body])


def day():
    """Returns the steps of the day."""
    with open(f"{FOLDER}/day.txt", encoding="utf-8") as it:
        return [Step(*found) for found in STEP.findall(it.read())]


def replies(printed):
    """Returns the replies that a client printed."""
    return printed.split("\n.\n")[:-1]


def asked(name, lines, env):
    """Returns the replies that a client gets to these lines, and what it says on standard error."""
    ran = subprocess.run(CLIENTS[name], input="".join(f"{it}\n" for it in lines), cwd=FOLDER, env=env, **QUIET)
    return replies(ran.stdout), ran.stderr


class Day:
    """The day of one client, over a book of its own in a folder of its own, with nginx or without it."""

    def __init__(self, name, is_by_nginx, folder, report):
        self.name, self.is_by_nginx, self.folder, self.report = name, is_by_nginx, folder, report
        self.steps, self.title = day(), f"{name}, through nginx" if is_by_nginx else name

    def goes(self):
        """Has the client do the day, and compares its replies."""
        book = f"{self.folder}/bank.desk"
        desks.new_book(book, desks.KEYS, 150)
        # (the reply that is lost is one more connection of the desk)
        with desks.Server(book, len(self.steps) + 1) as server, contextlib.ExitStack() as both:
            relay = both.enter_context(relays.Relay(server.port, self.luck(), desks.SECONDS))
            nginx = both.enter_context(proxies.Nginx(self.folder, relay.port)) if self.is_by_nginx else None
            env = {**os.environ, **(nginx.trusted() if nginx else {})}
            found, said = asked(self.name, [it.line(url_for(it, server, relay, nginx)) for it in self.steps], env)
            self.compares(found, said)
            by_relay = len([it for it in self.steps if is_relayed(it, self.is_by_nginx)])
            self.report.sees(f"{self.title}: connections of the relay", relay.had, len(UNLUCKY) + by_relay)
            # (a client that broke off has left connections over)
            server.kill()

    def luck(self):
        """Returns what becomes of the relay's first connections: those of the unlucky order come to harm."""
        at = [it.is_unlucky for it in self.steps if is_relayed(it, self.is_by_nginx)].index(True)
        return [None] * at + [*UNLUCKY]

    def compares(self, found, said):
        """Compares the replies with those of the day."""
        for step, reply in zip(self.steps, found + ["no reply"] * len(self.steps)):
            what = f"{self.title}: {step.who} {step.method} {step.path} {step.body}"
            self.report.sees(what, reply, step.reply)
        if len(found) != len(self.steps):
            self.report.finds(f"{self.title} says: {said.strip()}")


def is_relayed(step, is_by_nginx):
    """Returns whether a request passes the relay: through nginx all of banks do, and else the unlucky one alone."""
    return step.who != "OPERATOR" if is_by_nginx else step.is_unlucky


def url_for(step, server, relay, nginx):
    """Returns where a request is sent. The operator asks the desk itself."""
    if not is_relayed(step, bool(nginx)):
        return f"http://127.0.0.1:{server.port}"
    return nginx.url if nginx else f"http://127.0.0.1:{relay.port}"


class Alone:
    """What curl and wget do by themselves where the reply to an order is lost."""

    title = "a lost reply, curl and wget by themselves"

    def __init__(self, folder, report):
        self.book, self.report = f"{folder}/bank.desk", report

    def goes(self):
        """Has each send an order whose first reply is lost."""
        desks.new_book(self.book, desks.KEYS, 150)
        with desks.Server(self.book, sum(many for _, _, many in ALONE)) as server:
            for at, (words, status, many) in enumerate(ALONE):
                with relays.Relay(server.port, [relays.LOST], desks.SECONDS) as relay:
                    ran = subprocess.run(sending(words, at, relay.port), **QUIET)
                    found = (ran.returncode, relay.had, '"repeated"' in ran.stdout)
                self.report.sees(f"{' '.join(words)}, the first reply lost", found, (status, many, status == 0))
            server.kill()


def sending(words, at, port):
    """Returns the words of a client that sends the order of this number."""
    body = json.dumps({"amount": 1, "reference": f"A-{at}", "to": "BETA"})
    key = ["-H" if words[0] == "curl" else "--header", f"desk-key: {desks.KEYS['ALFA']}"]
    return [*(body if it == "BODY" else it for it in words), *key, f"http://127.0.0.1:{port}/orders"]


def follow(part, report):
    """Does a part of the check, and tells how much was as it must be."""
    right, wrong = report.right, report.wrong
    part.goes()
    report.finds(f"{part.title}: {report.right - right} as they must be, {report.wrong - wrong} not")


def run(given, report):
    ways = (False, True) if proxies.Nginx.installed() else (False,)
    for name in [it for it in CLIENTS if given.only in (None, it)]:
        report.sees(f"{name} is installed", bool(shutil.which(name)), True)
        for is_by_nginx in ways if shutil.which(name) else ():
            with desks.room() as folder:
                follow(Day(name, is_by_nginx, folder, report), report)
    if not proxies.Nginx.installed():
        report.finds("nginx is not installed: no client went through it")
    if not given.only:
        with desks.room() as folder:
            follow(Alone(folder, report), report)
    report.sums(f"all clients: {report.right} things as they must be, {report.wrong} not")
