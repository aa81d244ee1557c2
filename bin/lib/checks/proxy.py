"""Puts a real nginx and a real Caddy in front of a running desk, with their configurations of deploy/.

They have a self-signed certificate. All requests of BANKS.md go through each, with the replies that the handbook shows.
The operator's routes must be closed, also to the operator's key, in each of many spellings of their paths, and edits of
the configurations that open them must be seen to do so. Heads of HTTP/1.0, bodies in chunks, and bodies of the greatest
length and one byte more are sent. A bank that sends slowly must hold up no other. The desk is ended, killed in the
middle of a request, and held still: the bank must get 502 and 504, and the same order again must be answered and act
once. Ends with 1 where one of the two is not installed. Needs `curl` and `openssl` too.

Shows: that the desk works behind nginx and Caddy as the handbook says, also where the desk is ended, killed or held
still.
Cannot show: other proxies and other versions of these two, and a load of many banks.
"""
import os
import signal
import socket
import ssl
import subprocess
import threading
import time

from lib import desks, proxies, stated
from lib.checks import copies, handbooks
from lib.report import Report

NEEDS = ("nginx", "caddy", "curl", "openssl")
MANY = 1000
# how long nginx waits for a desk that is held still
SECONDS = 2
NO_KEY, TOO_LONG = '{"code":68,"name":"NoKey"}', '{"code":63,"name":"BodyTooLong"}'
JSON = "application/json"
LONGEST = 65536
# ways to write the paths of the operator's routes, and what only begins as they do
SPELLINGS = (
    "/desk/accounts", "/desk/report/2024-03-04", "/desk/accounts?x=1", "/desk", "/desk/", "/DESK/", "/Desk/accounts",
    "//desk/", "//desk/accounts", "///desk/accounts", "/desk//accounts", "/%64esk/", "/%64esk/accounts", "/%44ESK",
    "/./desk/accounts", "/%2e/desk/accounts", "/x/../desk/", "/x/../desk/accounts", "/x/%2e%2e/desk/accounts",
    "/orders/../desk/accounts", "/desk/../desk/accounts", "/desk%2f", "/desk%2Faccounts", "/%2fdesk/accounts",
    "/desk;/accounts", "/desk/resolve", "//desk/resolve", "/%64esk/resolve", "/x/../desk/resolve", "/desk%2fresolve",
)
# edits of the line that closes the routes, by which some of them are open
OPENING = {
    "nginx": [{"location ~* ^/desk {": f"location {it} {{"} for it in
              ("= /desk/", "= /desk", "/desk/", "~ ^/desk", "~* ^/desk$")],
    "caddy": [{"handle /desk* {": f"handle {it} {{"} for it in ("/desk", "/desk/", "/desk/*")],
}


def handbook(kind, folder, report):
    """Sends the requests of the banks' handbook through a proxy."""
    text, many = handbooks.requests_of_banks()
    book = f"{folder}/bank.desk"
    handbooks.book_of_banks(book)
    with handbooks.Session(folder) as session, desks.Server(book, many, operator=f"{255:032x}") as server:
        with kind(folder, server.port) as proxy:
            session.port = proxy.port
            session.run(f"export CURL_CA_BUNDLE={proxy.certificate}")
            session.follow(text.replace("http://127", "https://127"), handbooks.SHOWN_TO_BANKS, report)
        report.sees(f"the desk behind {kind.NAME}", server.ended(), (0, f"served {many}\n", ""))


class Behind:
    """A desk behind a proxy of this kind, which is ended and started again."""

    def __init__(self, kind, folder, report, edits=None):
        self.folder, self.report, self.book = folder, report, f"{folder}/bank.desk"
        desks.new_book(self.book, desks.KEYS, 150)
        self.server = desks.Server(self.book, MANY)
        self.proxy = kind(folder, self.server.port, SECONDS, edits)

    def sees(self, what, found, wanted):
        """Counts a thing that was looked at behind this proxy."""
        self.report.sees(f"{self.proxy.NAME}: {what}", found, wanted)

    def __enter__(self):
        try:
            self.proxy.__enter__()
        except BaseException:
            self.server.kill()
            raise
        return self

    def __exit__(self, *_):
        self.proxy.__exit__()
        self.server.kill()

    def starts_again(self):
        self.server = desks.Server(self.book, MANY, port=self.server.port)

    def asked(self, path, *words, key=desks.KEYS["ALFA"]):
        """Returns the status, the type and the body of the reply to a request that curl sends through the proxy."""
        told = "%{stderr}%{http_code} %{content_type}"
        sent = ["curl", "-s", "--path-as-is", "-H", f"desk-key: {key}", "-w", told, *words, self.proxy.url + path]
        env = {**os.environ, "CURL_CA_BUNDLE": self.proxy.certificate}
        ran = subprocess.run(sent, env=env, capture_output=True, text=True, timeout=desks.SECONDS, check=False)
        status, _, kind = ran.stderr.partition(" ")
        return int(status or 0), kind, ran.stdout

    def sent(self, target, key, body=None):
        """Returns the status, the type and the body of the reply to a request whose target is sent as it stands."""
        asked = desks.request("GET" if body is None else "POST", target, key, body)
        link = self.linked()
        link.sendall(asked.replace(b"Host: desk", f"Host: 127.0.0.1:{self.proxy.port}\r\nConnection: close".encode()))
        head, _, said = desks.reply_on(link).decode().partition("\r\n\r\n")
        kind = [it.partition(":")[2].strip() for it in head.splitlines() if it.lower().startswith("content-type:")]
        return int((head.split() or [0, 0])[1]), " ".join(kind), said

    def linked(self):
        """Returns a connection to the proxy."""
        trusted = ssl.create_default_context(cafile=self.proxy.certificate)
        link = socket.create_connection(("127.0.0.1", self.proxy.port), timeout=desks.SECONDS)
        return trusted.wrap_socket(link, server_hostname="127.0.0.1")

    def order(self, number, *words):
        """Returns the status of the reply to an order, and what its answer is."""
        body = f'{{"amount":1,"reference":"A-{number}","to":"BETA"}}'
        status, _, said = self.asked("/orders", "-d", body, *words)
        return status, said.split('"')[3] if said.startswith('{"answer"') else ""

    def sends(self, what, number, *wanted):
        """Sends an order again and again, and compares the statuses and answers."""
        self.sees(what, [self.order(number) for _ in wanted], list(wanted))


def closed(it):
    """The operator's routes are closed, however their paths are written. At the desk's own port they are not."""
    asked = desks.request("GET", "/desk/accounts", desks.OPERATOR)
    it.sees("the operator at the desk's own port", b'"phase":"OPEN"' in it.server.asked(asked), True)
    for path in (*SPELLINGS, f"{it.proxy.url}/desk/accounts"):
        body = "{}" if path.endswith("resolve") else None
        it.sees(f"the operator at {path}", it.sent(path, desks.OPERATOR, body), (403, JSON, NO_KEY))


def opened(kind, report):
    """Edits of the configuration that open a route are seen to do so."""
    for edits in OPENING[kind.NAME]:
        found = Report(lambda *_, **__: None)
        with desks.room() as folder, Behind(kind, folder, found, edits) as it:
            closed(it)
        is_seen = found.right > 0, found.wrong > 0
        report.sees(f"{kind.NAME}: routes that are open after {edits}", is_seen, (True, True))


def forms(it):
    """What clients send that the desk itself does not take, or just takes."""
    it.sees("a head of HTTP/1.0", it.asked("/account", "--http1.0", "--no-alpn")[0], 200)
    wanted = (200, "settled") if it.proxy.takes_chunks() else (400, "")
    it.sees("a body in chunks", it.order(1, "-H", "Transfer-Encoding: chunked"), wanted)
    for name, length in (("longest", LONGEST), ("longer", LONGEST + 1)):
        with open(f"{it.folder}/{name}.csv", "w", encoding="utf-8") as file:
            file.write("x" * length)
    longest, longer = (it.asked("/batches", "--data-binary", f"@{it.folder}/{of}.csv") for of in ("longest", "longer"))
    it.sees("the longest body", longest, (400, JSON, '{"code":40,"name":"BadHeader"}'))
    it.sees("a longer body", longer, (413, JSON, TOO_LONG))


def slow(it):
    """A bank sends an order for longer than the desk waits for one. It is answered, and so are others meanwhile."""
    sent = desks.order(desks.KEYS["ALFA"], "BETA", 5)
    with it.linked() as link:
        link.sendall(sent[:-1])
        it.sends("an order while another bank sends slowly", 6, (200, "settled"))
        time.sleep(stated.constants()["request"] + 1)
        link.sendall(sent[-1:])
        it.sees("an order that is sent slowly", link.recv(65536)[:15], b"HTTP/1.1 200 OK")


def restarts(it):
    """The desk is not there, or ends in the middle: 502."""
    it.server.kill()
    it.sends("an order while the desk is not there", 2, (502, ""))
    it.starts_again()
    it.sends("the same order afterwards", 2, (200, "settled"), (200, "repeated"))
    it.server.process.send_signal(signal.SIGSTOP)
    killed = threading.Timer(SECONDS / 4, it.server.kill)
    killed.start()
    it.sends("an order during which the desk is killed", 3, (502, ""))
    killed.join()
    it.starts_again()
    it.sends("that order afterwards", 3, (200, "settled"), (200, "repeated"))


def waits(it):
    """The desk is held still: 504, and the order acts once the desk goes on."""
    it.server.process.send_signal(signal.SIGSTOP)
    while copies.state_of(it.server.process) != "T":
        pass
    it.sends("an order while the desk is held still", 4, (504, ""))
    it.server.process.send_signal(signal.SIGCONT)
    it.sends("the same order once it goes on, which has acted", 4, (200, "repeated"))


def run(_given, report):
    for version in [it.version() for it in proxies.ALL]:
        report.finds(version)
    for kind in proxies.ALL:
        before = report.right, report.wrong
        with desks.room() as folder:
            handbook(kind, folder, report)
        with desks.room() as folder, Behind(kind, folder, report) as it:
            for part in (closed, forms, slow, restarts, waits):
                part(it)
        opened(kind, report)
        report.finds(f"{kind.NAME}: BANKS.md, closed routes, other forms, a slow bank, 502 and 504: "
                     f"{report.right - before[0]} as they must be, {report.wrong - before[1]} not")
    report.sums(f"{len(proxies.ALL)} proxies: {report.right} as they must be, {report.wrong} not")
