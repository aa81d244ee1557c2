"""A relay in front of a server, by which the replies to the first connections are lost, or are those of a proxy."""
import contextlib
import socket
import threading

LOST = "lost"
PAGE = b"<html>a proxy's own page</html>\n"


class Relay:
    """Passes each connection on to a port of this machine. What becomes of the first ones is said: LOST passes the
    request on and drops the reply, a number is the status of a reply that the relay makes itself, of a request that it
    passes on to nobody. Ends with its `with`."""

    def __init__(self, port, first, seconds):
        self.to, self.first, self.seconds, self.had = port, list(first), seconds, 0
        self.server = socket.create_server(("127.0.0.1", 0))
        self.port = self.server.getsockname()[1]
        self.thread = threading.Thread(target=self.serve, daemon=True)

    def __enter__(self):
        self.thread.start()
        return self

    def __exit__(self, *_):
        # (which ends the wait for the next connection)
        self.server.shutdown(socket.SHUT_RDWR)
        self.server.close()
        self.thread.join()

    def serve(self):
        with contextlib.suppress(OSError):
            while True:
                link, _ = self.server.accept()
                with link, contextlib.suppress(OSError):
                    link.settimeout(self.seconds)
                    self.had += 1
                    self.pass_on(link, self.first.pop(0) if self.first else None)

    def pass_on(self, link, what):
        """Takes a request, and does with it what is said."""
        sent = request(link)
        reply = made(what) if isinstance(what, int) else asked(self.to, sent, self.seconds)
        if what != LOST:
            link.sendall(reply)


def request(link):
    """Returns the bytes of one request: its head, and as much more as that says."""
    found = bytearray()
    while b"\r\n\r\n" not in found and (part := link.recv(65536)):
        found += part
    head, _, _ = bytes(found).partition(b"\r\n\r\n")
    lengths = [it.partition(b":")[2] for it in head.split(b"\r\n") if it.lower().startswith(b"content-length:")]
    whole = len(head) + 4 + int(lengths[0] if lengths else 0)
    while len(found) < whole and (part := link.recv(65536)):
        found += part
    return bytes(found)


def asked(port, sent, seconds):
    """Returns the whole reply of a server to these bytes."""
    with socket.create_connection(("127.0.0.1", port), timeout=seconds) as link:
        link.sendall(sent)
        reply = bytearray()
        while part := link.recv(65536):
            reply += part
    return bytes(reply)


def made(status):
    """Returns a reply of a proxy's own, with this status."""
    fields = ("Content-Type: text/html", f"Content-Length: {len(PAGE)}", "Connection: close")
    return "\r\n".join([f"HTTP/1.1 {status} Bad", *fields, "", ""]).encode() + PAGE
