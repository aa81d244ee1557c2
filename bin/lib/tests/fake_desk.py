#!/usr/bin/env python3
"""Stands in the tests for the program: it notes its words in the book that they name, and serves good replies."""
import http.server
import sys


class Replies(http.server.BaseHTTPRequestHandler):
    """Replies with what was sent, or with 404 where that is not an order."""

    def do_POST(self):
        body = self.rfile.read(int(self.headers["Content-Length"]))
        self.send_response(200 if b"amount" in body else 404)
        self.end_headers()
        self.wfile.write(body)

    def log_message(self, *_):
        pass


def serve(port, count):
    if port < 1024:
        sys.exit(3)
    with http.server.HTTPServer(("127.0.0.1", port), Replies) as server:
        print(f"listening {port}", flush=True)
        for _ in range(count):
            server.handle_request()
    print(f"served {count}")


def main(command, book, *words):
    if command == "serve":
        serve(int(words[1]), int(words[3]))
        return 0
    if command == "refuse":
        print("refused 2 NoParticipant", file=sys.stderr)
        return 1
    with open(book, "a", encoding="utf-8") as it:
        it.write(" ".join([command, *words]) + "\n")
    print("done")
    return 0


if __name__ == "__main__":
    sys.exit(main(*sys.argv[1:]))
