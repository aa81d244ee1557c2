#!/usr/bin/env python3
"""A bank's requests by Python's own library. Each line of standard input has a URL, a key, a method and a body, with
tabs between them; a body @FILE is that of a file. Prints for each the status of the reply, its body, and a line with a
dot."""
import http.client
import sys
import time
import urllib.error
import urllib.request

TRIES, SECONDS_BETWEEN, SECONDS = 8, 1, 60
# (the request may or may not have been carried out: the same request again tells)
AGAIN = (429, 502, 503, 504)


def asked(request):
    """Returns the status and the body of the reply to a request, which is sent again until there is one."""
    for _ in range(TRIES):
        try:
            with urllib.request.urlopen(request, timeout=SECONDS) as reply:
                return reply.status, reply.read()
        except urllib.error.HTTPError as refused:
            if refused.code not in AGAIN:
                return refused.code, refused.read()
        except (OSError, http.client.HTTPException):
            pass
        time.sleep(SECONDS_BETWEEN)
    raise SystemExit("no reply")


def content(body):
    """Returns the bytes of a body."""
    if not body.startswith("@"):
        return body.encode()
    with open(body[1:], "rb") as it:
        return it.read()


def main():
    for line in sys.stdin:
        url, key, method, body = line.rstrip("\n").split("\t")
        sent = content(body) if method == "POST" else None
        status, said = asked(urllib.request.Request(url, sent, {"desk-key": key}, method=method))
        print(f"{status}\n{said.decode()}\n.", flush=True)


if __name__ == "__main__":
    main()
