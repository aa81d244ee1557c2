"""What the desk's readings say, for checks that compare them: the parts of a reply, the versions that the code states,
and what the queues of a list of orders are."""
import json
import re
import typing

import kit

JSON, CSV = "application/json", "text/csv"
ORDERS, MARKS = "number,sender,reference,receiver,amount,due,state,mark\n", "number,count,value\n"
VERSION = re.compile(r'"(\d+\.\d+\.\d+), tables (\d+), ')


class Listed(typing.NamedTuple):
    """A line of the orders of a date."""

    number: str
    sender: str
    reference: str
    receiver: str
    amount: str
    due: str
    state: str
    mark: str


def compact(value):
    """Returns a JSON value as a desk writes it."""
    return json.dumps(value, separators=(",", ":"))


def reply_of(sent):
    """Returns the status, the type and the body of a whole reply."""
    head, _, body = sent.decode().partition("\r\n\r\n")
    fields = dict(it.split(": ", 1) for it in head.split("\r\n")[1:])
    return int(head.split()[1]), fields["Content-Type"], body


def versions():
    """Returns the versions of the program and of its tables, as the code states them."""
    with open(f"{kit.TOP}/crates/rtgs_cli_arguments/src/version.rt", encoding="utf-8") as it:
        return VERSION.search(it.read()).groups()


def program_version():
    return versions()[0]


def tables_version():
    return versions()[1]


def queues_of(orders, accounts):
    """Returns what `/desk/queues` has to say of these orders of a plain day, given the accounts. How many a resolution
    would settle is found by taking back the newest order of each bank that is short, from all."""
    queues = {}
    for it in orders:
        if it.state == "queued":
            queues.setdefault(it.sender, []).append(it)
    settling = greatest(queues, {code: it["balance"] + it["credit"] for code, it in accounts.items()})
    return [queue_of(code, queues[code], settling[code], accounts[code]) for code in sorted(queues)]


def greatest(queues, headrooms):
    """Returns how many orders of each queue settle together at most, by the procedure of Bech and Soramäki 2001."""
    taken, room = {code: len(it) for code, it in queues.items()}, dict(headrooms)
    for sender, queue in queues.items():
        for it in queue:
            room[sender] -= int(it.amount)
            room[it.receiver] += int(it.amount)
    while short := next((it for it in queues if room[it] < 0), None):
        taken[short] -= 1
        back = queues[short][taken[short]]
        room[short] += int(back.amount)
        room[back.receiver] -= int(back.amount)
    return taken


def value_of(orders):
    return sum(int(it.amount) for it in orders)


def queue_of(code, queue, settling, account):
    """Returns what is said of one bank's queue, of which this many orders would settle."""
    first, room = queue[0], account["balance"] + account["credit"]
    receivers = []
    for to in sorted({it.receiver for it in queue}):
        its = [it for it in queue if it.receiver == to]
        receivers.append({"queued": len(its), "queued_value": value_of(its), "to": to})
    return {"code": code, "first": {"amount": int(first.amount), "number": int(first.number),
            "reference": first.reference, "to": first.receiver}, "headroom": room, "queued": len(queue),
            "queued_value": value_of(queue), "receivers": receivers, "settling": settling,
            "settling_value": value_of(queue[:settling]), "short": max(int(first.amount) - room, 0)}
