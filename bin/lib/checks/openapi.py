"""Sends each example of docs/openapi.yaml to a running desk, in the order that it names, and compares the replies.

Status, type and body of each reply must be those of its example. Each example must be sent, and fit the schema beside
it. The routes must be those of SPECIFICATION.md, and the refusals those of the code that a request may meet, each under
its status.

Shows: that a running desk gives the replies of the description, and has its routes and refusals.
Cannot show: requests that are no example there.
"""
import json
import re

import kit
from lib import desks, plain_yaml, relays, stated

KEYS = {**desks.KEYS, "OPERATOR": desks.OPERATOR, "NOBODY": "0" * 32}
ROUTE = re.compile(r"^\| (GET|POST) ((?:`[^`]+`(?:, )?)+) \|", re.M)
NAMED = re.compile(r"\b(\d+) ([A-Z]\w+)")
METHODS = ("get", "post")
TYPES = {"object": dict, "array": list, "string": str, "integer": int, "boolean": bool}
# commands that have no route answer these, and nothing answers this one
OF_NO_ROUTE, NEVER = {10, 11, 12, 33, 34}, {92}


class Operation:
    """A method of a path, with its examples."""

    def __init__(self, path, method, said, description):
        self.path, self.method, self.description = path, method.upper(), description
        self.parameters = [description.whole(it) for it in said.get("parameters", [])]
        self.bodies = description.whole(said.get("requestBody", {})).get("content", {})
        self.replies = {int(it): description.whole(of) for it, of in said["responses"].items()}

    def sent(self):
        """Yields the name of each example of what is sent, its value and its schema."""
        for it in [*self.parameters, *self.bodies.values()]:
            for name, example in it.get("examples", {}).items():
                yield name, example["value"], it["schema"]

    def answered(self):
        """Yields the name of each example of a reply, its status, its type, its value and its schema."""
        for status, reply in self.replies.items():
            for kind, it in reply["content"].items():
                for name, example in it.get("examples", {}).items():
                    yield name, status, kind, example["value"], it["schema"]

    def request(self, name, key):
        """Returns the bytes of the request of an example."""
        path, body = self.path, None
        for it in self.parameters:
            path = path.replace(f"{{{it['name']}}}", it["examples"][name]["value"])
        for kind, it in self.bodies.items():
            body = text_of(kind, it["examples"][name]["value"])
        return desks.request(self.method, path, key, body)

    def reply(self, name):
        """Returns the status, the type and the body of the reply to an example."""
        ((status, kind, value),) = [it[1:4] for it in self.answered() if it[0] == name]
        return status, kind, text_of(kind, value)


class Description:
    """The whole of docs/openapi.yaml."""

    def __init__(self, text):
        self.said = plain_yaml.read(text)
        self.operations = {}
        for path, of in self.said["paths"].items():
            for method in set(of) & set(METHODS):
                self.operations[of[method]["operationId"]] = Operation(path, method, of[method], self)

    def whole(self, it):
        """Returns a part, or the one to which it refers."""
        if "$ref" not in it:
            return it
        found = self.said
        for name in it["$ref"].removeprefix("#/").split("/"):
            found = found[name]
        return found

    def faults(self, value, schema):
        """Returns how a value differs from its schema."""
        schema = self.whole(schema)
        kind = TYPES[schema["type"]]
        if not isinstance(value, kind) or (kind is int and isinstance(value, bool)):
            return [f"{value!r} is no {schema['type']}"]
        tests = {
            "enum": lambda of: value in of,
            "minimum": lambda of: value >= of,
            "maximum": lambda of: value <= of,
            "not": lambda of: value != of["const"],
            "pattern": lambda of: re.search(of, value),
            "required": lambda of: set(of) <= set(value),
            "additionalProperties": lambda of: of or set(value) <= set(schema.get("properties", {})),
        }
        found = [f"{value!r} is not as {name} says" for name, is_so in tests.items()
                 if name in schema and not is_so(schema[name])]
        inner = [(it, schema["items"]) for it in value] if kind is list else []
        if kind is dict:
            inner = [(value[it], of) for it, of in schema.get("properties", {}).items() if it in value]
        return found + [fault for it in inner for fault in self.faults(*it)]


def text_of(kind, value):
    """Returns the text of an example: of JSON as the desk writes it."""
    return value if kind != "application/json" else json.dumps(value, separators=(",", ":"), sort_keys=True)


def parts_of(reply):
    """Returns the status, the type and the body of a reply."""
    head, _, body = reply.decode().partition("\r\n\r\n")
    first, *fields = head.split("\r\n")
    kinds = [it.partition(": ")[2] for it in fields if it.startswith("Content-Type: ")]
    return int(first.split(" ")[1]) if first else None, (kinds or [None])[0], body


def routes(description, text, sees):
    """The routes are those of the specification."""
    wanted = {(method, path) for method, paths in ROUTE.findall(text) for path in re.findall(r"`([^`]+)`", paths)}
    found = {(it.method, it.path) for it in description.operations.values()}
    sees("routes", sorted(found), sorted(wanted))


def examples(description, sees):
    """Each example is sent once or more, has one reply, and fits its schema, if it is of what is not refused for it."""
    steps = [(it["operation"], it["example"]) for it in description.said["x-session"]]
    for name, it in description.operations.items():
        replies = [example for example, *_ in it.answered()]
        sees(f"examples of {name} with one reply", sorted(replies), sorted(set(replies)))
        sees(f"examples of {name} that are sent", sorted(set(replies)), sorted({of for by, of in steps if by == name}))
        unmet = {example for example, *_ in it.sent()} ^ set(replies) if it.parameters or it.bodies else set()
        sees(f"examples of {name} without a part", sorted(unmet), [])
        refused = {example for example, status, *_ in it.answered() if status == 400}
        both = [*it.sent(), *((of[0], *of[3:]) for of in it.answered())]
        for example, value, schema in both:
            is_well = not description.faults(value, schema) or (example in refused)
            sees(f"{name}, {example}: {description.faults(value, schema)}", is_well, True)


def refusals(description, sees):
    """Each refusal that a reply may have stands under its status, and each that a request may meet stands somewhere."""
    known, met = stated.refusals(), set(NAMED.findall(description.said["info"]["description"]))
    for name, it in description.operations.items():
        for status, reply in it.replies.items():
            named = NAMED.findall(reply["description"]) if status != 200 else []
            met |= set(named)
            wrong = [of for of in named if known.get(int(of[0]), (None,) * 2)[:2] != (of[1], status)]
            sees(f"refusals of {name} under {status}", wrong, [])
            codes = {value["code"] for _, at, _, value, _ in it.answered() if at == status != 200}
            sees(f"refusals of {name} that are shown under {status}", codes - {int(of[0]) for of in named}, set())
    wanted = {it for it, (_, status, _) in known.items() if status} - OF_NO_ROUTE - NEVER
    sees("refusals", sorted({int(it) for it, _ in met}), sorted(wanted))


def session(description, report):
    """Sends each example to a desk."""
    steps = description.said["x-session"]
    with desks.room() as folder:
        book = f"{folder}/bank.desk"
        desks.desk("init", book)
        for code, key in desks.KEYS.items():
            desks.desk("add", book, code, "A Bank", key)
        with desks.Server(book, len(steps)) as server:
            for it in steps:
                operation, example = description.operations[it["operation"]], it["example"]
                sent = operation.request(example, KEYS[it["by"]])
                found = parts_of(relays.asked(server.port, sent, desks.SECONDS))
                report.sees(f"{it['operation']}, {example}, by {it['by']}", found, operation.reply(example))
    report.finds(f"{len(steps)} requests of {len(description.operations)} routes were sent")


def run(_given, report):
    description = Description(stated.content(f"{kit.TOP}/docs/openapi.yaml"))
    routes(description, stated.content(f"{kit.TOP}/docs/SPECIFICATION.md"), report.sees)
    examples(description, report.sees)
    refusals(description, report.sees)
    session(description, report)
    report.sums(f"{report.right} things as they must be, {report.wrong} not")
