"""The requests that the page of the console makes and what it reads of their replies, which stand in one file of it,
beside docs/openapi.yaml."""
import re

import kit

ROUTES = f"{kit.TOP}/console/routes.js"
ENTRY = re.compile(r'^  (\w+): \["(GET|POST)", "([^"]*)", "([^"]*)", "([^"]*)"\],$', re.M)
LIST = r'^export const {0} = "([^"]*)";$'


class Request:
    """A request of the page: its method and path, the keys that it sends, and those that it reads."""

    def __init__(self, name, method, path, sends, reads):
        self.name, self.method, self.path = name, method, path
        self.sends, self.reads = sends.split(), reads.split()


def joined(text):
    """Returns a text of JavaScript in which no text stands in two lines."""
    return re.sub(r'"\s*\+ "', "", re.sub(r',\n    +"', ', "', text))


def all_of(text):
    """Returns all requests of the page, by their names."""
    found = [Request(*it) for it in ENTRY.findall(joined(text))]
    return {it.name: it for it in found}


def listed(text, name):
    """Returns the keys of one of the page's lists."""
    return set(re.search(LIST.format(name), joined(text), re.M)[1].split())


def properties(description, schema):
    """Yields the name and the type of each key that a value of a schema may have, at any depth."""
    schema = description.whole(schema)
    if "items" in schema:
        yield from properties(description, schema["items"])
    for name, it in schema.get("properties", {}).items():
        yield name, description.whole(it)["type"]
        yield from properties(description, it)


def operation_of(description, method, path):
    """Returns the operation of a method and a path, or nothing."""
    found = [it for it in description.operations.values() if (it.method, it.path) == (method, path)]
    return found[0] if found else None


def read_of(description, operation):
    """Returns the keys of a good reply, each with its types, and the columns of one that is CSV."""
    keys, columns = {}, set()
    for kind, it in operation.replies[200]["content"].items():
        for name, of in properties(description, it["schema"]) if kind == "application/json" else ():
            keys.setdefault(name, set()).add(of)
        if kind == "text/csv":
            columns |= {example["value"].split("\n")[0] for example in it["examples"].values()}
    return keys, columns


def compare(text, description, sees):
    """Compares each request of the page with the description: its route, what it sends, what it reads, and which of
    that are numbers."""
    found, whole = all_of(text), listed(text, "CENTS") | listed(text, "NUMBERS")
    sees("requests of the page, in lines of their form", len(found), len(re.findall(r'"(?:GET|POST)"', text)))
    for it in found.values():
        operation = operation_of(description, it.method, it.path)
        sees(f"the page's {it.name}: {it.method} {it.path} is described", operation is not None, True)
        if operation:
            same_keys(it, operation, whole, description, sees)
    refusal = dict(properties(description, {"$ref": "#/components/schemas/Refusal"}))
    sees("what the page reads of a refusal", listed(text, "REFUSAL") - set(refusal), set())


def same_keys(it, operation, whole, description, sees):
    """Compares what one request sends and reads with its operation."""
    body = operation.bodies.get("application/json")
    sent = description.whole(body["schema"]) if body else {}
    sees(f"the page's {it.name} sends", set(it.sends) - set(sent.get("properties", {})), set())
    sees(f"the page's {it.name} sends all of", set(sent.get("required", [])) - set(it.sends), set())
    keys, columns = read_of(description, operation)
    if columns:
        sees(f"columns that the page's {it.name} reads", {",".join(it.reads)}, columns)
        return
    sees(f"keys that the page's {it.name} reads, and no reply has", set(it.reads) - set(keys), set())
    numbers = {key for key in it.reads if "integer" in keys.get(key, ())}
    # (`code` is a number in a refusal alone)
    sees(f"numbers that the page's {it.name} reads", {key for key in it.reads if key in whole - {"code"}}, numbers)


def path_form(path):
    """Returns what a path of an operation matches, with values in its places."""
    return re.compile("".join(r"[^/]+" if it.startswith("{") else re.escape(it)
                              for it in re.split(r"(\{\w+\})", path)))


def faults(description, method, path, body):
    """Returns what is wrong with a request that the page made: its body is the value that its JSON says, or nothing."""
    of = [it for it in description.operations.values() if it.method == method and path_form(it.path).fullmatch(path)]
    if not of:
        return [f"{method} {path} is no route"]
    # (of two that match, that with fewer places is meant)
    operation = min(of, key=lambda it: it.path.count("{"))
    schema = operation.bodies.get("application/json", {}).get("schema")
    if "text/csv" in operation.bodies:
        return []
    return description.faults(body, schema) if schema else [] if body is None else [f"{path} takes no body"]
