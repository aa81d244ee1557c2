"""What of the operator's console needs no browser and no program: its requests beside a description, its words, what
serves it, and the gridlock of its check."""
import http.client
import importlib.machinery
import importlib.util
import os
import re
import threading
import unittest
from unittest import mock

import kit
from lib import browsers, console_requests, consoles, desks, gridlocks, proxies, stated, tables
from lib.checks import console, openapi
from lib.report import Report

PAGE = f"{kit.TOP}/console"
DESCRIBED = """\
paths:
  /desk/accounts:
    get:
      operationId: readAccounts
      responses:
        '200':
          description: It
          content:
            application/json:
              schema: {$ref: '#/components/schemas/Accounts'}
  /desk/post:
    post:
      operationId: post
      requestBody:
        content:
          application/json:
            schema: {$ref: '#/components/schemas/NewPosting'}
      responses:
        '200':
          description: It
          content:
            application/json:
              schema: {$ref: '#/components/schemas/Answer'}
  /desk/marks/{date}:
    get:
      operationId: readMarks
      responses:
        '200':
          description: It
          content:
            text/csv:
              schema: {type: string}
              examples:
                one:
                  value: |
                    number,count,value
                    1,2,3
components:
  schemas:
    Accounts:
      type: object
      properties:
        accounts: {type: array, items: {$ref: '#/components/schemas/Account'}}
        phase: {type: string}
    Account:
      type: object
      properties: {balance: {type: integer}, code: {type: string}}
    NewPosting:
      type: object
      required: [cents, code]
      additionalProperties: false
      properties: {cents: {type: integer}, code: {type: string}}
    Answer:
      type: object
      properties: {answer: {type: string}, number: {type: integer}}
    Refusal:
      type: object
      properties: {code: {type: integer}, name: {type: string}}
"""
ROUTES = """\
export const CENTS = "balance value";
export const NUMBERS = "code count"
  + " number";
export const REFUSAL = "code name";
export const ROUTES = {
  accounts: ["GET", "/desk/accounts", "",
    "accounts balance code phase"],
  post: ["POST", "/desk/post", "cents code", "answer number"],
  marks: ["GET", "/desk/marks/{date}", "", "number count"
    + " value"],
};
"""


def script():
    """Returns bin/desk-console as a module."""
    loader = importlib.machinery.SourceFileLoader("desk_console", consoles.SCRIPT)
    made = importlib.util.module_from_spec(importlib.util.spec_from_loader("desk_console", loader))
    loader.exec_module(made)
    return made


class Requests(unittest.TestCase):
    def wrong(self, routes=ROUTES, described=DESCRIBED):
        report = Report(lambda *_, **__: None)
        console_requests.compare(routes, openapi.Description(described), report.sees)
        return report.wrong

    def test_what_is_described_is_well(self):
        self.assertEqual(sorted(console_requests.all_of(ROUTES)), ["accounts", "marks", "post"])
        self.assertEqual(self.wrong(), 0)

    def test_a_change_of_a_route_or_a_key_is_found(self):
        for old, new in (("/desk/accounts:", "/desk/balances:"), ("{balance:", "{money:"), ("get:", "put:"),
                         ("number,count,value", "number,value,count"), ("[cents, code]", "[cents, code, way]"),
                         ("balance: {type: integer}", "balance: {type: string}"), ("phase:", "stage:"),
                         ("{cents: {type: integer}, code", "{amount: {type: integer}, code"),
                         ("answer: {type: string}", "answer: {type: integer}"),
                         ("name: {type: string}}", "to: {type: string}}")):
            self.assertIn(old, DESCRIBED)
            self.assertGreater(self.wrong(described=DESCRIBED.replace(old, new)), 0, old)

    def test_a_change_of_the_page_is_found(self):
        for old, new in (('"GET", "/desk/accounts"', '"POST", "/desk/accounts"'), ('"cents code"', '"cents code way"'),
                         ('"cents code"', '"cents"'), ("phase", "stage"), ('"balance value"', '"value"'),
                         ('  post: ["POST"', '  post: [ "POST"')):
            self.assertIn(old, ROUTES)
            self.assertGreater(self.wrong(ROUTES.replace(old, new)), 0, old)

    def test_a_request_that_was_made_fits_its_route(self):
        described = openapi.Description(DESCRIBED)
        for method, path, body, is_well in (
                ("GET", "/desk/accounts", None, True), ("GET", "/desk/marks/2024-03-04", None, True),
                ("POST", "/desk/post", {"cents": 1, "code": "ALFA"}, True), ("POST", "/desk/accounts", None, False),
                ("GET", "/desk/marks/2024/03", None, False), ("POST", "/desk/post", {"cents": "1", "code": "A"}, False),
                ("POST", "/desk/post", {"cents": 1}, False), ("GET", "/desk/accounts", {}, False)):
            self.assertEqual(not console_requests.faults(described, method, path, body), is_well, (method, path, body))

    def test_the_page_has_its_requests_in_one_place(self):
        self.assertGreater(len(console_requests.all_of(stated.content(console_requests.ROUTES))), 15)
        for name in os.listdir(PAGE):
            if name != "routes.js":
                self.assertNotIn('"/desk', stated.content(f"{PAGE}/{name}"), name)


class Page(unittest.TestCase):
    def test_lines_fit_into_120_columns_and_files_are_short(self):
        for name in os.listdir(PAGE):
            if f"console/{name}" not in tables.FILES:
                lines = stated.content(f"{PAGE}/{name}").splitlines()
                self.assertEqual([it for it in lines if len(it) > 120], [], name)
                self.assertLess(len(lines), 170, name)

    def test_no_text_becomes_markup_and_nothing_is_kept(self):
        for name in os.listdir(PAGE):
            text = stated.content(f"{PAGE}/{name}")
            for word in ("innerHTML", "insertAdjacentHTML", "document.write", "eval(", "localStorage", "sessionStorage",
                         "document.cookie", "style=", "onclick=", "http://", "https://", "parseFloat", "toFixed"):
                self.assertNotIn(word, text.replace("http://www.w3.org/2000/svg", ""), name)

    def test_the_words_are_those_that_the_program_is_made_of(self):
        self.assertEqual(stated.content(f"{PAGE}/refusals.js"), tables.page_words())
        self.assertIn('  18: {"name": "Resolvable", ', tables.page_words())

    def test_one_policy_goes_with_the_page_wherever_it_is_served(self):
        policy, fields = script().FIELDS["Content-Security-Policy"], script().FIELDS
        folded = " ".join(stated.content(f"{PAGE}/index.html").split())
        self.assertIn(f'content="{policy.replace("frame-ancestors " + chr(39) + "none" + chr(39) + "; ", "")}"', folded)
        for kind, form in ((proxies.NginxConsole, "add_header {0} {1} always;"), (proxies.CaddyConsole, "\t{0} {1}\n")):
            for name, value in fields.items():
                quoted = f'"{value}"' if " " in value else value
                self.assertIn(form.format(name, quoted), kind.deployed(), name)


class Sites(unittest.TestCase):
    def made(self, kind):
        with mock.patch.object(desks, "free_port", lambda: 44343):
            return kind("/a/room", 8081, 2).texts()["desk.conf"]

    def test_they_are_filled_in_whole(self):
        for kind in proxies.CONSOLES:
            text = self.made(kind)
            for own in ("operator.example", "/etc/desk", "8080", "8443", "60s", "@PREFIX@"):
                self.assertNotRegex(re.sub(r"#.*", "", text), rf"(?<!\d){re.escape(own)}(?!\d)")
            for it in ("127.0.0.1:44343", "127.0.0.1:8081", "timeout 2s", f"/a/room/{kind.NAME}/certificate.pem"):
                self.assertEqual(text.count(it), 1, it)

    def test_they_stand_at_an_address_of_this_machine_alone(self):
        self.assertEqual(re.findall(r"^ *listen (\S+)", proxies.NginxConsole.deployed(), re.M), ["127.0.0.1:8443"])
        self.assertEqual(re.findall(r"^\tbind (.*)$", proxies.CaddyConsole.deployed(), re.M), ["127.0.0.1"])

    def test_what_they_call_their_own_is_not_what_the_banks_sites_have(self):
        for name in ("nginx.conf", "Caddyfile"):
            both = [stated.content(f"{kit.TOP}/deploy/{it}{name}") for it in ("", "console-")]
            named = [set(re.findall(r"^\(\w+\)|zone=\w+|server_name \S+|^map \$\w+ (\$\w+)", it, re.M)) for it in both]
            self.assertEqual(named[0] & named[1] - {""}, set())


class Alone(unittest.TestCase):
    def setUp(self):
        self.desk, self.module = mock.Mock(), script()
        self.desk.asked.return_value = 200, "application/json", b'{"phase":"OPEN"}'
        self.server = self.module.Console(0, self.desk)
        threading.Thread(target=self.server.serve_forever, daemon=True).start()
        self.addCleanup(self.server.server_close)
        self.addCleanup(self.server.shutdown)

    def asked(self, path, method="GET", body=None, **fields):
        link = http.client.HTTPConnection("127.0.0.1", self.server.server_port, timeout=desks.SECONDS)
        self.addCleanup(link.close)
        link.request(method, path, body, fields)
        got = link.getresponse()
        return got.status, got.read(), got.headers

    def test_it_serves_the_page_with_its_policy_and_no_other_file(self):
        for name in ("", "console.js", "console.css", "icon.svg"):
            status, body, fields = self.asked(f"/console/{name}")
            self.assertEqual((status, body), (200, desks.content(f"{PAGE}/{name or 'index.html'}")))
            for field, value in self.module.FIELDS.items():
                self.assertEqual(fields[field], value)
        for name in ("none.js", "../README.md", "%2e%2e/README.md", "console.js/", ".git", "lib/x.js", "console"):
            self.assertEqual(self.asked(f"/console/{name}")[0], 404, name)

    def test_it_forwards_the_operators_requests_and_no_others(self):
        self.assertEqual(self.asked("/desk/accounts", **{"desk-key": "k"})[:2], (200, b'{"phase":"OPEN"}'))
        self.asked("/desk/post", "POST", b"{}", **{"desk-key": "k", "content-type": "application/json", "x": "y"})
        self.assertEqual(self.desk.asked.call_args_list, [
            mock.call("GET", "/desk/accounts", {"desk-key": "k"}, None),
            mock.call("POST", "/desk/post", {"desk-key": "k", "content-type": "application/json"}, b"{}")])
        for path in ("/account", "/orders/A-1", "/deskaccounts", "/desk"):
            self.assertEqual(self.asked(path)[:2], (404, self.module.NO_ROUTE), path)
        self.assertEqual(self.asked("/desk/accounts", Host="other.example")[0], 404)
        self.assertEqual(self.asked("/desk/batches/ALFA", "POST", b"x" * 65537)[:2], (413, self.module.TOO_LONG))
        self.assertEqual(self.desk.asked.call_count, 2)

    def test_a_desk_that_is_not_there_is_502(self):
        desk = self.module.Desk("bank.desk", "k")
        self.assertEqual(desk.asked("GET", "/desk/accounts", {}, None)[0], 502)

    def test_its_limit_of_a_body_is_that_of_the_code(self):
        self.assertEqual(self.module.LONGEST, stated.constants()["body"])


class Gridlock(unittest.TestCase):
    def test_it_settles_as_many_orders_as_the_check_wants(self):
        paid = {"KAPPA": gridlocks.cents(1500)}
        for more, wanted in (({}, gridlocks.SETTLING), (paid, gridlocks.SETTLING_WITH_KAPPA)):
            left = {code: cents + gridlocks.cents(gridlocks.BANKS[code][2]) + more.get(code, 0)
                    for code, cents in gridlocks.balances().items()}
            self.assertEqual(sum(self.chosen(left).values()), wanted)

    def chosen(self, left):
        """Returns how many orders from the front of each queue can settle together: the most, by leaving out one."""
        queues = {}
        for sender, to, thousands in gridlocks.ORDERS:
            queues.setdefault(sender, []).append((to, gridlocks.cents(thousands)))
            left[sender] -= gridlocks.cents(thousands)
            left[to] += gridlocks.cents(thousands)
        counts = {code: len(of) for code, of in queues.items()}
        while below := [code for code in counts if left[code] < 0 < counts[code]]:
            counts[below[0]] -= 1
            to, cents = queues[below[0]][counts[below[0]]]
            left[below[0]] += cents
            left[to] -= cents
        return counts

    def test_an_order_file_has_its_header_and_its_rows(self):
        self.assertEqual(gridlocks.order_file([("A-1", "BETA", 5)]), "reference,to,amount\nA-1,BETA,5\n")


class Checking(unittest.TestCase):
    def test_cents_are_shown_as_the_page_shows_them(self):
        self.assertEqual(console.shown(-123456789), "\u22121\u202f234\u202f567.89")
        self.assertEqual(console.shown(5), "0.05")

    def test_the_programs_words_are_read(self):
        said = "19 Overdrawn\n  means: balances\n  comes from: `close`\n  do: `post`,\n      then `close`\n" \
               "20 B\n  means: c\n  comes from: d\n  do: e: f\n"
        with mock.patch.object(desks, "desk", lambda *_: said):
            self.assertEqual(console.words(), {
                19: {"name": "Overdrawn", "means": "balances", "todo": "`post`, then `close`"},
                20: {"name": "B", "means": "c", "todo": "e: f"}})

    def test_without_a_browser_it_says_that_it_skipped(self):
        found = Report(lambda *_, **__: None)
        given = mock.Mock(only=None, pictures=None)
        with mock.patch.object(browsers, "missing", lambda: ["chromium"]), mock.patch.object(console, "files"), \
                mock.patch.object(proxies.Proxy, "version", classmethod(lambda it: it.NAME)):
            console.run(given, found)
        self.assertIn("skipped, since there is no chromium", found.found[-1])
        self.assertTrue(found.is_summed())

    def test_something_that_is_not_seen_ends_the_check(self):
        page = consoles.Page(mock.Mock(), "u", Report(lambda *_, **__: None))
        with mock.patch.object(browsers, "SECONDS", 0), self.assertRaisesRegex(desks.Broken, "not seen in the page"):
            page.until("it", lambda: False)
        page.until("it", lambda: True)
        self.assertEqual((page.report.right, page.report.wrong), (1, 0))


if __name__ == "__main__":
    unittest.main()
