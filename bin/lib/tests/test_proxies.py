"""What checks of the server behind a proxy, and of its clients, need no program and no nginx for."""
import re
import socket
import threading
import unittest
from unittest import mock

from lib import desks, proxies, relays, stated
from lib.checks import clients, limits, openapi, proxy
from lib.report import Report


def quiet():
    return Report(lambda *_, **__: None)


class Configuration(unittest.TestCase):
    def made(self, kind, seconds=60):
        # (a port that is free may hold the digits of one that is to be replaced)
        with mock.patch.object(desks, "free_port", lambda: 44343):
            return kind("/a/room", 8081, seconds)

    def test_they_are_filled_in_whole(self):
        for kind in proxies.ALL:
            text = self.made(kind, 2).texts()["desk.conf"]
            for own in ("desk.example", "/etc/desk", "8080", "443", "60s"):
                self.assertNotRegex(re.sub(r"#.*", "", text), rf"(?<!\d){re.escape(own)}(?!\d)")
            for it in ("127.0.0.1:44343", "127.0.0.1:8081", "timeout 2s", f"/a/room/{kind.NAME}/certificate.pem"):
                self.assertEqual(text.count(it), 1, it)

    def test_a_place_that_is_left_is_found_beside_such_a_port(self):
        with mock.patch.object(proxies, "filled", lambda text, _: text):
            self.assertRaises(AssertionError, self.test_they_are_filled_in_whole)

    def test_each_line_of_nginx_ends_and_braces_are_balanced(self):
        for name, text in self.made(proxies.Nginx).texts().items():
            bare = re.sub(r"^\s*#.*$|'[^']*'", "", text, flags=re.M)
            self.assertEqual(bare.count("{"), bare.count("}"), name)
            for line in filter(None, map(str.strip, bare.splitlines())):
                self.assertRegex(line, r"[;{}]$", name)
            self.assertNotRegex(bare, r"[@{]\w+[@}]", name)

    def test_what_is_not_there_once_is_told(self):
        self.assertRaisesRegex(desks.Broken, "0 times", proxies.filled, "a", {"b": "c"})
        self.assertRaisesRegex(desks.Broken, "2 times", proxies.filled, "b b", {"b": "c"})

    def test_without_a_proxy_the_check_says_so_and_does_not_pass(self):
        for name in ("nginx", "caddy"):
            with mock.patch.object(desks, "installed", lambda tool, name=name: None if tool == name else "/bin/true"), \
                    self.assertRaisesRegex(desks.Broken, f"^{name} is not installed"):
                proxy.run(None, quiet())
            self.assertIn(name, proxy.NEEDS)

    def test_edits_that_open_a_route_are_of_the_lines_that_close_it(self):
        self.assertEqual(set(proxy.OPENING), {it.NAME for it in proxies.ALL})
        for kind in proxies.ALL:
            for edits in proxy.OPENING[kind.NAME]:
                self.assertNotEqual(proxies.filled(kind.deployed(), edits), kind.deployed())

    def test_paths_are_closed_in_both_cases_and_with_and_without_escapes(self):
        for it in ("/desk", "/desk/", "/DESK/", "//desk/", "/%64esk/", "/x/../desk/", "/desk%2f"):
            self.assertIn(it, proxy.SPELLINGS)

    def test_an_opened_route_is_told_and_a_closed_one_is_not(self):
        for reply, wrong in (((403, proxy.JSON, proxy.NO_KEY), 0), ((200, proxy.JSON, "{}"), len(proxy.SPELLINGS) + 1)):
            report, it = quiet(), mock.Mock()
            it.sees, it.sent.return_value = report.sees, reply
            it.server.asked.return_value = b'{"phase":"OPEN"}'
            proxy.closed(it)
            self.assertEqual(report.wrong, wrong)

    def test_the_limits_can_be_taken_out_and_a_bank_has_one_request_in_progress(self):
        for kind in proxies.ALL:
            bare = proxies.filled(kind.deployed(), limits.UNLIMITED[kind.NAME])
            self.assertNotRegex(re.sub(r"#.*", "", bare), r"limit_conn desk_long|zone=desk_\w+ burst=[15]|unhealthy")
        most = dict(re.findall(r"limit_conn desk_(\w+) (\d+);", proxies.Nginx.deployed()))
        self.assertEqual(most, {"long": "2", "short": "20"})
        rates = dict(re.findall(r"zone=desk_(\w+):\w+ rate=(\d+)r/s", proxies.Nginx.deployed()))
        bursts = dict(re.findall(r"zone=desk_(\w+) burst=(\d+)", proxies.Nginx.deployed()))
        self.assertEqual(set(rates), set(bursts))
        for it in (rates, bursts):
            self.assertGreater(int(it["senders"]), int(it["readers"]))
            self.assertGreater(int(it["readers"]), int(it["statement"]))

    def test_longer_bodies_are_those_that_caddy_refuses(self):
        (longer,) = re.findall(r"@too_long header_regexp Content-Length (\S+)", proxies.Caddy.deployed())
        for length in (0, 1, 999, 9999, 10000, 59999, 65000, 65499, 65529, 65535, 65536, 65537, 65539, 65540, 65600,
                       66000, 70000, 99999, 100000, 655360, 10**12):
            self.assertEqual(bool(re.search(longer, str(length))), length > proxy.LONGEST, length)

    def test_caddy_has_the_names_of_buffers_that_its_version_knows(self):
        text = proxies.Caddy.deployed()
        for version, newer in (("2.6.2", False), ("v2.7.6 h1:a", True), ("v2.10.0", True), ("v3.0", True)):
            with mock.patch.object(proxies.Caddy, "version", classmethod(lambda _, it=version: f"caddy: {it}")):
                caddy = self.made(proxies.Caddy)
                self.assertEqual((caddy.takes_chunks(), caddy.env().get("DESK_BUFFERS")),
                                 (newer, "buffers" if newer else None))
        self.assertIn("\n(buffers) {", text)
        self.assertIn("\n(buffers_of_2_6) {", text)
        self.assertIn("import {$DESK_BUFFERS:buffers_of_2_6}", text)

    def test_the_banks_handbook_is_sent_to_the_proxy_alone(self):
        text, many = proxy.handbooks.requests_of_banks()
        self.assertGreater(many, 20)
        self.assertEqual(text.count("http://127"), 1)

    def test_the_limit_of_a_body_is_that_of_the_code(self):
        self.assertEqual(proxy.LONGEST, stated.constants()["body"])
        self.assertIn(f"client_max_body_size {proxy.LONGEST // 1024}k;", proxies.Nginx.deployed())
        self.assertIn(f"max_size {proxy.LONGEST // 1024}KiB", proxies.Caddy.deployed())


class Echo:
    """A server that replies to each request with its number."""

    def __init__(self):
        self.server, self.had = socket.create_server(("127.0.0.1", 0)), []
        self.port = self.server.getsockname()[1]
        threading.Thread(target=self.serve, daemon=True).start()

    def serve(self):
        while True:
            try:
                link, _ = self.server.accept()
            except OSError:
                return
            with link:
                self.had.append(relays.request(link))
                link.sendall(b"HTTP/1.1 200 OK\r\nContent-Type: text/plain\r\n\r\n%d" % len(self.had))


class Relays(unittest.TestCase):
    def setUp(self):
        self.echo = Echo()
        self.addCleanup(self.echo.server.close)

    def asked(self, relay):
        return openapi.parts_of(relays.asked(relay.port, desks.request("POST", "/a", "k", "body"), 5) or b"\r\n\r\n")

    def test_the_first_replies_are_lost_or_those_of_a_proxy(self):
        with relays.Relay(self.echo.port, [relays.LOST, 502], 5) as relay:
            said = [self.asked(relay) for _ in range(3)]
        self.assertEqual(said, [(None, None, ""), (502, "text/html", relays.PAGE.decode()), (200, "text/plain", "2")])
        self.assertEqual((relay.had, len(self.echo.had)), (3, 2))
        self.assertTrue(all(it.endswith(b"\r\n\r\nbody") for it in self.echo.had))


class Clients(unittest.TestCase):
    def test_the_day_has_steps_of_each_kind(self):
        steps = clients.day()
        with open(f"{clients.FOLDER}/day.txt", encoding="utf-8") as it:
            self.assertEqual(len(steps), it.read().count("\n> "))
        self.assertEqual([it.who for it in steps if it.is_unlucky], ["ALFA"])
        self.assertIn("OPERATOR", {it.who for it in steps})
        self.assertTrue(steps[0].reply.startswith('200\n{"answer":"settled"'))
        self.assertTrue(any(it.reply.endswith(",3\n") for it in steps))

    def test_a_line_of_a_step_has_what_a_client_needs(self):
        line = clients.day()[0].line("http://a")
        self.assertEqual(line.split("\t")[:3], ["http://a/orders", desks.KEYS["ALFA"], "POST"])

    def test_replies_are_told_apart_by_their_dots(self):
        self.assertEqual(clients.replies("200\n{}\n.\n409\na\nb\n\n.\n"), ["200\n{}", "409\na\nb\n"])

    def test_a_reply_that_is_missing_is_found(self):
        report = quiet()
        it = clients.Day("curl", False, "/a", report)
        it.compares([step.reply for step in it.steps], "")
        self.assertEqual(report.wrong, 0)
        it.compares([step.reply for step in it.steps[:-1]], "no reply")
        self.assertEqual(report.wrong, 1)
        self.assertEqual(report.found[-1], "curl says: no reply")

    def test_only_banks_go_through_the_proxy(self):
        server, relay, nginx = mock.Mock(port=1), mock.Mock(port=2), mock.Mock(url="https://a")
        bank, operator = mock.Mock(who="ALFA", is_unlucky=False), mock.Mock(who="OPERATOR", is_unlucky=False)
        unlucky = mock.Mock(who="ALFA", is_unlucky=True)
        urls = [clients.url_for(it, server, relay, nginx) for it in (bank, operator, unlucky)]
        self.assertEqual(urls, ["https://a", "http://127.0.0.1:1", "https://a"])
        urls = [clients.url_for(it, server, relay, None) for it in (bank, operator, unlucky)]
        self.assertEqual(urls, ["http://127.0.0.1:1", "http://127.0.0.1:1", "http://127.0.0.1:2"])

    def test_the_unlucky_order_alone_comes_to_harm(self):
        for is_by_nginx in (False, True):
            it = clients.Day("curl", is_by_nginx, "/a", quiet())
            luck = it.luck()
            relayed = [step for step in it.steps if clients.is_relayed(step, is_by_nginx)]
            self.assertTrue(relayed[len(luck) - len(clients.UNLUCKY)].is_unlucky)
            self.assertEqual(luck[-len(clients.UNLUCKY):], list(clients.UNLUCKY))
            self.assertEqual(len(luck) > len(clients.UNLUCKY), is_by_nginx)


if __name__ == "__main__":
    unittest.main()
