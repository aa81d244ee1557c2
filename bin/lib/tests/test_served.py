"""The check `served` over servers that are stood in for."""
import json
import socket
import threading
import unittest
from unittest import mock

from lib import desks, full, resolutions
from lib.checks import served
from lib.report import Report


def quiet():
    return Report(lambda *_, **__: None)


class Server:
    """Stands in for a server: each connection is given to the next of these calls, and the last one of them to all that
    follow. It says that it listens at this port, or else at its own."""

    def __init__(self, *calls, said=None):
        self.calls, self.listener = list(calls), socket.create_server(("127.0.0.1", 0))
        self.port = said or self.listener.getsockname()[1]
        threading.Thread(target=self.serves, daemon=True).start()

    def serves(self):
        while True:
            try:
                link, _ = self.listener.accept()
            except OSError:
                return
            with link:
                (self.calls.pop(0) if len(self.calls) > 1 else self.calls[0])(link)

    def __enter__(self):
        return self

    def __exit__(self, *_):
        self.kill()

    def kill(self):
        self.listener.close()

    def ended(self):
        return 0, "served 3\n", ""


def replies(reply):
    """Returns what reads all that a peer sends and sends it this reply."""
    def serve(link):
        link.settimeout(0.1)
        link.sendall(reply.encode())
        link.shutdown(socket.SHUT_WR)
        try:
            while link.recv(65536):
                pass
        except OSError:
            pass

    return serve


def drops(reply):
    """Returns what sends a peer this reply, and reads nothing."""
    return lambda link: (link.recv(1), link.sendall(reply.encode()))


class Served(unittest.TestCase):
    """The account of a bank is a word."""

    refused, account = served.reply_of(served.REFUSAL, "404 Not Found"), served.reply_of("word")

    def found(self, look, server):
        report = quiet()
        with mock.patch.object(desks, "Server", lambda *_, **__: server), \
                mock.patch.object(desks, "desk", lambda *_: "word\n"):
            look("", report)
        return [it.splitlines()[0] for it in report.found]

    def test_a_reply_has_its_length_and_its_status(self):
        self.assertEqual(self.refused, "HTTP/1.1 404 Not Found\r\nContent-Type: application/json\r\nContent-Length: 32"
                         '\r\nConnection: close\r\n\r\n{"code":67,"name":"NoSuchRoute"}')

    def test_a_refused_peer_must_get_its_reply_and_the_next_must_not_wait(self):
        after = replies(self.account)
        self.assertEqual(self.found(served.refused_peers, Server(replies(self.refused), after)), [])
        found = self.found(served.refused_peers, Server(drops(self.refused), after))
        self.assertEqual(found, ["the reply to a refused peer"])
        with mock.patch.object(served, "SOON", 0.05):
            found = self.found(served.refused_peers, Server(replies(self.refused), after))
        self.assertEqual(found, ["a reply that is there soon after a refused peer"])

    def test_connections_that_are_dropped_are_found(self):
        self.assertEqual(self.found(served.most_connections, Server(replies(self.account))), [])
        found = self.found(served.most_connections, Server(lambda link: None, replies(self.account)))
        self.assertEqual(found, [f"reply 1 of {served.MOST}"])

    def test_a_reply_that_is_cut_or_changed_on_the_way_is_read_as_it_is(self):
        for reply in ("x" * 200_000, "", "yx"):
            server = Server(replies(reply))
            with server, socket.create_connection(("127.0.0.1", server.port)) as peer:
                self.assertEqual(served.read_after(peer, b"1", 1), reply)

    def counted(self, twice=None):
        """Returns what is found of a server that asks the resolver as it must, and once more for this."""
        report, server, counts = quiet(), mock.MagicMock(), [0]
        server.__enter__.return_value = server
        for what, _, _, asked in served.GIVEN:
            counts += [counts[-1] + asked + (what == twice)] * 2
        server.count.side_effect = counts
        said = [served.reply_of(json.dumps({"answer": it})) for _, _, it, _ in served.GIVEN]
        with mock.patch.object(resolutions, "Server", lambda *_: server), mock.patch.object(full, "write"), \
                mock.patch.object(served, "said_to", side_effect=said):
            served.resolutions_counted("", report)
        return [it.splitlines()[0] for it in report.found]

    def test_a_resolution_that_is_done_twice_is_found(self):
        self.assertEqual(self.counted(), [])
        for what, *_ in served.GIVEN:
            self.assertEqual(self.counted(what), [f"resolutions for {what}"])

    def test_an_answer_is_that_of_the_reply_or_its_refusal(self):
        for body, answer in (('{"answer":"closed"}', "closed"), (served.REFUSAL, "NoSuchRoute"), ("", None)):
            self.assertEqual(served.answer_in(served.reply_of(body)), answer)

    def test_a_port_is_the_one_that_was_given(self):
        server = Server(replies(self.account))
        with mock.patch.object(desks, "Server", lambda *_, **__: server):
            self.assertEqual(served.port_served("", server.port), (server.port, self.account))
        other, closed = Server(replies(self.account), said=700), desks.free_port()
        with mock.patch.object(desks, "Server", lambda *_, **__: other):
            said, reply = served.port_served("", closed)
        self.assertEqual(said, 700)
        self.assertIn("refused", reply)
        with mock.patch.object(desks, "Server", side_effect=desks.Broken("why")):
            self.assertEqual(served.port_served("", 700), "why")

    def test_a_port_that_is_taken_may_not_be_listened_at(self):
        with socket.create_server(("127.0.0.1", 0)) as taken:
            self.assertFalse(served.may_listen(taken.getsockname()[1]))
        self.assertTrue(served.may_listen(desks.free_port()))
