"""Connections: how they are made, looked at and thrown away."""
import socket
import threading
import unittest
from unittest import mock

from context import PATIENCE, Case, asked, impatient, in_time, key, nobody, rv, session, unhurried, until
from rendezvous import link
from scripted import HANG_UP, SILENCE, Scripted, frame, bytes_of, hang_up, refused, reply, waiting, welcome

ASK = socket.getaddrinfo


class Made(Case):
    """How a connection is made."""

    def test_each_way_is_tried(self):
        """Where an address names more than one way, the next is tried, and all of them for each connection."""
        with Scripted(welcome, HANG_UP) as server, nobody() as first, nobody() as second:
            server.otherwise = reply("item", item="a")
            where = (first, second, ("127.0.0.1", server.port))
            ways = [(socket.AF_INET, socket.SOCK_STREAM, 6, "", each) for each in where]
            with mock.patch.object(link.socket, "getaddrinfo", lambda *_, **__: list(ways)), session(server) as one:
                self.assertEqual((one.take(3), one.take(3), server.connections), ("a", "a", 2))

    @impatient()
    def test_the_last_way_is_told(self):
        """Where none leads anywhere, the address and the system's reason are told."""
        with nobody() as address:
            ways = [(socket.AF_INET, socket.SOCK_STREAM, 6, "", address)] * 3
            with mock.patch.object(link.socket, "getaddrinfo", lambda *_, **__: list(ways)):
                with self.raises(rv.NotAsked, key=None) as told:
                    rv.Session("nowhere:7411", 1, 1, patience=PATIENCE).connect()
        self.assertIn("nowhere:7411: connection refused", str(told.raised))

    @impatient()
    def test_a_name_that_there_is_not(self):
        """It is told by its name."""
        def unknown(*_, **__):
            raise socket.gaierror(socket.EAI_NONAME, "Name or service not known")
        with mock.patch.object(link.socket, "getaddrinfo", unknown), self.raises(rv.NotAsked) as told:
            rv.Session("no.such.host:7411", 1, 1, patience=PATIENCE).connect()
        self.assertIn("no.such.host:7411: name or service not known", str(told.raised))


class Kept(Case):
    """How long a connection is used."""

    @in_time
    def test_a_connection_that_the_server_closed_meanwhile(self):
        """A session that was idle takes a new one unseen: no copy is counted as sent over the old one."""
        with Scripted(welcome, reply("done")) as server, session(server, patience=0.5) as one:
            one.put(3, "a")
            hang_up(server.open[0])
            server.otherwise = refused(10)
            with self.raises(rv.Full, key=key(2)):
                one.put(3, "b")
            server.otherwise, one.patience = reply("done"), 60.0
            one.put(3, "c")
            self.assertEqual(asked(server)[-1], ("request", 2, "put"))

    def test_an_answer_to_nothing(self):
        """What comes while nothing is asked is thrown away with its connection."""
        with Scripted(welcome, reply("item", item="a")) as server, session(server) as one:
            self.assertEqual(one.take(3), "a")
            late = {"kind": "reply", **key(2)._asdict(), "reply": "item", "item": "b"}
            server.open[0].sendall(bytes_of(late))
            server.otherwise = reply("item", item="c")
            until("its end", lambda: one._driver._link is None)
            self.assertEqual((one.take(3), server.connections, one.last.key), ("c", 2, key(2)))

    def test_answers_in_pieces(self):
        """An answer that comes byte by byte is one answer."""
        def in_pieces(asked):
            for piece in bytes_of(reply("item", item="äöü")(asked)):
                server.open[-1].sendall(bytes([piece]))
            return SILENCE
        with Scripted(welcome) as server, session(server) as one:
            server.otherwise = in_pieces
            self.assertEqual((one.take(3), one.take(3), server.connections), ("äöü", "äöü", 1))

    def test_a_server_that_comes_back(self):
        """A request goes on over new connections at the same port, without a hello."""
        with Scripted(welcome, waiting) as server, session(server) as one:
            took = []
            taker = threading.Thread(target=lambda: took.append(one.take(3)))
            taker.start()
            until("a repeat", lambda: len(server.heard) > 2)
            server.otherwise = reply("item", item="a")
            hang_up(server.open[0])
            taker.join()
            self.assertEqual((took, [kind for kind, *_ in asked(server)]), (["a"], ["hello"] + ["request"] * 3))

    @in_time
    @unhurried()
    def test_connections_are_closed(self):
        """Behind the block the server sees the end, also of one that was given up by a cancel."""
        with Scripted(welcome, SILENCE, reply("cancelled")) as server:
            with session(server) as one:
                self.assertIsNone(one.poll(3, 0.05))
            until("their ends", lambda: all(each.fileno() < 0 for each in server.open))
            self.assertEqual(len(server.open), 2)

    def test_texts_that_are_no_answer(self):
        """Members that no answer has, or lacks, or of other values, settle nothing."""
        own = {"kind": "reply", **key(1)._asdict(), "reply": "item", "item": "a"}
        wrong = [{**own, "more": 1}, {name: value for name, value in own.items() if name != "item"}, {**own, "item": 1},
                 {**own, "epoch": 0}, {**own, "epoch": True}, {**own, "number": 2**53}, {**own, "reply": ["item"]},
                 {**own, "item": "x" * 513}, {**own, "kind": "replies"}, {**own, "client": 2}, {**own, "incarnation": 2}]
        for each in wrong + [frame(b'{"kind":"reply"}'), frame(b"null"), frame(b'"reply"')]:
            with Scripted(welcome, each, reply("item", item="b")) as server, session(server) as one:
                self.assertEqual((one.take(3), len(server.heard)), ("b", 3))


if __name__ == "__main__":
    unittest.main()
