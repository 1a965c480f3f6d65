"""What each call sends, and what it gives; what is refused before anything is sent."""
import itertools
import json
import unittest

from context import Case, asked, in_time, key, raised_by, rv, session, unhurried
from scripted import BY, HANG_UP, SILENCE, Scripted, frame, received_by, reply, twice, waiting, welcome

# As many texts as a drain gives, each as long as an item may be, and escaped.
FULL = ["\u0001" * 512] * 16
GIVE = {"call": "transfer", "queue": 3, "item": "a"}
SWAP = {"call": "swap", "exchanger": 5, "item": "x"}
NAMED = rv.Receipt(key(1), rv.Key(1, 2, 3, 4))
GREATEST = rv.Receipt(key(1), rv.Key(1, *BY))


def calls_of_transfers(version):
    """Transfers: the call, its answer, what is sent, and the result, in this version."""
    told = {1: (reply("received"), rv.Receipt(key(1))), 2: (received_by(2, 3, 4), NAMED)}[version]
    most = {1: told, 2: (received_by(*BY), GREATEST)}[version]
    return [
        (lambda s: s.transfer(3, "a"), told[0], {**GIVE, "wait": "forever"}, told[1]),
        (lambda s: s.try_transfer(3, "a"), reply("nobody"), {**GIVE, "wait": "now"}, None),
        (lambda s: s.try_transfer(3, "a"), most[0], {**GIVE, "wait": "now"}, most[1]),
        (lambda s: s.try_transfer(3, "a", 0.5), told[0], {**GIVE, "wait": 500}, told[1]),
        (lambda s: s.try_transfer(3, "a", timeout=0), reply("timedout"), {**GIVE, "wait": 0}, None),
    ]


CALLS = [
    (lambda s: s.put(3, "a"), reply("done"), {"call": "put", "queue": 3, "item": "a"}, None),
    (lambda s: s.put(3, "a", timeout=9), reply("done"), {"call": "put", "queue": 3, "item": "a"}, None),
    (lambda s: s.take(63), reply("item", item="ü"), {"call": "take", "queue": 63, "wait": "forever"}, "ü"),
    (lambda s: s.poll(0), reply("empty"), {"call": "take", "queue": 0, "wait": "now"}, None),
    (lambda s: s.poll(0, 0.0001), reply("timedout"), {"call": "take", "queue": 0, "wait": 1}, None),
    (lambda s: s.poll(0, -5), reply("item", item=""), {"call": "take", "queue": 0, "wait": 0}, ""),
    (lambda s: s.exchange(5, "x"), reply("swapped", item="y"), {**SWAP, "wait": "forever"}, "y"),
    (lambda s: s.exchange(5, "x", 86_400), reply("swapped", item="y"), {**SWAP, "wait": 86_400_000}, "y"),
    (lambda s: s.count(3), reply("counted", items=2, consumers=0), {"call": "count", "queue": 3}, rv.Counted(key(1), 2, 0)),
    (lambda s: s.peek(3), reply("peeked", item="a"), {"call": "peek", "queue": 3}, "a"),
    (lambda s: s.peek(3), reply("empty"), {"call": "peek", "queue": 3}, None),
    (lambda s: s.drain(3, 2), reply("drained", texts=["a", "b"]), {"call": "drain", "queue": 3, "max": 2}, ["a", "b"]),
    (lambda s: s.drain(0, max=1), reply("drained", texts=[]), {"call": "drain", "queue": 0, "max": 1}, []),
    (lambda s: s.drain(63, 16), reply("drained", texts=FULL), {"call": "drain", "queue": 63, "max": 16}, FULL),
]


def written_out(word, **more):
    """A deed: the reply to whatever request comes, with each character beyond ASCII escaped."""
    return lambda asked: frame(json.dumps(reply(word, **more)(asked)).encode())


class Calls(Case):
    """Calls over a server that answers at once, or late."""

    @unhurried(cancels=False)
    def test_each_call(self):
        """Each call's members, its result and its outcome, in sessions of both versions."""
        for version in (1, 2):
            for call, answer, members, result in calls_of_transfers(version) + CALLS:
                with self.subTest(members=members, version=version):
                    self.one_call(version, call, answer, members, result)

    def one_call(self, version, call, answer, members, result):
        """One call of a session."""
        with Scripted(welcome, answer) as server, session(server, version=version) as one:
            self.assertEqual(call(one), result)
            self.assertEqual(server.heard[1], {"kind": "request", **key(1)._asdict(), **members})
            self.assertEqual(one.last.key, key(1))
            self.assertEqual(type(one.last).__name__.lower(), told_as(answer(server.heard[1])["reply"]))

    def test_numbers_rise(self):
        """Requests have the numbers 1, 2, 3, over one connection; the epoch is the welcome's."""
        with Scripted(lambda hello: welcome(hello, 9), *[reply("done")] * 3) as server, session(server) as one:
            self.assertEqual(one.epoch, 9)
            for _ in range(3):
                one.put(3, "a")
            self.assertEqual([(m["epoch"], m["number"]) for m in server.heard[1:]], [(9, 1), (9, 2), (9, 3)])
            self.assertEqual(server.connections, 1)

    def test_results_are_values(self):
        """An item that is empty is an item; a drain's list is the caller's own; a receipt is true."""
        with Scripted(welcome, reply("item", item=""), reply("drained", texts=["b"])) as server:
            with session(server) as one:
                self.assertEqual((one.poll(3), one.last), ("", rv.replies.Item(key(1), "")))
                got = one.drain(3, 16)
                got.clear()
                self.assertEqual(one.last, rv.replies.Drained(key(2), ("b",)))
        self.assertTrue(rv.Receipt(key(1)))
        self.assertEqual(rv.Receipt(key(1)), rv.Receipt(key(1), None))

    def test_an_address_is_a_text_or_a_pair(self):
        """Both name the server; a text without a port names none."""
        with Scripted(welcome, welcome) as server:
            for address in (server.address, ("127.0.0.1", server.port)):
                with rv.Session(address, 1, 1, connect_timeout=None) as one:
                    self.assertEqual(one.epoch, 1)
        for address in ("127.0.0.1", "127.0.0.1:", ":", "127.0.0.1:0", "127.0.0.1:65536", "127.0.0.1:x"):
            with self.raises(ValueError):
                rv.Session(address, 1, 1, connect_timeout=None)


class Receipts(Case):
    """Receipts name the consumer's key, and nothing else."""

    @in_time
    def test_receipts(self):
        """A receipt names the consumer that its reply names, in the reply's epoch, however the reply came."""
        named = rv.Receipt(key(1, 9), rv.Key(9, 2, 3, 4))
        ninth = lambda hello: welcome(hello, 9)
        with Scripted(ninth, waiting, HANG_UP, received_by(2, 3, 4)) as server, session(server) as one:
            receipt = one.transfer(3, "a")
            self.assertEqual((receipt, receipt.by.client), (named, 2))
        with Scripted(ninth, SILENCE, received_by(2, 3, 4)) as server, session(server) as one:
            self.assertEqual(one.try_transfer(3, "a", 0.05), named)
            self.assertEqual(asked(server)[-1], ("cancel", 1, None))
        with Scripted(ninth, HANG_UP) as server, session(server, patience=1.0) as one:
            with self.raises(rv.Unsettled, key=key(1, 9)):
                one.transfer(3, "a")
            server.otherwise = received_by(2, 3, 4)
            one.patience = 120.0
            self.assertEqual(one.again(), named)

    def test_what_is_no_receipt(self):
        """A reply that names a part of a consumer, or names one where no receipt is told, settles nothing."""
        whole = dict(zip(("by_client", "by_incarnation", "by_number"), (2, 3, 4)))
        bad = [reply("received", **{n: value for n, value in whole.items() if n != name}) for name in whole]
        odd = [("by_client", 0), ("by_client", None), ("by_incarnation", 2**53), ("by_number", 1.0), ("by_number", "1")]
        bad += [reply("received", **{**whole, name: value}) for name, value in odd]
        bad += [reply("received", **whole, by_epoch=1), reply("done", **whole), reply("item", item="a", **whole)]
        for each in bad:
            with Scripted(welcome, each, received_by(2, 3, 4)) as server, session(server) as one:
                self.assertEqual(one.transfer(3, "a").by, rv.Key(1, 2, 3, 4))
                self.assertEqual(len(server.heard), 3)

    def test_a_receipt_names_a_consumer_in_version_2_alone(self):
        """One without a consumer in version 2, and one with it in version 1, settles nothing."""
        right = {1: reply("received"), 2: received_by(2, 3, 4)}
        for version, by in ((1, None), (2, rv.Key(1, 2, 3, 4))):
            with Scripted(welcome, right[3 - version], right[version]) as server:
                with session(server, version=version) as one:
                    self.assertEqual((one.transfer(3, "a").by, len(server.heard)), (by, 3))


class Drains(Case):
    """Drains are one request, whatever the connection does."""

    def test_a_drain_is_asked_under_one_key(self):
        """Over links that break, or bring what no drain gives, one request is asked until its list comes."""
        texts = [["a"] * 17, ["a", 1], ["a", "x" * 513], ["\ud800"], "a", {}, None]
        bad = [written_out("drained", texts=text) for text in texts]
        bad += [reply("drained"), reply("drained", texts=[], item="a"), reply("item", item="a", texts=[])]
        for deed in [HANG_UP, *bad, {"kind": "refused", "code": 11}]:
            with Scripted(welcome, deed, deed, reply("drained", texts=["b", "a"])) as server, session(server) as one:
                self.assertEqual(one.drain(3, 16), ["b", "a"])
                self.assertEqual(server.heard[1:], [server.heard[1]] * 3)

    def test_a_drain_gives_no_more_than_was_asked_for(self):
        """A list that is longer settles nothing."""
        with Scripted(welcome, reply("drained", texts=["a"] * 3), reply("drained", texts=["a"] * 2)) as server:
            with session(server) as one:
                self.assertEqual((one.drain(3, 2), len(server.heard)), (["a", "a"], 3))

    @in_time
    def test_a_drain_that_is_given_up(self):
        """A drain that is unsettled gives its items when it is given up; a cancelled one took none."""
        for told, wanted in [(reply("cancelled"), rv.replies.Cancelled(key(1))),
                             (reply("drained", texts=["a"]), rv.replies.Drained(key(1), ("a",)))]:
            with Scripted(welcome, HANG_UP) as server, session(server, patience=1.0) as one:
                with self.raises(rv.Unsettled, key=key(1)):
                    one.drain(3, 2)
                server.otherwise, one.patience = told, 120.0
                self.assertEqual(one.give_up(), wanted)
                self.assertEqual(asked(server)[-1], ("cancel", 1, None))

    def test_frames_of_each_length(self):
        """An answer of 65,535 bytes is read; so is a frame of as many that is no answer, and one of no byte."""
        def long(asked):
            return frame(json.dumps(reply("drained", texts=FULL)(asked)).encode().ljust(65_535))
        with Scripted(welcome, long, b"\x00\x00", frame(b" " * 65_535), long) as server, session(server) as one:
            self.assertEqual((one.drain(3, 16), one.drain(3, 16)), (FULL, FULL))
            self.assertEqual([number for _, number, _ in asked(server)], [None, 1, 2, 2, 2])


class Refusals(Case):
    """What no request may be."""

    def test_what_is_not_sent(self):
        """Calls that no request may be are refused before anything goes out, and say why."""
        wrong = [
            (lambda s: s.put(64, "a"), "queue"), (lambda s: s.put(-1, "a"), "queue"), (lambda s: s.put(True, "a"), "queue"),
            (lambda s: s.put(3, "x" * 513), "item above 512 bytes: 513"),
            (lambda s: s.put(3, "é" * 300), "item above 512 bytes: 600"),
            (lambda s: s.put(3, "\ud800"), "surrogate"), (lambda s: s.exchange(64, "a"), "exchanger"),
            (lambda s: s.drain(64, 1), "queue"), (lambda s: s.drain(3, 0), "drain"), (lambda s: s.drain(3, 17), "drain"),
            (lambda s: s.drain(3, True), "drain"), (lambda s: s.drain(3, 2.0), "drain"),
            (lambda s: s.poll(3, 86_400.001), "a day"), (lambda s: s.poll(3, float("nan")), "a day"),
        ]
        with Scripted(welcome) as server, session(server) as one:
            for call, word in wrong:
                raised = raised_by(lambda: call(one))
                self.assertIs(type(raised), ValueError)
                self.assertIn(word, str(raised))
            for item in (None, b"a", 1):
                with self.raises(TypeError) as told:
                    one.put(3, item)
                self.assertIn("items are text", str(told.raised))
            self.assertEqual(len(server.heard), 1)

    def test_what_is_no_session(self):
        """Clients, incarnations and versions that there are not."""
        for client, incarnation in [(0, 1), (1, 0), (2**53, 1), (1, 2**53), (1.0, 1)]:
            with self.raises(ValueError):
                rv.Session("127.0.0.1:1", client, incarnation)
        for version in (0, 3, True, "2"):
            with self.raises(ValueError):
                rv.Session("127.0.0.1:1", 1, 1, version=version)


def told_as(word):
    """The name of the type of an outcome that is told by this word."""
    return {"received": "receipt"}.get(word, word)


class Replies(Case):
    """Replies that a call can't have."""

    @unhurried(cancels=False)
    def test_replies_of_other_calls(self):
        """Each reply that a call can't have settles nothing: the request is asked again, until its own comes."""
        more = {"item": {"item": "b"}, "swapped": {"item": "b"}, "peeked": {"item": "b"}, "drained": {"texts": []},
                "counted": {"items": 0, "consumers": 0}}
        words = ["done", "received", "nobody", "item", "empty", "swapped", "timedout", "counted", "peeked", "drained"]
        can = {"put": ["done"], "transfer": ["received", "nobody", "timedout"], "take": ["item", "empty", "timedout"],
               "swap": ["swapped", "timedout"], "count": ["counted"], "peek": ["peeked", "empty"], "drain": ["drained"]}
        for (call, right, members, result), word in itertools.product(calls_of_transfers(1) + CALLS, words):
            own = word in can[members["call"]] and (word in ("received", "item", "swapped", "done", "counted", "peeked",
                                                             "drained") or self.ends_so(members, word))
            if own:
                continue
            with Scripted(welcome, reply(word, **more.get(word, {})), right) as server:
                with self.subTest(members=members, word=word), session(server, version=1) as one:
                    self.assertEqual((call(one), len(server.heard)), (result, 3))

    def ends_so(self, members, word):
        """Whether a call without a partner is told by this word."""
        wait = members.get("wait", "none")
        return word == ("timedout" if isinstance(wait, int) else {"now": {"transfer": "nobody", "take": "empty"}.get(
            members["call"]), "none": "empty"}.get(wait))

    def test_a_connection_that_is_out_of_step(self):
        """A link that says each answer twice: no answer is taken for another request's."""
        deeds = [twice(reply("item", item="a")), twice(reply("item", item="b")), reply("item", item="c")]
        with Scripted(welcome, *deeds) as server, session(server) as one:
            self.assertEqual((one.take(3), one.take(3), one.take(3)), ("a", "b", "c"))
            self.assertEqual([number for _, number, _ in asked(server)], [None, 1, 2, 3])
            self.assertEqual(server.connections, 3)


if __name__ == "__main__":
    unittest.main()
