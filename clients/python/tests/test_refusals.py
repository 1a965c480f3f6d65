"""What a refusal, a welcome and a broken link are to a call."""
import unittest

from context import Case, asked, in_time, key, rv, session
from scripted import (
    HANG_UP, SILENCE, Scripted, frame, old_server, received_by, refused, reply, twice, waiting, welcome)

HELLO = {"kind": "hello", "client": 1, "incarnation": 1}
# A frame without its end.
CUT = frame(b'{"kind":"reply"')[:-4]


class Hellos(Case):
    """What a hello says, and what may answer it."""

    def test_versions(self):
        """A session asks for version 2, or for the one that it is told, and only its own welcome counts."""
        for more, said in [({}, {"version": 2}), ({"version": 2}, {"version": 2}), ({"version": 1}, {})]:
            other = {} if said else {"version": 2}
            others = [lambda asked, odd=odd: {"kind": "welcome", "epoch": 1, "client": 1, "incarnation": 1, **odd}
                      for odd in (other, {"version": 1}, {"version": 3}, {"version": "2"}, {"version": 2.0})]
            with Scripted(*others, welcome, reply("done")) as server:
                with session(server, **more) as one:
                    one.put(3, "a")
                hellos = [members for members in server.heard if members["kind"] == "hello"]
                self.assertEqual(hellos, [{**HELLO, **said}] * (len(others) + 1))

    def test_welcomes_of_others(self):
        """A welcome of another client, incarnation or version is none, and is not asked for without a pause."""
        with Scripted(*[lambda asked: {**welcome(asked), "client": 2}] * 900) as server:
            with self.raises(rv.NotAsked, key=None):
                session(server, patience=0.5).connect()
            self.assertLess(len(server.heard), 60)

    def test_other_versions(self):
        """A hello of another version than the session's is told so, and by which; what refuses no version is not."""
        for current in (1, 2):
            with Scripted(refused(12, current=current)) as server:
                with self.raises(rv.Refused, key=None, number=12, name="other version", current=current) as told:
                    session(server, version=3 - current).connect()
                self.assertIn(f"speaks {current}", str(told.raised))
        with Scripted(*[refused(12, current=odd) for odd in (0, 3, "1", 2)], refused(12), welcome) as server:
            with session(server):
                self.assertEqual(len(server.heard), 6)

    def test_old_servers(self):
        """A server that knows no version refuses version 2; a session of version 1 works there."""
        with Scripted(old_server) as server:
            with self.raises(rv.Refused, key=None, number=1, name="bad text", current=None) as told:
                session(server).connect()
            self.assertIn("version 1 alone", str(told.raised))
        with Scripted(old_server, reply("received")) as server, session(server, version=1) as one:
            self.assertEqual(one.transfer(3, "a"), rv.Receipt(key(1)))

    def test_a_refused_hello_may_be_said_again(self):
        """Clients full is told; the session is as it was, and a later call says hello anew."""
        with Scripted(refused(9), welcome, reply("done")) as server:
            one = session(server)
            with self.raises(rv.Refused, key=None, number=9, name="clients full"):
                one.put(3, "a")
            one.put(3, "a")
            self.assertEqual([kind for kind, *_ in asked(server)], ["hello", "hello", "request"])
            one.close()

    @in_time
    def test_a_hello_without_room(self):
        """It is said again; where there is none all the time, the call is told so, and nothing was asked."""
        with Scripted(refused(10), refused(11), SILENCE, welcome) as server, session(server, answer=0.5) as one:
            self.assertEqual((one.epoch, len(server.heard)), (1, 4))
        with Scripted() as server:
            server.otherwise = refused(10)
            with self.raises(rv.Full, key=None):
                session(server, patience=0.3).connect()
            server.otherwise = refused(11)
            with self.raises(rv.NotAsked, key=None):
                session(server, patience=0.3).connect()


class Repeats(Case):
    """What has a request asked again, and what settles it."""

    def test_repeats_until_it_is_told(self):
        """Waiting, an answer to something else, no frame, no answer: the same request is asked again."""
        other = received_by(9, 9, 9)(key(7)._asdict())
        bad = [b"\x00\x00", frame(b"{}"), frame(b"\xff"), frame(b'{"kind":"refused","code":1.0}'),
               frame(b'{"code":12,"kind":"refused"}'), frame(b'{"code":13,"kind":"refused"}'), frame(b"[" * 65_535),
               frame(b"[]"), frame(b'{"kind":"bye"}'), HANG_UP, other, welcome, refused(9)]
        for deed in bad:
            with Scripted(welcome, waiting, deed, deed, waiting, received_by(2, 3, 4)) as server, session(server) as one:
                self.assertEqual(one.transfer(3, "a").by.client, 2)
                self.assertEqual(server.heard[1:], [server.heard[1]] * 5)

    @in_time
    def test_repeats_where_no_answer_comes(self):
        """Nothing, or a part of a frame: it is asked again over another connection."""
        for deed in (SILENCE, CUT, b"\xff\xff"):
            with Scripted(welcome, deed, received_by(2, 3, 4)) as server, session(server, answer=0.5) as one:
                self.assertEqual(one.transfer(3, "a").by.client, 2)
                self.assertEqual(server.heard[1:], [server.heard[1]] * (len(server.heard) - 1))

    def test_refusals_that_are_not_its_own(self):
        """What a right server can't say of this request settles nothing."""
        for code, detail in [(5, {"last": 1}), (5, {"last": 0}), (7, {"open": 1}), (8, {"last": 0}), (2, {"current": 1}),
                             (4, {"current": 1}), (9, {}), (11, {}), (12, {"current": 1})]:
            for said in (refused(code, **detail), twice(refused(code, **detail))):
                with Scripted(welcome, said, reply("done")) as server, session(server) as one:
                    one.put(3, "a")
                    self.assertEqual(len(server.heard), 3)

    def test_doubled_refusals(self):
        """One that is said twice is one: a new connection is asked, and the request is settled there."""
        for said in (refused(10), refused(11), [refused(11), refused(10)]):
            deed = said if isinstance(said, list) else twice(said)
            with Scripted(welcome, deed, reply("item", item="a"), reply("item", item="b")) as server:
                with session(server) as one:
                    self.assertEqual((one.take(3), one.take(3)), ("a", "b"))
                    self.assertEqual((server.connections, one.last.key), (2, key(2)))

    def test_bad_text(self):
        """It ends the call, and the number is used again; where an earlier copy has no answer, it is unsettled."""
        with Scripted(welcome, refused(1), reply("done")) as server, session(server) as one:
            with self.raises(rv.Refused, key=key(1), number=1, name="bad text", current=None) as told:
                one.put(3, "a")
            self.assertNotIn("version", str(told.raised))
            one.put(3, "b")
            self.assertEqual(asked(server)[1:], [("request", 1, "put")] * 2)
        with Scripted(welcome, HANG_UP, refused(1), reply("done")) as server, session(server) as one:
            with self.raises(rv.Refused, key=key(1), number=1):
                one.put(3, "a")
            with self.raises(rv.Misused):
                one.put(3, "b")
            self.assertEqual(one.again(), rv.replies.Done(key(1)))


class Ends(Case):
    """What ends a session."""

    def test_another_process(self):
        """Refusals that only another process of this name can have caused; the session ends."""
        for code, detail in [(6, {}), (5, {"last": 2})]:
            with Scripted(welcome, refused(code, **detail)) as server, session(server) as one:
                with self.raises(rv.Refused, key=key(1), number=code, name=rv.errors.REFUSALS[code]) as told:
                    one.put(3, "a")
                self.assertIn("another process", str(told.raised))
                with self.raises(rv.Misused):
                    one.put(3, "a")
        with Scripted(welcome, reply("done"), refused(7, open=1)) as server, session(server) as one:
            one.put(3, "a")
            with self.raises(rv.Refused, key=key(2), number=7, name="busy"):
                one.put(3, "a")

    def test_the_epoch_ended(self):
        """A later epoch ends the session of a request that waited, and so does a server that knows the session no more."""
        with Scripted(welcome, waiting, refused(2, current=5)) as server, session(server) as one:
            with self.raises(rv.EpochEnded, key=key(1), current=5) as told:
                one.take(3)
            self.assertIn("the server is of epoch 5", str(told.raised))
            for call in (lambda: one.take(3), one.connect, one.again, one.give_up):
                with self.raises(rv.Misused):
                    call()
        with Scripted(welcome, reply("done"), refused(8, last=0)) as server, session(server) as one:
            one.put(3, "a")
            with self.raises(rv.EpochEnded, key=key(2), current=1):
                one.put(3, "a")

    def test_replaced(self):
        """A greater incarnation ends the session, in a call and at the hello."""
        with Scripted(welcome, refused(4, current=2)) as server, session(server) as one:
            with self.raises(rv.Replaced, key=key(1), current=2):
                one.take(3)
            with self.raises(rv.Misused):
                one.take(3)
        with Scripted(refused(4, current=2)) as server:
            one = session(server)
            with self.raises(rv.Replaced, key=None, current=2):
                one.connect()
            with self.raises(rv.Misused):
                one.connect()


if __name__ == "__main__":
    unittest.main()
