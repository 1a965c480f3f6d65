"""Sends bodies through the built program: which are messages, and which are not.

The expected answers are the format's: a hello is welcomed, a request of a book's first client gets what its call
gets in an empty book, and all that is no message gets refusal 1.
"""
from __future__ import annotations

import subprocess
from collections.abc import Iterable, Sequence

from tests.cases import Case

GREATEST = 9_007_199_254_740_991
BAD_TEXT = b'{"code":1,"kind":"refused"}'
HELLO = b'{"client":7,"incarnation":1,"kind":"hello"}'
WELCOME = b'{"client":7,"epoch":1,"incarnation":1,"kind":"welcome"}'
SECOND = b'{"client":7,"incarnation":1,"kind":"hello","version":2}'
SECOND_WELCOME = b'{"client":7,"epoch":1,"incarnation":1,"kind":"welcome","version":2}'
FRONT = b'{"client":7,"epoch":1,"incarnation":1,'


def request(members: bytes, number: bytes = b"1") -> bytes:
    """A request of client 7 with these members of its call."""
    return FRONT + b'"kind":"request","number":' + number + b"," + members + b"}"


def reply(word: bytes, members: bytes = b"") -> bytes:
    """What client 7's first request is answered, where the reply has a member before `kind`."""
    return FRONT + members + b'"kind":"reply","number":1,"reply":"' + word + b'"}'


def drained(texts: bytes = b"") -> bytes:
    """What client 7's first request is answered where it is a drain that took these texts."""
    return reply(b"drained").removesuffix(b"}") + b',"texts":[%s]}' % texts


WAITING = FRONT + b'"kind":"waiting","number":1}'


class Bodies(Case):
    """Each body is in a new book, behind those that a case names."""

    def answers(self, bodies: Iterable[bytes]) -> list[bytes]:
        """What a new book answers to these bodies at moment 0."""
        lines = b"".join(b"0 " + body + b"\n" for body in bodies)
        ran = subprocess.run([self.program, "book", "--epoch", "1"], input=lines, capture_output=True)
        return ran.stdout.split(b"\n")[:-1]

    def judge_bodies(self, bodies: Sequence[bytes], wanted: Sequence[bytes], before: Sequence[bytes] = ()) -> None:
        """Each of these bodies, in a new book behind those before it, gets its answer."""
        for body, want in zip(bodies, wanted, strict=True):
            found = self.answers([*before, body])[len(before):]
            with self.subTest(f"{body[:100]!r} behind {len(before)}"):
                self.assertEqual(found, [want])

    def test_hellos(self) -> None:
        """Order, white space, escapes in names and words, names that stand twice, lengths, the greatest numbers."""
        bodies = [
            HELLO,
            b'{ "kind":"hello", "incarnation":1, "client":7 }',
            b'\r\t {"kind" : "h\\u0065llo" ,\t"incarnation":1,"cl\\u0069ent":7}\t\r',
            b'{"client":8,"client":7,"incarnation":1,"kind":"hello"}',
            b'{"client":0,"kind":"x","incarnation":1,"kind":"hello","client":7}',
            *(HELLO + b" " * (size - len(HELLO)) for size in (4_096, 4_097, 10_000, 65_534, 65_535)),
        ]
        self.judge_bodies(bodies, [WELCOME] * len(bodies))
        greatest = str(GREATEST).encode()
        self.judge_bodies([HELLO.replace(b":7", b":" + greatest).replace(b":1", b":" + greatest)],
                          [WELCOME.replace(b":7", b":" + greatest).replace(b'incarnation":1', b'incarnation":' + greatest)])

    def test_versions(self) -> None:
        """A hello that asks for version 2, in all its forms; and what a version makes of other bodies, or is no version."""
        bodies = [
            SECOND,
            b'{ "version":2, "kind":"hello", "incarnation":1, "client":7 }',
            b'{"client":7,"incarnation":1,"kind":"hello","v\\u0065rsion":\t2\r}',
            b'{"client":7,"incarnation":1,"kind":"hello","version":1,"version":2}',
            b'{"version":"x","client":7,"version":2,"incarnation":1,"kind":"hello"}',
            SECOND + b" " * (65_535 - len(SECOND)),
        ]
        self.judge_bodies(bodies, [SECOND_WELCOME] * len(bodies))
        told = [b"1", b"3", b"0", b"-2", b"2.0", b"2e0", b"+2", b"02", b'"2"', b"true", b"null", b"[2]", b'{"version":2}', b'""',
                b"22", b"18446744073709551618", b"9007199254740993", b'2,"version":1', b'2,"x":1', b'2,"Version":2', b"2,"]
        take = request(b'"call":"take","queue":3,"wait":"now"')
        wrong = [
            *(SECOND.replace(b"2}", value + b"}") for value in told),
            SECOND.replace(b"version", b"Version"), SECOND.replace(b"version", b"versions"), SECOND.replace(b"hello", b"welcome"),
            SECOND.replace(b'"client":7,', b""), SECOND.replace(b'"incarnation":1,', b""), SECOND.replace(b":7", b":0"),
            SECOND + b" " * (65_536 - len(SECOND)), SECOND_WELCOME, b'{"code":12,"current":2,"kind":"refused"}',
            take.replace(b"}", b',"version":2}'), FRONT + b'"kind":"cancel","number":1,"version":2}',
            take.replace(b"{", b'{"by_client":7,"by_incarnation":1,"by_number":1,'),
        ]
        self.judge_bodies(wrong, [BAD_TEXT] * len(wrong))
        self.judge_bodies(wrong, [BAD_TEXT] * len(wrong), before=[SECOND])
        other = b'{"code":12,"current":%d,"kind":"refused"}'
        self.judge_bodies([HELLO, SECOND, take], [other % 2, SECOND_WELCOME, reply(b"empty")], before=[SECOND])
        self.judge_bodies([SECOND, HELLO, take], [other % 1, WELCOME, reply(b"empty")], before=[HELLO])

    def test_receipts(self) -> None:
        """A transfer that was met tells of its consumer, by its members in front, in a session of version 2 alone."""
        consumer = b'{"client":%d,"incarnation":%d,"kind":"hello"}'
        take = b'{"call":"take","client":%d,"epoch":1,"incarnation":%d,"kind":"request","number":1,"queue":3,"wait":"forever"}'
        give = request(b'"call":"transfer","queue":3,"item":"a","wait":"forever"')
        for client, incarnation in [(8, 1), (1, GREATEST), (GREATEST, 9)]:
            names = b'{"by_client":%d,"by_incarnation":%d,"by_number":1,' % (client, incarnation)
            own = [consumer % (client, incarnation), take % (client, incarnation)]
            for first, answer in [(HELLO, reply(b"received")), (SECOND, reply(b"received").replace(b"{", names))]:
                for before in [[first, *own], [first, give, *own]]:
                    self.judge_bodies([give], [answer], before=before)
                self.judge_bodies([FRONT + b'"kind":"cancel","number":1}'], [answer], before=[first, give, *own])

    def test_requests(self) -> None:
        """Each call in an empty book, at its limits, and a cancel."""
        item = b'"call":"put","queue":0,"item":"%s"'
        rows = [
            (request(b'"call":"put","queue":0,"item":""'), reply(b"done")),
            (request(b'"item":"a","call":"put","queue":63'), reply(b"done")),
            (request(item % (b"x" * 512)), reply(b"done")),
            (request(item % ("é".encode() * 256)), reply(b"done")),
            (request(item % (b"\\u00e9" * 256)), reply(b"done")),
            (request(item % b"\\ud83d\\ude00"), reply(b"done")),
            (request(b'"call":"transfer","queue":3,"item":"a","wait":"now"'), reply(b"nobody")),
            (request(b'"call":"transfer","queue":63,"item":"a","wait":"forever"'), WAITING),
            (request(b'"call":"take","queue":3,"wait":"now"'), reply(b"empty")),
            (request(b'"call":"take","queue":3,"wait":"f\\u006frever"'), WAITING),
            (request(b'"call":"drain","max":1,"queue":0'), drained()),
            (request(b'"call":"drain","max":16,"queue":63'), drained()),
            (request(b'"queue":3,"max":2,"call":"dr\\u0061in"'), drained()),
            (request(b'"call":"count","queue":3'), reply(b"counted").replace(
                b'"epoch":1,"incarnation":1,', b'"consumers":0,"epoch":1,"incarnation":1,"items":0,')),
            (request(b'"call":"peek","queue":3'), reply(b"empty")),
            (FRONT + b'"kind":"cancel","number":1}', reply(b"cancelled")),
        ]
        self.judge_bodies([body for body, _ in rows], [want for _, want in rows], before=[HELLO])

    def test_waits(self) -> None:
        """Waits of milliseconds, at their limits."""
        take, transfer = b'"call":"take","queue":3,"wait":', b'"call":"transfer","queue":3,"item":"a","wait":'
        rows = [(take + b"0", reply(b"timedout")), (transfer + b"0", reply(b"timedout")), (take + b"1", WAITING),
                (take + b"86400000", WAITING), (transfer + b"86400000", WAITING)]
        self.judge_bodies([request(body) for body, _ in rows], [want for _, want in rows], before=[HELLO])

    def test_items(self) -> None:
        """The bytes of an item are those after unescaping, and are written in one way."""
        take = request(b'"call":"take","queue":0,"wait":"now"', number=b"2")
        rows = [(b"\\u0001\\\"\\\\\\u00e9", b"\\u0001\\\"\\\\\xc3\xa9"),
                (b"\\b\\f\\n\\r\\t\\u0000\\u001F", b"\\b\\f\\n\\r\\t\\u0000\\u001f"),
                (b"\\/\\u007f\\ud83d\\ude00", b"/\x7f\xf0\x9f\x98\x80")]
        for text, written in rows:
            put = request(b'"call":"put","queue":0,"item":"%s"' % text)
            want = reply(b"item", b'"item":"%s",' % written).replace(b'"number":1', b'"number":2')
            self.judge_bodies([take], [want], before=[HELLO, put])

    def test_drains(self) -> None:
        """The texts of a drain, each written in one way; up to 16 of them, and so a body of more than 4,096 bytes."""
        drain = request(b'"call":"drain","max":16,"queue":0', number=b"18")
        rows = [(b"", b""), (b"a", b"a"), (b"\\u0001\\\"\\\\\\u00e9", b"\\u0001\\\"\\\\\xc3\xa9"), (b"\\u0000" * 512, b"\\u0000" * 512)]
        for text, written in rows:
            puts = [request(b'"call":"put","queue":0,"item":"%s"' % text, number=b"%d" % number) for number in range(1, 18)]
            want = drained(b",".join([b'"%s"' % written] * 16)).replace(b'"number":1', b'"number":18')
            self.judge_bodies([drain], [want], before=[HELLO, *puts])

    def test_no_messages(self) -> None:
        """Lengths, texts that are no JSON, members that are missing, further or wrong, limits."""
        put = b'"call":"put","queue":3,"item":"%s"'
        take, drain = b'"call":"take","queue":3', b'"call":"drain","queue":3'
        hello = b'{"client":%s,"incarnation":1,"kind":"hello"}'
        wrong = [
            HELLO + b" " * (65_536 - len(HELLO)), b"?" * 65_536, b" " * 65_536, b" " * 65_535, b"?" * 4_097,
            b"{", HELLO[:-1], HELLO + b"x", b"\xef\xbb\xbf" + HELLO, HELLO.replace(b"hello", b"hello\xff"),
            HELLO.replace(b",", "\u00a0,".encode()), b"[" * 128 + b"]" * 128, b"[" * 127 + b"]" * 127,
            b"[]", b'"hello"', b"null", b"{}", b"[" + HELLO + b"]",
            *[hello % number for number in [b"01", b"+1", b".5", b"1e999", b"1.0", b"1e2", b"-0", b"-1", b'"1"', b"0", b"null",
                                            b"9007199254740992", b"18446744073709551616", b"[7]"]],
            b'{"client":7,"kind":"hello"}', HELLO.replace(b"{", b'{"x":1,'), HELLO.replace(b"hello", b"Hello"),
            HELLO.replace(b"kind", b"Kind"), HELLO.replace(b"hello", b"goodbye"), HELLO.replace(b"{", b'{"number":1,'),
            HELLO.replace(b"hello", b"welcome"), WELCOME, FRONT + b'"kind":"waiting","number":1}', reply(b"done"),
            request(put % (b"x" * 513)), request(put % (b"\\u00e9" * 257)), request(put % b"\\ud800"), request(put % b"\t"),
            request(b'"call":"put","queue":3,"item":1'), request(b'"call":"put","queue":3'), request(b'"call":"put","item":"a"'),
            request(b'"call":"put","queue":64,"item":"a"'), request(b'"call":"put","queue":-1,"item":"a"'),
            request(put % b"a" + b',"wait":"now"'), request(put % b"a", number=b"0"),
            request(b'"call":"offer","queue":3,"item":"a"'), request(b'"call":"Put","queue":3,"item":"a"'),
            request(b'"queue":3,"item":"a"'),
            request(take), request(take + b',"wait":"never"'), request(take + b',"wait":"now","item":"a"'),
            request(take + b',"wait":"Forever"'), request(take + b',"wait":null'), request(take + b',"wait":-1'),
            request(take + b',"wait":1.0'), request(take + b',"wait":"5"'), request(take + b',"wait":86400001'),
            request(take + b',"wait":18446744073709551616'), request(take + b',"wait":["now"]'), request(take + b',"wait":""'),
            request(take + b',"wait":"later"'), request(take + b',"wait":1e2'),
            request(b'"call":"transfer","queue":3,"item":"a","wait":86400001'),
            request(b'"call":"take","queue":64,"wait":"now"'),
            request(b'"call":"transfer","queue":3,"item":"a"'), request(b'"call":"transfer","queue":3,"wait":"now"'),
            request(b'"call":"transfer","queue":64,"item":"a","wait":"now"'),
            request(drain), *[request(drain + b',"max":' + number) for number in [
                b"0", b"17", b"-1", b"1.0", b"1e0", b"01", b'"1"', b"null", b"[1]", b"18446744073709551616", b'1,"wait":"now"',
                b'1,"item":"a"', b'1,"x":1', b'1,"texts":[]']],
            request(b'"call":"drain","max":1'), request(b'"call":"drain","max":1,"queue":64'),
            request(b'"call":"Drain","max":1,"queue":3'), request(b'"call":"drain","exchanger":3,"max":1'), drained(b'"a"'),
            request(take + b',"max":1,"wait":"now"'), request(put % b"a" + b',"max":1'),
            request(b'"call":"count"'), request(b'"call":"count","queue":64'), request(b'"call":"count","queue":3,"wait":"now"'),
            request(b'"call":"peek","queue":64'), request(b'"call":"peek","queue":3,"item":"a"'),
            FRONT + b'"kind":"cancel"}', FRONT + b'"kind":"cancel","number":0}', FRONT + b'"call":"peek","kind":"cancel","number":1,"queue":3}',
            FRONT.replace(b":7", b":0") + b'"kind":"cancel","number":1}',
        ]
        found = self.answers([HELLO, *wrong, HELLO])
        with self.subTest("an answer for each body"):
            self.assertEqual(len(found), len(wrong) + 2)
        for body, answer in zip([HELLO, *wrong, HELLO], found):
            with self.subTest(f"{body[:100]!r}"):
                self.assertEqual(answer, WELCOME if body == HELLO else BAD_TEXT)
