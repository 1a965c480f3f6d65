"""Runs `rv play` of the built program from outside: forms, numbers, and starts and requests that end."""
from __future__ import annotations

from collections.abc import Iterable

from tests.commands.judged import GREATEST, LONGEST, Judged, Pair

PUT_A = '{"call":"put","item":"a","queue":3}'


def idle(client: int, message: int = 0, answer: int = 0, incarnation: int = 1, epoch: int = 1, version: int = 1) -> list[Pair]:
    """Play lines by which a client starts and becomes idle. Its hello and its welcome are packets of these numbers."""
    members = f'"client":{client},"epoch":{epoch},"incarnation":{incarnation},"kind":"welcome"'
    members, spoken = (members, "") if version == 1 else (f'{members},"version":{version}', f" {version}")
    return [(f"start {client} {incarnation}{spoken}", f"sent {message}"),
            (f"server {message} 0", f"answered {answer} {{{members}}}"),
            (f"client {answer}", "welcomed")]


def done(client: int, number: int, epoch: int = 1, incarnation: int = 1) -> str:
    """The body that says done."""
    return (f'{{"client":{client},"epoch":{epoch},"incarnation":{incarnation},"kind":"reply","number":{number},'
            '"reply":"done"}')


class Play(Judged):
    """What each expects is set beforehand, by how its input is made."""

    def judge_play(self, name: str, pairs: Iterable[Pair]) -> None:
        """A play over lines must print their results."""
        self.judge_lines(name, ["play"], pairs)

    def test_numbers(self) -> None:
        """Numbers of play lines are 1 to 19 digits; those of clients, incarnations and epochs keep their limits."""
        for digits in range(31):
            nines, one = "9" * digits, "1".zfill(digits) if digits else ""
            is_number = 1 <= digits <= 19
            or_bad = lambda result, holds=is_number: result if holds else "bad line"
            late = '{"client":1,"epoch":1,"incarnation":1,"kind":"welcome"}'
            self.judge_play(f"numbers of {digits} digits", [
                *idle(1),
                *[(f"{word} {nines}", or_bad("refused 6", 1 <= digits <= 15)) for word in ["crash", "resend", "cancel"]],
                (f"begin {nines} {PUT_A}", or_bad("refused 6", 1 <= digits <= 15)),
                (f"start {one} {one}", or_bad("refused 4")),
                (f"start {one} {one} 2", or_bad("refused 4")),
                (f"start 1 1 {'2'.zfill(digits)}", "refused 4" if digits <= 1 else "bad line"),
                (f"epoch {one}", or_bad("refused 5")),
                (f"client {nines}", or_bad("refused 1")),
                (f"server {nines} 0", or_bad("refused 1")),
                (f"server 0 {nines}", or_bad(f"answered 1 {late}")),
                (f"resend {one}", or_bad("refused 3")),
            ])
        for number in [0, GREATEST + 1]:
            lines = [f"start {number} 1", f"start 1 {number}", f"begin {number} {PUT_A}", f"epoch {number}"]
            lines += [f"{word} {number}" for word in ["resend", "cancel", "crash"]]
            self.judge_play(f"number {number}", [(line, "bad line") for line in lines])
        self.judge_play("the greatest numbers", [
            *idle(GREATEST, incarnation=GREATEST),
            (f"begin {GREATEST} {PUT_A}", "sent 1"),
            ("server 1 9999999999999999999", f"answered 1 {done(GREATEST, 1, incarnation=GREATEST)}"),
            ("client 1", f"settled {done(GREATEST, 1, incarnation=GREATEST)}"),
            (f"epoch {GREATEST}", f"opened {GREATEST}"),
            (f"epoch {GREATEST}", "refused 5"),
            (f"start {GREATEST} {GREATEST}", "refused 4"),
            ("server 9223372036854775808 0", "refused 1"),
            ("client 9223372036854775808", "refused 1"),
        ])

    def test_lines(self) -> None:
        """A line of another form prints `bad line` and changes nothing."""
        key = '"client":1,"epoch":1,"incarnation":1,"number":1,'
        texts = ["", "{}", "[]", "x", "{", PUT_A + "x", PUT_A + PUT_A, "{" + key + PUT_A[1:],
                 '{"kind":"request",' + PUT_A[1:], "{" + key + '"kind":"request",' + PUT_A[1:], '{"client":1,' + PUT_A[1:], PUT_A.replace("3", "64"),
                 PUT_A.replace("3", "3.0"), PUT_A.replace('"a"', f'"{513 * "x"}"'), PUT_A.replace("put", "Put"),
                 PUT_A.replace("put", "offer"), '{"wait":"now",' + PUT_A[1:], '{"call":"take","queue":3}', "\xa0" + PUT_A,
                 PUT_A.ljust(LONGEST + 1), '{"call":"drain","queue":3}', '{"call":"drain","max":17,"queue":3}',
                 '{"call":"drain","max":1,"queue":3,"wait":"now"}', '{"client":1,"incarnation":1,"kind":"hello"}']
        lines = ["", " ", "\r", "\t", "start", "start ", "start 2", "start 2 ", "start 2  1", "start  2 1", " start 2 1",
                 "start 2 1 ", "start 2 1 1", "start 2 1\r", "start\t2 1", "start 2\t1", "start 2 +1", "start 2 1.0",
                 "start 2 1 0", "start 2 1 3", "start 2 1 22", "start 2 1 +2", "start 2 1 2.0", "start 2 1 2 ", "start 2 1 2\r",
                 "start 2 1  2", "start 2  1 2", "start 2 1\t2", "start 2 1 2 2", "start 2 1 x", "start 2 2\t2", "start  2 1 2",
                 "Start 2 1", "START 2 1", "starts 2 1", "start2 1", "begin", "begin ", "begin 1", f"begin 1{PUT_A}",
                 f"begin  1 {PUT_A}", f"begin x {PUT_A}", f"begin {PUT_A}", "resend", "resend ", "resend 1 ", "resend 1 1",
                 "cancel", "cancel 1 1", "crash", "crash 1 1", "crash 1\r", "crash -1", "server", "server 0", "server 0 ",
                 "server 0  0", "server  0 0", "server 0 0 0", "server 0 0\r", "server 0 -1", "server 0 0.5", "client",
                 "client ", "client  0", "client 0 0", "client +0", "client 0x0", "client ０", "epoch", "epoch 2 2",
                 "epoch 2\r", "tick", "stop 1", "sent 0", "settled", "ToServer 0 0", "0 start 2 1", "x" * 100_000]
        bad = [(line, "bad line") for line in [*lines, *(f"begin 1 {text}" for text in texts)]]
        self.judge_play("lines of another form", [*idle(1), *bad, (f"begin 1 {PUT_A}", "sent 1"), ("start 2 1", "sent 2"),
                                                  ("start 2 1 2", "refused 4"), ("start 2 2 2", "sent 3")])
        white = PUT_A.replace(",", " ,\t").replace(":", " : ")
        for text in [" " + PUT_A, PUT_A + "\r", f"\t{white} ", PUT_A.ljust(4_097), PUT_A.ljust(LONGEST), '{"queue":9,' + PUT_A[1:]]:
            self.judge_play("a call text with more than it needs", [
                *idle(1), (f"begin 1 {text}", "sent 1"), ("server 1 0", f"answered 1 {done(1, 1)}")])
        text = "".join(f"{line}\n" for line, _ in idle(1))
        output = "".join(f"{result}\n" for _, result in idle(1)).encode()
        for name, given in [("a last line with no LF", text[:-1]), ("lines that all end by LF", text)]:
            self.judge_input(name, ["play"], given.encode(), output)
        for name, read, printed in [("an empty input", b"", b""), ("a blank line", b"\n", b"bad line\n"),
                                    ("bytes that are no UTF-8", b"\xff\xfe\nstart \xff 1", b"bad line\nbad line\n")]:
            self.judge_input(name, ["play"], read, printed)

    def test_starts(self) -> None:
        """What a play tells of packets that were never sent, and of starts that are turned away."""
        self.judge_play("nothing was sent", [
            ("server 0 0", "refused 1"),
            ("client 0", "refused 1"),
            *[(f"{line} 1", "refused 6") for line in ["resend", "cancel", "crash"]],
            (f"begin 1 {PUT_A}", "refused 6"),
            ("start 1 1", "sent 0"),
            ("server 1 0", "refused 1"),
            ("client 0", "refused 1"),
            *[(f"{line} 1", "refused 3") for line in ["resend", "cancel"]],
            (f"begin 1 {PUT_A}", "refused 2"),
        ])
        self.judge_play("a start that is turned away, and is welcome later", [
            ("start 1 1", "sent 0"),
            ("start 1 2", "sent 1"),
            ("server 1 0", 'answered 0 {"client":1,"epoch":1,"incarnation":2,"kind":"welcome"}'),
            ("server 0 0", 'answered 1 {"code":4,"current":2,"kind":"refused"}'),
            ("client 1", "turned away 4"),
            ("client 0", "welcomed"),
            ("client 1", "ignored"),
            (f"begin 1 {PUT_A}", "sent 2"),
            (f"begin 1 {PUT_A}", "refused 2"),
            ("client 1", "ignored"),
            ("start 1 2", "refused 4"),
        ])

    def test_ends(self) -> None:
        """What a play tells of requests that end with their epoch, with a crash, or by a cancel."""
        self.judge_play("a request that ends with its epoch, and its reply that comes after the crash", [
            *idle(1),
            (f"begin 1 {PUT_A}", "sent 1"),
            ("server 1 5", f"answered 1 {done(1, 1)}"),
            ("epoch 3", "opened 3"),
            ("epoch 2", "refused 5"),
            ("server 1 6", 'answered 2 {"code":2,"current":3,"kind":"refused"}'),
            ("client 2", "ended 3"),
            ("client 1", "ignored"),
            ("client 2", "ignored"),
            ("resend 1", "refused 6"),
            *idle(1, message=2, answer=3, incarnation=2, epoch=3),
            (f"begin 1 {PUT_A}", "sent 3"),
            ("crash 1", "crashed"),
            ("crash 1", "refused 6"),
            ("server 3 0", f"answered 4 {done(1, 1, epoch=3, incarnation=2)}"),
            ("client 4", "ignored"),
        ])
        cancelled = '{"client":1,"epoch":1,"incarnation":1,"kind":"reply","number":1,"reply":"cancelled"}'
        self.judge_play("a cancel that comes before its request, and moments that fall", [
            *idle(1),
            (f"begin 1 {PUT_A}", "sent 1"),
            ("cancel 1", "sent 2"),
            ("resend 1", "sent 3"),
            ("server 2 9", f"answered 1 {cancelled}"),
            ("server 1 4", f"answered 2 {cancelled}"),
            ("server 3 0", f"answered 3 {cancelled}"),
            ("client 2", f"settled {cancelled}"),
            ("client 1", "ignored"),
            ("cancel 1", "refused 3"),
        ])

    def test_longest(self) -> None:
        """The longest items and many lines: what a play prints of them."""
        longest = PUT_A.replace('"a"', '"' + 512 * "\\u0001" + '"')
        poll = '{"call":"take","queue":3,"wait":"now"}'
        written = 512 * "\\u0001"
        item = '{"client":1,"epoch":1,"incarnation":1,"item":"' + written + '","kind":"reply","number":2,"reply":"item"}'
        self.judge_play("the longest item", [
            *idle(1),
            (f"begin 1 {longest}", "sent 1"),
            ("server 1 0", f"answered 1 {done(1, 1)}"),
            ("client 1", f"settled {done(1, 1)}"),
            (f"begin 1 {poll}", "sent 2"),
            ("server 2 0", f"answered 2 {item}"),
            ("client 2", f"settled {item}"),
        ])
        drained = item.replace(f'"item":"{written}",', "").replace('"item"}', f'"drained","texts":["{written}"]}}')
        self.judge_play("a drain of the longest item", [
            *idle(1),
            (f"begin 1 {longest}", "sent 1"),
            ("server 1 0", f"answered 1 {done(1, 1)}"),
            ("client 1", f"settled {done(1, 1)}"),
            ('begin 1 {"call":"drain","max":16,"queue":3}', "sent 2"),
            ("server 2 0", f"answered 2 {drained}"),
            ("server 2 1", f"answered 3 {drained}"),
            ("client 3", f"settled {drained}"),
            ("client 2", "ignored"),
        ])
        welcome = '{"client":1,"epoch":1,"incarnation":1,"kind":"welcome"}'
        self.judge_play("many lines", [*idle(1), *[("server 0 0", f"answered {number} {welcome}") for number in range(1, 5_000)]])

    def test_versions(self) -> None:
        """What a play tells in sessions of either version: who received a transfer is told in the second alone."""
        give, take = '{"call":"transfer","item":"a","queue":3,"wait":"forever"}', '{"call":"take","queue":3,"wait":"now"}'
        waiting = '{"client":%d,"epoch":1,"incarnation":1,"kind":"waiting","number":1}'
        item = '{"client":9,"epoch":1,"incarnation":4,"item":"a","kind":"reply","number":%d,"reply":"item"}'
        received = '{%s"client":%d,"epoch":1,"incarnation":1,"kind":"reply","number":1,"reply":"received"}'
        names = '"by_client":9,"by_incarnation":4,"by_number":2,'
        self.judge_play("transfers of both versions, and who received them", [
            *idle(1), *idle(2, 1, 1, version=2), *idle(9, 2, 2, incarnation=4, version=2),
            (f"begin 1 {give}", "sent 3"),
            (f"begin 2 {give}", "sent 4"),
            ("server 3 1", f"answered 3 {waiting % 1}"),
            ("server 4 1", f"answered 4 {waiting % 2}"),
            (f"begin 9 {take}", "sent 5"),
            ("server 5 2", f"answered 5 {item % 1}"),
            ("client 5", f"settled {item % 1}"),
            (f"begin 9 {take}", "sent 6"),
            ("server 6 2", f"answered 6 {item % 2}"),
            ("client 4", "ignored"),
            ("server 3 3", f"answered 7 {received % ('', 1)}"),
            ("server 4 3", f"answered 8 {received % (names, 2)}"),
            ("client 7", f"settled {received % ('', 1)}"),
            ("client 8", f"settled {received % (names, 2)}"),
            ("client 8", "ignored"),
            ("server 1 4", 'answered 9 {"client":2,"epoch":1,"incarnation":1,"kind":"welcome","version":2}'),
            ("client 9", "ignored"),
        ])
        self.judge_play("sessions of other versions, each in an incarnation of its own", [
            ("start 1 1 2", "sent 0"),
            ("start 1 2", "sent 1"),
            ("start 1 2 2", "refused 4"),
            ("start 1 3 2", "sent 2"),
            ("server 1 0", 'answered 0 {"client":1,"epoch":1,"incarnation":2,"kind":"welcome"}'),
            ("server 0 0", 'answered 1 {"code":4,"current":2,"kind":"refused"}'),
            ("client 0", "ignored"),
            ("client 1", "turned away 4"),
            ("server 2 0", 'answered 2 {"client":1,"epoch":1,"incarnation":3,"kind":"welcome","version":2}'),
            ("client 2", "welcomed"),
            ("client 0", "ignored"),
        ])
