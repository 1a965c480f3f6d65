"""Account lines by hand: an example with changes, forms that are read and forms that are not; each with its verdict."""
from tests.model.verdicts import verdict

EXAMPLE = b"""\
epoch 1 opened 0
0 - {"client":1,"incarnation":1,"kind":"hello"}
0 - {"client":2,"incarnation":1,"kind":"hello"}
0 - {"call":"put","client":1,"epoch":1,"incarnation":1,"item":"a","kind":"request","number":1,"queue":3}
0 - {"call":"put","client":1,"epoch":1,"incarnation":1,"item":"b","kind":"request","number":2,"queue":3}
1 2 {"call":"take","client":2,"epoch":1,"incarnation":1,"kind":"request","number":1,"queue":3,"wait":"now"}
"""
TAKE = b'{"call":"take","client":2,'
HEAD = b"epoch 1 opened 0\n"
HELLO = b'{"client":1,"incarnation":1,"kind":"hello"}'
SECOND = HELLO.replace(b"}", b',"version":2}')
LONG = HELLO + b" " * (65_535 - len(HELLO))
DRAIN = b'{"call":"drain","client":2,"epoch":1,"incarnation":1,"kind":"request","max":2,"number":1,"queue":3}'
POLL = b'{"call":"take","client":2,"epoch":1,"incarnation":1,"kind":"request","number":1,"queue":3,"wait":"now"}'

# What of the example is replaced by what, and the verdict.
CHANGES = [
    (b"", b"", "legal"),
    (b"1 2 " + TAKE, b"1 3 " + TAKE, "fault 4 P3"),
    (b"1 2 " + TAKE, b"1 - " + TAKE, "fault 4 P4"),
    (b"1 2 " + TAKE, b"1 1 " + TAKE, "fault 4 P2"),
    (b"1 2 " + TAKE, b"1 4 " + TAKE, "fault 4 P1"),
    (b"1 2 " + TAKE, b"1 5 " + TAKE, "fault 4 P1"),
    (b"1 2 " + TAKE, b"1 99999 " + TAKE, "fault 4 P1"),
    (b"1 2 " + TAKE, b"1 100000 " + TAKE, "bad line 6"),
    (b"1 2 " + TAKE, b"0 2 " + TAKE, "legal"),
    (b"1 2 " + TAKE, b"4611686018427387904 2 " + TAKE, "legal"),
    (b"1 2 " + TAKE, b"4611686018427387905 2 " + TAKE, "bad line 6"),
    (b'"wait":"now"}\n', b'"wait":"now"}\n1 - tick\n', "fault 5 M3"),
    (b'"number":1,"queue":3,"wait"', b'"number":2,"queue":3,"wait"', "fault 4 N3"),
    (b'0 - {"client":2', b'0 - {"client":1', "fault 1 N1"),
    (b'0 - {"client":2', b'0 - {"client":3', "fault 4 N2"),
    (b'"number":2,"queue":3}', b'"number":2,"queue":3}\n', "bad line 6"),
    (b'"wait":"now"}\n', b'"wait":"now"}', "legal"),
    (b'"wait":"now"}\n', b'"wait":"now"}\n\n', "bad line 7"),
    (b'"wait":"now"}\n', b'"wait":"now"}\r\n', "legal"),
    (b"\n", b"\r\n", "bad line 1"),
    (b"opened 0", b"opened 1", "fault 0 M1"),
    (b"epoch 1 ", b"epoch 2 ", "fault 2 N2"),
    (b'0 - {"client":2', b'00 - {"client":2', "bad line 3"),
    (b'0 - {"client":2', b'0 0 {"client":2', "fault 1 P1"),
    (b'0 - {"client":2', b'0 00 {"client":2', "bad line 3"),
    (b'0 - {"client":2', b'0 -0 {"client":2', "bad line 3"),
    *((b"1 2 " + POLL, b"1 " + partners + b" " + DRAIN, said) for partners, said in [
        (b"2,3", "legal"),
        (b"2", "fault 4 P4"),
        (b"-", "fault 4 P4"),
        (b"3", "fault 4 P3"),
        (b"3,2", "fault 4 P1"),
        (b"2,2", "fault 4 P1"),
        (b"1,2", "fault 4 P2"),
        (b"2,4", "fault 4 P1"),
        (b"2,99999", "fault 4 P1"),
        (b"2,100000", "bad line 6"),
        (b"1,2,3", "fault 4 P1"),
        (b",".join(b"%d" % place for place in range(17)), "fault 4 P1"),
        (b",".join([b"99999"] * 2_000), "fault 4 P1"),
        (b"2,", "bad line 6"),
        (b",2", "bad line 6"),
        (b",", "bad line 6"),
        (b"2,,3", "bad line 6"),
        (b"2,-", "bad line 6"),
        (b"-,2", "bad line 6"),
        (b"-2", "bad line 6"),
        (b"2,03", "bad line 6"),
        (b"02,3", "bad line 6"),
        (b"2,+3", "bad line 6"),
        (b"2;3", "bad line 6"),
        (b"2, 3", "bad line 6"),
        (b"2 ,3", "bad line 6"),
        (b"2 3", "bad line 6"),
        (b"2,\xef\xbc\x93", "bad line 6"),
    ]),
    (b"1 2 " + POLL, b"1 2,3 " + POLL, "fault 4 P1"),
    (b"1 2 " + POLL, b"1 2,3 " + DRAIN.replace(b'"max":2', b'"max":1'), "fault 4 P1"),
    (b"1 2 " + POLL, b"1 2 " + DRAIN.replace(b'"max":2', b'"max":1'), "legal"),
    (b"1 2 " + POLL, b"1 2,3 " + DRAIN.replace(b'"max":2', b'"max":16'), "legal"),
    (b"1 2 " + POLL, b"1 2,3 " + DRAIN.replace(b'"max":2', b'"max":17'), "bad line 6"),
    (b"1 2 " + POLL, b"1 2,3 " + DRAIN.replace(b'"queue":3', b'"queue":4'), "fault 4 P2"),
    (b"1 2 " + POLL, b"1 - " + DRAIN.replace(b'"queue":3', b'"queue":4'), "legal"),
]

# A text and its verdict.
TEXTS = [
    (b"", "bad line 1"),
    (b"\n", "bad line 1"),
    (b"\n" + HEAD, "bad line 1"),
    (HEAD, "legal"),
    (HEAD[:-1], "legal"),
    (HEAD + b"\n", "bad line 2"),
    (HEAD + HEAD, "bad line 2"),
    (b"0 - " + HELLO, "bad line 1"),
    (b"epoch 9007199254740991 opened 4611686018427387904", "legal"),
    (b"epoch 9007199254740992 opened 0", "bad line 1"),
    (b"epoch 0 opened 0", "bad line 1"),
    (b"epoch 01 opened 0", "bad line 1"),
    (b"epoch 1 opened 00", "bad line 1"),
    (b"epoch 1 opened 4611686018427387905", "bad line 1"),
    (b"epoch 1 opened -", "bad line 1"),
    (b"epoch 1 opened 0 ", "bad line 1"),
    (b"epoch 1 opened  0", "bad line 1"),
    (b"epoch 1 opened", "bad line 1"),
    (HEAD + b"0 - " + HELLO, "legal"),
    (HEAD + b"0 -  " + HELLO + b" \r\t", "legal"),
    (HEAD + b"0 - " + LONG, "legal"),
    (HEAD + b"0 - " + LONG + b" ", "bad line 2"),
    (HEAD + b'0 - {"kind":"hello","incarnation":7,"incarnation":1,"client":1}', "legal"),
    (HEAD + b"0 - " + SECOND, "legal"),
    (HEAD + b'0 - {"version":2,"kind":"hello","incarnation":1,"client":1}', "legal"),
    (HEAD + b"0 - " + SECOND + b"\n0 - " + HELLO, "fault 1 N1"),
    (HEAD + b"0 - " + HELLO + b"\n0 - " + SECOND, "fault 1 N1"),
    (HEAD + b"0 - " + HELLO + b"\n0 - " + SECOND.replace(b'"incarnation":1', b'"incarnation":2'), "legal"),
    (HEAD + b"0 0 " + SECOND, "fault 0 P1"),
    *((HEAD + b"0 - " + SECOND.replace(b"2}", told + b"}"), "bad line 2")
      for told in [b"1", b"3", b"0", b"2.0", b'"2"', b"null", b"[2]", b"2,\"by_client\":1"]),
    (HEAD + b'0 - {"client":1,"epoch":1,"incarnation":1,"kind":"cancel","number":1,"version":2}', "bad line 2"),
    (HEAD + b"0  - " + HELLO, "bad line 2"),
    (HEAD + b" 0 - " + HELLO, "bad line 2"),
    (HEAD + b"0 -\t" + HELLO, "bad line 2"),
    (HEAD + b"0 " + HELLO, "bad line 2"),
    (HEAD + b"- - " + HELLO, "bad line 2"),
    (HEAD + b"0 -", "bad line 2"),
    (HEAD + b"0 - ", "bad line 2"),
    (HEAD + b"+0 - " + HELLO, "bad line 2"),
    (HEAD + b"0 - tick", "fault 0 M3"),
    (HEAD + b"0 0 tick", "fault 0 M3"),
    (HEAD + b"0 - tick ", "bad line 2"),
    (HEAD + b"0 - tick\r", "bad line 2"),
    (HEAD + b"0 -  tick", "bad line 2"),
    (HEAD + b'0 - "tick"', "bad line 2"),
    (HEAD + b'0 - {"client":1,"epoch":1,"incarnation":1,"kind":"welcome"}', "bad line 2"),
    (HEAD + b"0 0 " + HELLO, "fault 0 P1"),
    (HEAD + b"0 0,1 " + HELLO, "fault 0 P1"),
    (HEAD + b"0 0, " + HELLO, "bad line 2"),
    (HEAD + b"0 ,0 tick", "bad line 2"),
    (HEAD + b"0 7,5,5 tick", "fault 0 M3"),
    (HEAD + b"0 99999 " + HELLO, "fault 0 P1"),
    (HEAD + b"0 100000 " + HELLO, "bad line 2"),
    (HEAD + b"0 - tick\n0 - tack", "bad line 3"),
    (HEAD + b"0 - tick\n\n", "bad line 3"),
]


def line_texts():
    """Each text, with its verdict."""
    changed = [(EXAMPLE.replace(old, new, 1) if old else EXAMPLE, expected) for old, new, expected in CHANGES]
    return changed + TEXTS


def line_faults():
    """Each text by its number, with what is wrong with the verdict that is found, if something is."""
    for number, (text, expected) in enumerate(line_texts(), 1):
        found = verdict(text)
        yield f"account lines {number}", None if found == expected else f"{text}: got {found}, not {expected}"
