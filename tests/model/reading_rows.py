"""What bodies are read as, worked by hand after docs/FORMATS.md, section 1: of each shape, and of what is easily taken for another."""
from collections.abc import Iterator

from tests.model.readings import NO_MEANING, NO_READING, Program, first_difference

GREATEST = b"9007199254740991"
HELLO = b'{"client":1,"incarnation":1,"kind":"hello"}'
TAKE = b'{"call":"take","client":2,"epoch":1,"incarnation":1,"kind":"request","number":1,"queue":3,"wait":"now"}'
PUT = b'{"call":"put","client":1,"epoch":1,"incarnation":1,"item":"%s","kind":"request","number":1,"queue":3}'
ITEM = b'{"client":2,"epoch":1,"incarnation":1,"item":"%s","kind":"reply","number":1,"reply":"item"}'
DRAINED = b'{"client":2,"epoch":1,"incarnation":1,"kind":"reply","number":1,"reply":"drained","texts":[%s]}'
SWAP = b'{"call":"swap","client":1,"epoch":1,"exchanger":63,"incarnation":1,"item":"a","kind":"request","number":1,"wait":5}'
DRAIN = b'{"call":"drain","client":2,"epoch":1,"incarnation":1,"kind":"request","max":2,"number":1,"queue":3}'
RECEIVED = b'{"client":1,"epoch":1,"incarnation":1,"kind":"reply","number":1,"reply":"received"}'
RECEIVED_BY = b'{"by_client":2,"by_incarnation":1,"by_number":1,"client":1,"epoch":1,"incarnation":1,"kind":"reply","number":1,"reply":"received"}'
MESSAGES = [
    HELLO, TAKE, PUT % b"a",
    b'{"client":1,"incarnation":1,"kind":"hello","version":2}',
    b'{"client":1,"epoch":1,"incarnation":1,"kind":"cancel","number":1}',
    SWAP, DRAIN,
    b'{"call":"transfer","client":1,"epoch":1,"incarnation":1,"item":"","kind":"request","number":1,"queue":0,"wait":86400000}',
    b'{"call":"count","client":1,"epoch":1,"incarnation":1,"kind":"request","number":1,"queue":3}',
    HELLO.replace(b":1", b":" + GREATEST), PUT % (b"x" * 512), PUT % ("é".encode() * 256), PUT % b"\x7f\\u0000\\\\\\\""]
ANSWERS = [
    b'{"client":1,"epoch":1,"incarnation":1,"kind":"welcome"}',
    b'{"client":1,"epoch":1,"incarnation":1,"kind":"welcome","version":2}',
    b'{"client":1,"epoch":1,"incarnation":1,"kind":"reply","number":1,"reply":"done"}',
    RECEIVED, RECEIVED_BY,
    b'{"client":3,"consumers":0,"epoch":1,"incarnation":1,"items":100000,"kind":"reply","number":1,"reply":"counted"}',
    b'{"client":1,"epoch":1,"incarnation":1,"kind":"waiting","number":1}',
    b'{"code":1,"kind":"refused"}', b'{"code":4,"current":2,"kind":"refused"}', b'{"code":8,"kind":"refused","last":0}',
    b'{"code":7,"kind":"refused","open":2}', b'{"code":11,"kind":"refused"}', b'{"code":12,"current":2,"kind":"refused"}',
    ITEM % b"a", DRAINED % b"", DRAINED % b'"a","b"', DRAINED % b",".join([b'"%s"' % (b"y" * 512)] * 16)]
# Texts of calls, and the requests as which they are written.
CALLS = [
    (b'{"call":"peek","queue":3}', b'{"call":"peek","client":1,"epoch":1,"incarnation":1,"kind":"request","number":1,"queue":3}'),
    (b'{"queue":0, "call":"drain","max":16}',
     b'{"call":"drain","client":1,"epoch":1,"incarnation":1,"kind":"request","max":16,"number":1,"queue":0}'),
    (b'{"call":"take","queue":63,"wait":0}',
     b'{"call":"take","client":1,"epoch":1,"incarnation":1,"kind":"request","number":1,"queue":63,"wait":0}'),
    (b'{"call":"swap","exchanger":1,"\\u0069tem":"b","wait":"forever"}',
     b'{"call":"swap","client":1,"epoch":1,"exchanger":1,"incarnation":1,"item":"b","kind":"request","number":1,"wait":"forever"}')]
# Other texts of messages.
OTHERS = [
    (b'{ "kind":"hello", "incarnation":1, "client":1 }', HELLO), (b'\r\n\t {"kind" : "h\\u0065llo" ,\t"incarnation":1,"cl\\u0069ent":1}\n', HELLO),
    (b'{"client":8,"client":1,"incarnation":1,"kind":"hello"}', HELLO), (b'{"client":0,"kind":"x","incarnation":1,"kind":"hello","client":1}', HELLO),
    (b'{"client":[{"a":-1e9}],"incarnation":1,"kind":"hello","\\u0063lient":1}', HELLO), (HELLO + b" " * (65_535 - len(HELLO)), HELLO),
    (PUT % b"\\u0001\\\"\\\\\\u00e9", PUT % b"\\u0001\\\"\\\\\xc3\xa9"), (PUT % b"\\/\\u007f\\ud83d\\ude00", PUT % b"/\x7f\xf0\x9f\x98\x80"),
    (PUT % (b"\\u00e9" * 256), PUT % ("é".encode() * 256)), (PUT % b"\\u001F\\b\\f\\n\\r\\t", PUT % b"\\u001f\\b\\f\\n\\r\\t"),
    (TAKE.replace(b'"now"', b'"n\\u006fw"'), TAKE)]
NOT_JSON = [
    b"\xff", b"\xef\xbb\xbf" + HELLO, HELLO[:-1], HELLO + b"x", HELLO + HELLO, HELLO + b"\x00", HELLO + b" }", PUT % b"\x01", PUT % b"\\ud800",
    PUT % b"\\udc00\\ud800", PUT % b"\xed\xa0\x80", PUT % b"\\x", PUT % b"\xc3", b"\xc2\xa0" + HELLO, HELLO.replace(b"1,", b"01,", 1),
    HELLO.replace(b"1,", b"+1,", 1), HELLO.replace(b"1,", b".5,", 1), HELLO.replace(b"1,", b"1e999,", 1), HELLO.replace(b"1,", b"1.,", 1),
    HELLO.replace(b"1,", b"NaN,", 1), b"[" * 128 + b"]" * 128, b"[1,]", HELLO.replace(b"}", b",}"), HELLO.replace(b",", b",,", 1), b" ",
    b"{\"a\":'b'}", HELLO.replace(b'"client"', b"client"), HELLO.replace(b'"client":1', b'"client":1e999,"client":1'), b"[1" + b"0" * 400 + b"]"]
NOT_MESSAGES = [
    b"[]", b'"hello"', b"null", b"{}", b"0", b"[" * 127 + b"]" * 127, HELLO.replace(b"hello", b"Hello"), HELLO.replace(b"client", b"Client"),
    HELLO.replace(b"}", b',"x":1}'), HELLO.replace(b',"incarnation":1', b""), PUT % (b"x" * 513), PUT % (b"\\u0000" * 513), PUT % ("é".encode() * 257),
    DRAINED % b",".join([b'""'] * 17), DRAINED % b'"a",1', DRAINED % b'["a"]', TAKE.replace(b"3", b"64"), TAKE.replace(b'"now"', b"86400001"),
    *(HELLO.replace(b"1,", number + b",", 1) for number in (
        b"1.0", b"1e2", b"-0", b"-1", b'"1"', b"18446744073709551616", b"18446744073709551617", b"18446744073709551615", b"0", b"9007199254740992",
        b"9223372036854775808", b"10000000000000000000", b"[1]", b"null", b"true", b"{}")),
    *(HELLO.replace(b"}", b',"version":%s}' % version) for version in (b"1", b"3", b'"2"', b"2.0")), TAKE.replace(b"}", b',"version":2}'),
    SWAP.replace(b"5", b'"now"'), b'{"by_client":2,' + RECEIVED[1:], RECEIVED_BY.replace(b'"by_number":1,', b""), b'{"code":13,"kind":"refused"}',
    b'{"code":12,"current":3,"kind":"refused"}', b'{"code":7,"kind":"refused","open":0}', b'{"code":1,"kind":"refused","last":1}',
    DRAIN.replace(b'"max":2', b'"max":0'), DRAIN.replace(b'"max":2', b'"max":17'), b'{"call":"peek","kind":"request","queue":3}']
LONG = [b"", HELLO + b" " * (65_536 - len(HELLO)), b"\xff" * 65_536, b"[" * 65_537]


def of_message(text: bytes) -> bytes:
    """The line of this message."""
    return text + b"\t2\t2"


def of_answer(text: bytes) -> bytes:
    """The line of this answer."""
    return b"2\t" + text + b"\t2"


def of_call(text: bytes) -> bytes:
    """The line of the call of this request."""
    return b"2\t2\t" + text


ROWS = [
    *((text, of_message(text)) for text in MESSAGES), *((text, of_answer(text)) for text in ANSWERS),
    *((text, of_call(written)) for text, written in CALLS), *((text, of_message(written)) for text, written in OTHERS),
    *((text, NO_READING) for text in NOT_JSON), *((text, NO_MEANING) for text in (*NOT_MESSAGES, *LONG))]


def row_faults(program: Program) -> Iterator[tuple[str, str | None]]:
    """Each row, and what a program tells otherwise, if so."""
    for number, row in enumerate(ROWS, 1):
        difference = first_difference(program, [row])
        yield f"row {number}", difference.told() if difference else None
