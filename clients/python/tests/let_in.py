"""Lets something in between two steps of what this thread runs: an interrupt, a signal, a deed."""
import contextlib
import inspect
import signal
import sys


def line_of(function, text):
    """The number of the one line of a function that has this text."""
    lines, first = inspect.getsourcelines(function)
    found = [number for number, line in enumerate(lines, first) if text in line]
    assert len(found) == 1, f"{text!r} stands {len(found)} times in {function.__qualname__}"
    return found[0]


@contextlib.contextmanager
def on_line(function, text, deed):
    """Does a deed once, right before this thread runs this line of a function; what it raises, the line raises."""
    code, line, did = function.__code__, line_of(function, text), []

    def entered(frame, *_):
        return stepped if frame.f_code is code else None

    def stepped(frame, event, _):
        if event == "line" and frame.f_lineno == line:
            sys.settrace(None)
            did.append(line)
            deed()
        return stepped
    sys.settrace(entered)
    try:
        yield
    finally:
        sys.settrace(None)
    assert did, f"the line was not run: {text}"


def interrupt():
    """What the keyboard's interrupt does to the line that runs."""
    raise KeyboardInterrupt


@contextlib.contextmanager
def handled(number, handler):
    """In the block, a signal is met by this handler."""
    before = signal.signal(number, handler)
    try:
        yield
    finally:
        signal.signal(number, before)
