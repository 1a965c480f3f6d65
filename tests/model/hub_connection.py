"""One connection of a hub: the bytes of its input that no frame was taken of, and the answers that its peer hasn't taken."""
from collections import deque
from dataclasses import dataclass, field

from tests.model.account import Request

# The most bytes of answers that may be held when a frame is taken.
MOST_HELD = 65_534


@dataclass(frozen=True)
class Answer:
    """The frame of an answer, and how many entries must be written before it may be handed out."""

    frame: bytes
    rests_on: int


@dataclass(frozen=True)
class Wait:
    """The request that a connection waits for, and the moment at which it is told so."""

    request: Request
    until: int


@dataclass(frozen=True)
class View:
    """What a host sees of an open connection."""

    waits: bool
    unread: int
    held: int
    may_offer: bool
    ready: bytes


@dataclass
class Connection:
    """An open connection. Of the first of its answers `left` bytes are taken."""

    unread: bytes = b""
    ended: bool = False
    wait: Wait | None = None
    answers: deque[Answer] = field(default_factory=deque)
    left: int = 0
    held: int = 0

    def take_in(self, piece: bytes) -> int:
        """Takes bytes of a piece, and tells how many: all, or as many as end a frame or show a bad length."""
        before = len(self.unread)
        self.unread += piece[: max(0, 2 - before)]
        if len(self.unread) >= 2 and not self.has_bad_length:
            missing = 2 + self.length - len(self.unread)
            taken = len(self.unread) - before
            self.unread += piece[taken : taken + missing]
        return len(self.unread) - before

    @property
    def length(self) -> int:
        """The length that the first two unread bytes tell."""
        return int.from_bytes(self.unread[:2])

    @property
    def has_bad_length(self) -> bool:
        """Whether the next frame's length is the one that none may have."""
        return self.unread[:2] == b"\0\0"

    @property
    def has_frame(self) -> bool:
        """Whether a whole frame is unread."""
        return len(self.unread) >= 2 and not self.has_bad_length and len(self.unread) == 2 + self.length

    @property
    def is_full(self) -> bool:
        """Whether too many bytes of answers are held to take a frame."""
        return self.held > MOST_HELD

    @property
    def is_due(self) -> bool:
        """Whether a frame is to be answered now."""
        return self.has_frame and not self.wait and not self.is_full

    @property
    def may_offer(self) -> bool:
        """Whether its peer may offer more."""
        return not (self.wait or self.is_full or self.ended or self.has_bad_length)

    @property
    def is_finished(self) -> bool:
        """Whether it is to be closed: all answers are taken, none is to come, and no frame can."""
        over = self.has_bad_length or (self.ended and not self.has_frame)
        return over and not self.wait and not self.held

    def take_frame(self) -> bytes:
        """Takes the unread frame, and gives its body."""
        body, self.unread = self.unread[2:], b""
        return body

    def answer(self, body: bytes, rests_on: int) -> None:
        """Puts an answer behind the others."""
        frame = len(body).to_bytes(2) + body
        self.answers.append(Answer(frame, rests_on))
        self.held += len(frame)

    def ready(self, written: int) -> bytes:
        """The bytes that may be handed out: all before the first answer that rests on more than is written."""
        frames = []
        for answer in self.answers:
            if answer.rests_on > written:
                break
            frames.append(answer.frame)
        return b"".join(frames)[self.left :]

    def took(self, count: int) -> None:
        """The peer took so many bytes."""
        self.held -= count
        self.left += count
        while self.answers and self.left >= len(self.answers[0].frame):
            self.left -= len(self.answers.popleft().frame)

    def view(self, written: int) -> View:
        """What a host sees of it, where so many entries are written."""
        return View(self.wait is not None, len(self.unread), self.held, self.may_offer, self.ready(written))
