"""What the Python client tells of a request, as the members of the server's answer."""
from rendezvous import replies
from tests.model.texts import TAKER

WORDS = {
    replies.Done: "done", replies.Receipt: "received", replies.Nobody: "nobody", replies.Item: "item",
    replies.Empty: "empty", replies.Swapped: "swapped", replies.TimedOut: "timedout", replies.Cancelled: "cancelled",
    replies.Counted: "counted", replies.Peeked: "peeked", replies.Drained: "drained"}


def reply_members(outcome):
    """The members of the reply that an outcome is."""
    more = {name: value for name, value in vars(outcome).items() if name not in ("key", "by")}
    if isinstance(outcome, replies.Receipt) and outcome.by:
        more = dict(zip(TAKER, outcome.by[1:]))
    if isinstance(outcome, replies.Drained):
        more = {"texts": list(outcome.items)}
    return {"reply": WORDS[type(outcome)], **more}


def answer_members(outcome):
    """The members of the answer that tells an outcome."""
    return {"kind": "reply", **outcome.key._asdict(), **reply_members(outcome)}
