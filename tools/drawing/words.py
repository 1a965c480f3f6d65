"""Bodies in a few words."""
import json

# The consumer's key in a receipt.
BY = ("by_client", "by_incarnation", "by_number")


def item_words(body):
    """The item of a body in quotation marks, or each of its texts."""
    texts = [body["item"]] if "item" in body else body.get("texts", [])
    return [json.dumps(text, ensure_ascii=False) for text in texts]


def place_words(call):
    """The queue or exchanger of a call."""
    kind = "queue" if "queue" in call else "exchanger"
    return f"{kind} {call[kind]}"


def call_words(call):
    """A call in a few words."""
    greatest = [str(call["max"])] if "max" in call else []
    wait = [{"now": "now", "forever": "forever"}.get(call["wait"], f"{call['wait']} ms")] if "wait" in call else []
    return " ".join([call["call"], *greatest, *item_words(call), place_words(call), *wait])


def answer_words(answer):
    """An answer in a few words."""
    if answer["kind"] == "refused":
        return f"refused {answer['code']}"
    if answer["kind"] != "reply":
        return answer["kind"]
    counts = [f"{answer['items']}, {answer['consumers']}"] if "items" in answer and "consumers" in answer else []
    taker = [f"by {'/'.join(str(answer[name]) for name in BY)}"] if BY[0] in answer else []
    return " ".join([answer["reply"], *item_words(answer), *counts, *taker])


def hello_words(incarnation, version=None):
    """A hello in a word or two."""
    return " ".join(["hello", str(incarnation), *([f"v{version}"] if version else [])])
