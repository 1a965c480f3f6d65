"""A play in plain words: what each line was, what each client was told, and the account that the answers make."""
import json

from tools.drawing.words import BY, answer_words, hello_words, item_words, place_words

WAITS = {"now": "if somebody is there now", "forever": "and waits"}


def compact(body):
    """A body as rv writes it."""
    return json.dumps(body, sort_keys=True, separators=(",", ":"), ensure_ascii=False)


def asked(call):
    """A call in plain words."""
    beside = {"put": "into", "transfer": "into", "swap": "at"}.get(call["call"], "from")
    wait = [WAITS.get(call["wait"], f"for up to {call['wait']} ms")] if "wait" in call else []
    return " ".join([call["call"], *item_words(call), beside, place_words(call)]) + "".join(f", {word}" for word in wait)


def answered(answer):
    """An answer in plain words."""
    if BY[0] in answer:
        return f"received, by client {answer['by_client']}'s request {answer['by_number']}"
    return answer_words(answer)


class Packet:
    """A message or an answer: what it says, how often it came, and whether a later one of its client came first."""

    def __init__(self, client, body, words):
        self.client, self.body, self.words, self.came, self.late = client, body, words, 0, False

    def come(self, later):
        """It comes: how, in a word or two."""
        self.late = self.late or not self.came and any(other.came for other in later if other.client == self.client)
        self.came += 1
        return "gets again" if self.came > 1 else "gets late" if self.late else "gets"

    def fate(self):
        """What becomes of it, if that is out of the way."""
        return " ... which is lost" if not self.came else " ... which comes late" if self.late else ""


class Story:
    """A play, told line by line: what each client took as final is in `told`, the account's lines in `entries`."""

    def __init__(self, events, results):
        self.told, self.entries, self.sent, self.answers, self.numbers, self.calls = {}, [], [], [], {}, {}
        self.parts = []
        for event, result in zip(events, results):
            word, *rest = event.split(" ", 2)
            self.parts.append(getattr(self, word)(*rest, result))

    def lines(self):
        """Its sentences, each with what becomes of what was sent there."""
        return [words + (packet.fate() if packet else "") for words, packet in self.parts]

    def account(self):
        """The account's lines."""
        return ["epoch 1 opened 0", *self.entries]

    # ---- what clients do

    def send(self, words, body):
        """A client sends a message."""
        self.sent.append(Packet(body["client"], body, body.get("call", body["kind"])))
        return words, self.sent[-1]

    def start(self, client, rest, _):
        """A client starts, and says hello."""
        incarnation, *version = map(int, rest.split(" "))
        self.numbers[client] = {"incarnation": incarnation, "number": 0}
        body = {"client": int(client), "incarnation": incarnation, "kind": "hello"}
        return self.send(f"client {client} says hello", {**body, "version": 2} if version else body)

    def begin(self, client, rest, _):
        """A client begins a call."""
        self.numbers[client]["number"] += 1
        call = json.loads(rest)
        self.calls[int(client)] = {"kind": "request", "client": int(client), "epoch": 1, **self.numbers[client], **call}
        return self.send(f"client {client} asks: {asked(call)}", self.calls[int(client)])

    def resend(self, client, _):
        """A client sends its request again."""
        body = self.calls[int(client)]
        return self.send(f"client {client} has no reply yet, and asks again: the same {body['call']}", body)

    # ---- what the link brings

    def server(self, number, moment, result):
        """A message comes to the server, which answers it."""
        message, answer = self.sent[int(number)], json.loads(result.split(" ", 2)[2])
        how = message.come(self.sent[int(number) + 1:])
        if not any(json.loads(line.split(" ", 2)[2]) == message.body for line in self.entries):
            self.enter(int(moment), message.body, answer)
        self.answers.append(Packet(message.client, answer, answered(answer)))
        words = f"    the server {how} client {message.client}'s {message.words}, and answers: {answered(answer)}"
        return words, self.answers[-1]

    def client(self, number, result):
        """An answer comes to its client."""
        answer = self.answers[int(number)]
        how = answer.come(self.answers[int(number) + 1:])
        if result == "ignored":
            return f"    client {answer.client} {how}, and passes over: {answer.words}", None
        if answer.body["kind"] == "reply":
            self.told.setdefault(answer.client, []).append(f"{asked(self.calls[answer.client])}: {answer.words}")
        return f"    client {answer.client} {how}: {answer.words}", None

    def enter(self, moment, body, answer):
        """A message takes effect: a line of the account, with the place of whom it met."""
        acts = [json.loads(line.split(" ", 2)[2]) for line in self.entries]
        partners = [str(place) for place, act in enumerate(acts) if meets(act, body, answer)]
        self.entries.append(f"{moment} {','.join(partners) or '-'} {compact(body)}")


def meets(other, body, answer):
    """Whether the answer to a request tells of another one: who gave its item, or who received it."""
    if "item" in answer:
        return other.get("item") == answer["item"] and other.get("queue") == body["queue"]
    key = [other.get(name.removeprefix("by_")) for name in BY]
    return BY[0] in answer and key == [answer[name] for name in BY]


def entry_words(line, opened=0):
    """A line of an account in plain words, its moment counted from the opening."""
    moment, partners, body = line.split(" ", 2)
    met = "" if partners == "-" else f"; it meets place {partners}"
    return f"{int(moment) - opened:>4} ms  {act_words(body)}{met}"


def act_words(text):
    """What an entry of an account is, in plain words."""
    if text == "tick":
        return "waits end"
    act = json.loads(text)
    words = {"hello": lambda: hello_words(act["incarnation"], act.get("version")), "cancel": lambda: "cancel"}
    return f"client {act['client']}: {words.get(act['kind'], lambda: asked(act))()}"
