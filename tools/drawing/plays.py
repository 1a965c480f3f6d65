"""A play as a sequence of packets: what each client said and heard, and what the link did with it."""
import json

from tools.drawing.picture import BAD, FAINT, INK, Picture
from tools.drawing.words import answer_words, call_words, hello_words

ROW, COLUMN, SIDE, TOP = 22, 230, 190, 50
# Words stand this far from a column.
ASIDE = 10


class Packet:
    """A message or an answer: its client, the row at which it was sent, and the rows at which it came."""

    def __init__(self, client, row, words):
        self.client, self.row, self.words, self.came = client, row, words, []


class Play:
    """The packets of a play, each way, and the words beside each column."""

    def __init__(self, events, results):
        self.sent, self.answers, self.notes, self.calls = [], [], [], {}
        for row, (event, result) in enumerate(zip(events, results)):
            self.walk(row, event, result)
        last = [row for packet in self.sent + self.answers for row in (packet.row, *packet.came)]
        self.rows = max([*last, *(note[1] for note in self.notes)], default=0) + 1
        self.clients = sorted({packet.client for packet in self.sent})

    def walk(self, row, event, result):
        """Takes in an event and its result."""
        word, _, rest = event.partition(" ")
        first = rest.split(" ")[0]
        number = int(first) if first.isdigit() else None
        if result.startswith("sent "):
            self.sent.append(Packet(number, row, self.said(word, number, rest)))
            self.notes.append((number, row, self.sent[-1].words, INK))
        elif result.startswith("answered "):
            packet = self.sent[number]
            packet.came.append(row)
            self.answers.append(Packet(packet.client, row, answer_words(json.loads(result.split(" ", 2)[2]))))
        elif word == "client" and number is not None and number < len(self.answers):
            self.hear(row, self.answers[number], result.split(" ")[0])
        elif result.startswith(("crashed", "opened")):
            self.notes.append((number if word == "crash" else None, row, result, INK))

    def hear(self, row, packet, seen):
        """Takes in an answer that came to its client, and what that made of it."""
        packet.came.append(row)
        if seen in ("welcomed", "settled"):
            self.notes.append((packet.client, row, packet.words, INK))
        elif seen != "refused":
            self.notes.append((packet.client, row, f"{packet.words}: {seen}", FAINT if seen == "ignored" else BAD))

    def said(self, word, client, rest):
        """What a message says."""
        if word == "start":
            incarnation, *version = rest.split(" ")[1:]
            return hello_words(f"{client}/{incarnation}", *version)
        if word == "begin":
            self.calls[client] = call_words(json.loads(rest.split(" ", 1)[1]))
            return self.calls[client]
        short = self.calls[client].split(" ")[0]
        return f"cancel of the {short}" if word == "cancel" else f"the {short}, again"


def columns_of(clients):
    """Where each client has its line, and where the server has: the second from the left."""
    places = {client: SIDE + COLUMN * (place + (place > 0)) for place, client in enumerate(clients)}
    return places, SIDE + COLUMN


def draw_play(events, results):
    """The picture of a play."""
    play, picture = Play(events, results), Picture()
    columns, server = columns_of(play.clients)
    bottom = TOP + ROW * play.rows
    for at, name in [*((at, f"client {client}") for client, at in columns.items()), (server, "server")]:
        picture.text((at, TOP - 22), name, anchor="middle", size=14)
        picture.line(((at, TOP - 12), (at, bottom)), FAINT)
    for packet in play.sent:
        draw_packet(picture, packet, (columns[packet.client], server), "")
    for packet in play.answers:
        draw_packet(picture, packet, (server, columns[packet.client]), f"{packet.words.split(' ')[0]} ")
    for client, row, words, colour in play.notes:
        at = columns.get(client, server)
        left = at < server
        picture.text((at + (-ASIDE if left else ASIDE), TOP + ROW * row + 4), words, colour,
                     "end" if left else "start", 11)
    explain(picture, bottom + 24)
    picture.reach(server + COLUMN, 0)
    return picture.svg()


def draw_packet(picture, packet, ends, words):
    """A packet's arrows: the first, and one for each further time that it came; or that it was lost."""
    start = (ends[0], TOP + ROW * packet.row)
    if not packet.came:
        lost = (start[0] + 0.55 * (ends[1] - start[0]), start[1] + 0.6 * ROW)
        picture.line((start, lost), BAD, "4 3")
        anchor, aside = ("end", -4) if ends[1] < ends[0] else ("start", 4)
        picture.text((lost[0] + aside, lost[1] + 4), f"✕ {words}lost", BAD, anchor, 11)
    for time, row in enumerate(packet.came):
        picture.line((start, (ends[1], TOP + ROW * row)), FAINT if time else INK, "4 3" if time else None, "end")


def explain(picture, y):
    """What the lines stand for."""
    for at, colour, dashes, words in [(30, INK, None, "it comes"), (180, FAINT, "4 3", "it comes again"),
                                      (370, BAD, "4 3", "it is lost")]:
        picture.line(((at, y), (at + 34, y)), colour, dashes, None if colour == BAD else "end")
        picture.text((at + 42, y + 4), words, FAINT, size=11)
