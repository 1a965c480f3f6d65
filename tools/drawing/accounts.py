"""An account as who waited and who met: a line for each client, and a column for each entry that is shown."""
import collections
import heapq
import json

from tests.model.calls import KINDS
from tools.drawing.picture import BAD, FAINT, INK, PALE, Picture
from tools.drawing.words import hello_words, item_words, place_words

LEFT, TOP, ROW = 110, 50, 60
# How wide a column is; where there are more columns than have words, all of them together are so wide.
COLUMN, WORDY, WIDE = 76, 200, 15_200
COLOURS = {"giving": "#2a7f62", "taking": "#3b6ea5", "exchanging": "#8e5ea2", "looking": FAINT}


def side_of(act):
    """The side of a request; what is none looks on."""
    return KINDS[act["call"]].side if "call" in act else "looking"


def colour_of(act):
    """The colour of its side."""
    return COLOURS[side_of(act)]


class Entry:
    """A line of an account."""

    def __init__(self, line):
        moment, partners, body = line.split(" ", 2)
        self.moment = int(moment)
        self.partners = [] if partners == "-" else [int(place) for place in partners.split(",")]
        self.act = {"kind": "tick"} if body == "tick" else json.loads(body)

    def limit(self):
        """The moment at which it times out, if it has one."""
        wait = self.act.get("wait")
        return self.moment + wait if isinstance(wait, int) else None

    def stays(self):
        """Whether its item or its client may be there behind it."""
        waits = self.act.get("wait") not in (None, "now", 0)
        return self.act["kind"] == "request" and not self.partners and (waits or self.rests())

    def rests(self):
        """Whether its item may be met behind its reply, as a put's."""
        return "call" in self.act and KINDS[self.act["call"]].rests

    def colour(self):
        """The colour of its side."""
        return colour_of(self.act)


class Ends:
    """Where each request that stays has its end, by its place, and whether it was met: found in one pass."""

    def __init__(self, entries):
        self.at, self.open, self.waiting, self.limits = {}, {}, collections.defaultdict(set), []
        for place, entry in enumerate(entries):
            self.take_in(place, entry)

    def take_in(self, place, entry):
        """Ends what an entry ends, and opens its own request."""
        for partner in entry.partners:
            self.end(partner, place, True)
        kind = entry.act["kind"]
        if kind in ("hello", "cancel"):
            for request in sorted(self.waiting[entry.act["client"]]):
                self.end(request, place, False)
        while kind == "tick" and self.limits and self.limits[0][0] <= entry.moment:
            self.end(heapq.heappop(self.limits)[1], place, False)
        if entry.stays():
            self.begin(place, entry)

    def begin(self, place, entry):
        """A request stays. An item of a put waits for nobody: only who takes it ends it."""
        self.open[place] = entry.act["client"]
        if not entry.rests():
            self.waiting[entry.act["client"]].add(place)
        if entry.limit() is not None:
            heapq.heappush(self.limits, (entry.limit(), place))

    def end(self, request, place, met):
        """A request is met, or given up, unless it was before."""
        if request in self.open:
            self.at[request] = (place, met)
            self.waiting[self.open.pop(request)].discard(request)


class Columns:
    """Which entries are shown, and where: all of a window, or of it what one queue has to do with."""

    def __init__(self, entries, ends, window, queue):
        first, last = window
        shown = range(max(first, 0), min(last, len(entries) - 1) + 1)
        if queue is not None:
            own = {place for place, entry in enumerate(entries) if entry.act.get("queue") == queue}
            own |= {ends.at[place][0] for place in own if place in ends.at}
            shown = [place for place in shown if place in own]
        self.places, self.first = list(shown), first
        self.step = COLUMN if len(self.places) <= WORDY else max(4, WIDE // len(self.places))
        self.wordy = self.step == COLUMN
        self.x, self.folds, at, before = {}, [], LEFT + 30, first - 1
        for place in self.places:
            if place > before + 1 and self.wordy:
                self.folds.append((at, place - before - 1))
                at += self.step
            self.x[place], at, before = at, at + self.step, place
        self.right = at

    def end_of(self, place):
        """Where a bar ends that ends at a place, or at none."""
        return self.x.get(place, self.right)


def draw_account(lines, mark=None, window=(0, float("inf")), queue=None):
    """The picture of an account, or of those of its entries that lie in a window, or have to do with a queue."""
    entries, picture = [Entry(line) for line in lines[1:]], Picture()
    ends = Ends(entries)
    columns = Columns(entries, ends, window, queue)
    drawn = columns.places + [place for place, (end, _) in ends.at.items() if place < columns.first and end in columns.x
                              and (queue is None or entries[place].act.get("queue") == queue)]
    rows = rows_of(entries, drawn)
    picture.text((10, 20), lines[0], size=14)
    for client, y in rows.items():
        picture.text((10, y + 4), f"client {client}")
        picture.line(((LEFT, y), (columns.right, y)), PALE)
    bottom = TOP + 20 + ROW * len(rows)
    draw_axis(picture, entries, columns, mark, bottom)
    for place in drawn:
        draw_entry(picture, entries, place, (ends, columns, rows))
    explain(picture, bottom + 40)
    picture.reach(columns.right + 30, bottom + 60)
    return picture.svg()


def rows_of(entries, places):
    """The height of each client that has to do with these places."""
    named = {partner for place in places for partner in entries[place].partners if partner < len(entries)}
    clients = {entries[place].act["client"] for place in {*places, *named} if "client" in entries[place].act}
    return {client: TOP + 30 + ROW * number for number, client in enumerate(sorted(clients))}


def draw_axis(picture, entries, columns, mark, bottom):
    """The place and the moment below each column, a line through each tick, and how many entries are left out."""
    for place in columns.places:
        x, colour = columns.x[place], BAD if place == mark else INK
        if columns.wordy:
            picture.text((x, bottom - 4), f"{place}", colour, "middle", 11)
            picture.text((x, bottom + 12), f"{entries[place].moment} ms", BAD if place == mark else FAINT, "middle", 10)
        if entries[place].act["kind"] == "tick" or place == mark:
            picture.line(((x, TOP), (x, bottom - 18)), BAD if place == mark else FAINT, "5 4")
    for x, count in columns.folds:
        picture.text((x, bottom - 4), f"… {count} …", FAINT, "middle", 10)


def draw_entry(picture, entries, place, drawing):
    """What one entry is: a hello, a tick, a cancel, or a request with its bar and its partners."""
    ends, columns, rows = drawing
    entry, act = entries[place], entries[place].act
    x = columns.x.get(place, LEFT)
    if act["kind"] == "tick":
        picture.text((x, TOP - 6), "tick" if columns.wordy else "", FAINT, "middle", 11)
        return
    y = rows[act["client"]]
    if entry.stays():
        end, met = ends.at.get(place, (None, True))
        picture.bar((x, y), columns.end_of(end) - x, entry.colour() if met else FAINT)
    for partner in entry.partners:
        if partner < len(entries) and place in columns.x:
            draw_meeting(picture, entries, (place, partner), x, rows)
    if place in columns.x:
        picture.dot((x, y), entry.colour())
        write_entry(picture, act, (x, y), columns.wordy)


def write_entry(picture, act, at, wordy):
    """What an entry says, above its dot, and below it where it acts."""
    if not wordy:
        return
    colour = colour_of(act)
    if act["kind"] != "request":
        words = "cancel" if act["kind"] == "cancel" else hello_words(act["incarnation"], act.get("version"))
        picture.text((at[0], at[1] - 12), words, FAINT, "middle", 10)
        return
    greatest = [str(act["max"])] if "max" in act else []
    words = " ".join([act["call"], *greatest, *(text[:12] for text in item_words(act))])
    picture.text((at[0], at[1] - 12), words, colour, "middle", 10)
    picture.text((at[0] + 6, at[1] + 20), place_words(act), FAINT, size=9)


def draw_meeting(picture, entries, pair, x, rows):
    """The arrow of a pair, from who gives to who takes; of a swap, both ways."""
    act, other = (entries[place].act for place in pair)
    if "client" not in other:
        return
    giver, taker = (other, act) if side_of(act) == "taking" else (act, other)
    ends = tuple((x, rows[one["client"]]) for one in (giver, taker))
    picture.line(ends, INK, arrow="both" if act.get("call") == "swap" else "end", width=2)


def explain(picture, y):
    """What the colours and lines stand for."""
    for number, side in enumerate(("giving", "taking", "exchanging")):
        at = 20 + 140 * number
        picture.bar((at, y), 30, COLOURS[side])
        picture.text((at + 38, y + 4), f"{side}, waits", FAINT, size=10)
    picture.bar((440, y), 30, FAINT)
    picture.text((478, y + 4), "met nobody", FAINT, size=10)
    picture.line(((570, y), (600, y)), INK, arrow="end", width=2)
    picture.text((608, y + 4), "the item goes there", FAINT, size=10)
