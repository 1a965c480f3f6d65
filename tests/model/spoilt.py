"""Random accounts as lines: those of the model's book, and what is left of them after one or two changes."""
from dataclasses import replace

from tests.model.account import (
    MAX_MOMENT, OTHER_SIDE, Account, Call, Cancel, Entry, Hello, Key, Request, Tick, arrivals, incarnation, is_open,
    last_number, limit, open_at, waiting)
from tests.model.calls import KINDS
from tests.model.lines import MAX_PARTNER, account_text
from tests.model.scripts import Script
from tests.model.texts import MAX_DRAIN, MAX_IDENTIFIER, NoReading, members_of, read_message, written

EPOCHS = [1, 1, 1, 1, 2, 7, MAX_IDENTIFIER]
OPENINGS = [0] * 12 + [1, 5, 1_000, MAX_MOMENT - 86_400_000, MAX_MOMENT - 5, MAX_MOMENT]
WAITS = ["now", "forever", 0, 1, 2, 5, 10, 86_400_000]
WORDS = list(KINDS)
NUMERALS = [b"", b"0", b"00", b"01", b"+1", b"-1", b"-0", b"1.0", b"1e0", b"0x1", b"1_0", b"x", b"-", b"--", b"tick",
            "１".encode(), "²".encode(), b"99998", b"99999", b"100000", b"100001", b"4611686018427387903",
            b"4611686018427387904", b"4611686018427387905", b"9223372036854775808", b"18446744073709551615",
            b"18446744073709551616", b"18446744073709551617", b"1" + b"0" * 19, b"9" * 30, b"0" * 5_000, b"9" * 5_000]
TICKS = [b"tick", b"tick ", b" tick", b"tick\r", b"\ttick", b"Tick", b"TICK", b"ticks", b"tic", b'"tick"', b"tick tick",
         b"-", b"", b"tick\0", b"hello"]
HEADS = [b"", b" ", b"epoch", b"epoch 1", b"epoch 1 opened", b"epoch 1 opened ", b"epoch 1 opened 0 ",
         b" epoch 1 opened 0", b"epoch 1 opened 0\r", b"epoch  1 opened 0", b"epoch 1  opened 0", b"epoch 1 opened  0",
         b"epoch\t1 opened 0", b"Epoch 1 opened 0", b"epoch 1 Opened 0", b"epoch 1 closed 0", b"epoch opened 0",
         b"epoch 1 0", b"1 0", b"tick", b"0 - tick", b"epoch 1 opened 0 0", b"epoch 1 opened 0 opened 0",
         b"epoch - opened 0", b"epoch 1 opened -"]
BODIES = [b"{}", b"[]", b"null", b"1", b'""', b"{", b"}", b"-", b'{"kind":"tick"}', b'{"kind":"welcome"}',
          b'{"client":1,"epoch":1,"incarnation":1,"kind":"welcome"}', b'{"code":1,"kind":"refused"}',
          b'{"client":0,"incarnation":1,"kind":"hello"}', b'{"client":9007199254740992,"incarnation":1,"kind":"hello"}',
          *(b'{"client":1,"incarnation":1,"kind":"hello","version":%s}' % told for told in [b"1", b"2", b"3", b'"2"', b"2.0"])]


class AccountScript(Script):
    """Lines of a book for its account: many wait, give up, start anew and swap, and few are repeated or refused."""

    def __init__(self, chance):
        super().__init__(chance, chance.choice(EPOCHS))
        self.now = chance.choice(OPENINGS)
        self.account = Account(self.account.epoch, self.now)
        self.clients = self.clients[: chance.choice([1, 2, 3, 4, 9])]
        self.queues = self.queues[: chance.choice([1, 1, 2])]
        self.steps = [1] * 20 + [0, 2]
        self.restarts = chance.choice([0.02, 0.05, 0.2])
        self.patience = chance.choice([0.5, 0.9])
        self.longs = chance.random() < 0.02
        self.leaps = chance.random() < 0.1
        self.swaps = chance.choice([0, 0.2, 0.6])
        self.drains = chance.choice([0, 0.3, 0.6])

    def body(self):
        """The body of a message."""
        greets = self.odds(self.restarts) or not self.account.entries
        return written(self.hello() if greets else self.of_a_key()).encode()

    def call(self):
        """The members of a call, often of one at the first exchanger."""
        if not self.odds(self.swaps):
            return super().call()
        wait = "forever" if self.odds(self.patience) else self.chance.choice([1, 5, 10, 20, 100])
        return {"call": "swap", "exchanger": self.queues[0], "item": self.item(), "wait": wait}


class SpoiltEntries:
    """An account's entries, some of which are changed, moved, dropped or doubled."""

    def __init__(self, chance, script, count):
        self.chance = chance
        self.script = script
        self.epoch, self.opened = script.account.epoch, script.account.opened
        self.entries = list(script.account.entries[:count])
        self.last = None

    def odds(self, likelihood):
        """True so often."""
        return self.chance.random() < likelihood

    def account(self):
        """The account as it is now."""
        return Account(self.epoch, self.opened, tuple(self.entries))

    def change(self):
        """Makes one change."""
        self.chance.choices(
            [self.partners, self.moment, self.order, self.drop, self.double, self.tick_in, self.tick_out, self.key,
             self.greeting, self.call, self.act, self.further, self.several, self.opening],
            [9, 5, 3, 3, 2, 2, 2, 3, 2, 6, 2, 12, 5, 1])[0]()

    def place(self, *kinds):
        """The place of an entry of one of these kinds, often the one that was changed last; none where none is there."""
        places = [j for j, entry in enumerate(self.entries) if not kinds or isinstance(entry.act, kinds)]
        if self.last not in places or self.odds(0.4):
            self.last = self.chance.choice(places) if places else None
        return self.last

    def set(self, place, **members):
        """Gives members of an entry other values."""
        self.entries[place] = replace(self.entries[place], **members)

    def several(self):
        """Some changes of one entry, so that it breaks more than one rule."""
        if self.place() is not None:
            if self.odds(0.4):
                self.late()
            for _ in range(self.chance.randint(2, 4)):
                at = self.last
                self.chance.choice([self.partners, self.moment, self.key, self.call, self.greeting])()
                self.last = at

    def opening(self):
        """Another opening moment or epoch."""
        first = self.entries[0].moment if self.entries else self.opened
        self.opened = self.chance.choice([0, max(0, first - 1), first, min(first + 1, MAX_MOMENT), MAX_MOMENT])
        if self.odds(0.4):
            self.epoch = self.chance.choice([1, 2, max(1, self.epoch - 1), MAX_IDENTIFIER])

    def partners(self):
        """Other partners: arrivals, any places near or far, none, itself or a later one."""
        paired = [j for j, entry in enumerate(self.entries) if entry.partners]
        drains = [j for j in paired if len(self.entries[j].partners) > 1]
        if paired and self.odds(0.6):
            self.last = self.chance.choice(drains if drains and self.odds(0.5) else paired)
        else:
            self.place(*self.chance.choice([[], [Request], [Request]]))
        if self.last is not None:
            self.set(self.last, partners=self.any_partners(self.last))

    def any_partners(self, j):
        """Partners for a place: those that it has, but for one change, or others."""
        named, other = list(self.entries[j].partners), self.any_partner(j)
        if self.odds(0.15):
            return tuple(self.fronts(j))
        if not named or self.odds(0.4):
            return () if other is None else (other,)
        at = self.chance.randrange(len(named))
        more = [] if other is None else [other]
        return tuple(self.chance.choice([
            named[:at] + named[at + 1 :], named[:at] + named[at + 1 :], named[:at] + more + named[at + 1 :],
            sorted(named[:at] + more + named[at + 1 :]), named + more, sorted(named + more), named[::-1],
            named[: at + 1] + named[at:], self.chance.sample(named, len(named)), named[:at], named + [named[-1] + 1],
            [partner + 1 for partner in named], named * 6,
        ]))

    def fronts(self, j):
        """Of the open arrivals that a place might meet, the oldest, so many as it may name or nearly so; now and then one is
        passed over."""
        act = self.entries[j].act
        if not isinstance(act, Request) or act.call.side not in OTHER_SIDE:
            return [0]
        meet = open_at(self.entries[:j], OTHER_SIDE[act.call.side], act.call.at)
        if len(meet) > 1 and self.odds(0.3):
            del meet[self.chance.randrange(min(act.call.may_name, len(meet) - 1))]
        return meet[: max(0, act.call.may_name + self.chance.choice([0, 0, 0, 1, -1]))]

    def any_partner(self, j):
        """A partner for a place: mostly one that might be right; or none."""
        act, named = self.entries[j].act, next(iter(self.entries[j].partners), None)
        earlier = arrivals(self.entries[:j])
        if isinstance(act, Request) and self.odds(0.5):
            meet = open_at(self.entries[:j], OTHER_SIDE.get(act.call.side), act.call.at)
            own = open_at(self.entries[:j], act.call.side, act.call.at)
            return self.chance.choice([*meet[:1], *meet[1:3], *meet[1:3], *meet[-1:], *own[-1:], None])
        near = [] if named is None else [max(0, named - 1), named + 1]
        far = [0, j, j + 1, len(self.entries) - 1, len(self.entries), MAX_PARTNER]
        return self.chance.choice([None, None, *near, *earlier[-4:], *earlier[-1:], self.chance.choice(far)])

    def late(self):
        """The entry comes at the limit of a request that waits, or beside it."""
        limits = self.limits(self.last)
        if limits:
            self.set(self.last, moment=min(self.chance.choice(limits) + self.chance.choice([-1, 0, 0, 1]), MAX_MOMENT))

    def limits(self, j):
        """The limits of the requests that wait before a place."""
        before = self.entries[:j]
        return [limit(before, r) for r in waiting(before) if limit(before, r) is not None]

    def moment(self):
        """Another moment, that of a neighbour, a limit, or one beside; now and then all that follow rise as well."""
        j = self.place()
        if j is None:
            return
        own, before = self.entries[j].moment, self.entries[j - 1].moment if j else self.opened
        others = self.limits(j) * 2
        near = [own - 1, own + 1, own + 1, before, before - 1, before - 1, before + 1]
        near += [*others, *(at - 1 for at in others)]
        moment = self.chance.choice([*near, *near, *near, 0, self.opened - 1, MAX_MOMENT])
        self.set(j, moment=min(max(0, moment), MAX_MOMENT))
        if self.odds(0.5):
            for k in range(j + 1, len(self.entries)):
                self.set(k, moment=min(MAX_MOMENT, max(self.entries[k].moment + max(0, moment - own), 0)))

    def renumber(self, name):
        """Gives each partner its new number, or leaves all of them as they are."""
        if self.odds(0.75):
            for k, entry in enumerate(self.entries):
                if entry.partners:
                    self.set(k, partners=tuple(max(0, name(partner)) for partner in entry.partners))

    def put_in(self, j, entry):
        """A further entry before a place."""
        self.renumber(lambda partner: partner + (partner >= j))
        self.entries.insert(j, entry)
        self.last = j

    def take_out(self, j):
        """An entry less."""
        del self.entries[j]
        self.renumber(lambda partner: partner - (partner > j))
        self.last = None

    def order(self):
        """Two neighbours change places, or an entry moves."""
        if len(self.entries) < 2:
            return
        if self.odds(0.5):
            j = self.chance.randrange(len(self.entries) - 1)
            self.entries[j : j + 2] = self.entries[j + 1], self.entries[j]
            self.renumber(lambda partner: {j: j + 1, j + 1: j}.get(partner, partner))
            return
        j = self.place()
        entry = self.entries[j]
        self.take_out(j)
        self.put_in(self.chance.randint(0, len(self.entries)), entry)

    def drop(self):
        """An entry is left out."""
        if self.entries:
            self.take_out(self.place(*self.chance.choice([[], [type(self.chance.choice(self.entries).act)]])))

    def double(self):
        """An entry comes again, at once or later."""
        j = self.place()
        if j is not None:
            self.put_in(self.chance.choice([j + 1, self.chance.randint(j + 1, len(self.entries))]), self.entries[j])

    def tick_in(self):
        """A further tick, mostly where it might be due."""
        j = self.chance.randint(0, len(self.entries))
        limits, own = self.limits(j), self.entries[j - 1].moment if j else self.opened
        moment = self.chance.choice([own, own + 1, *limits, *limits, *(at - 1 for at in limits)])
        self.put_in(j, Entry(min(moment, MAX_MOMENT), Tick(), self.chance.choice([()] * 4 + [(0,)])))

    def tick_out(self):
        """A tick is left out, or another one."""
        j = self.place(Tick)
        if j is not None:
            self.take_out(j)

    def key(self):
        """A key's epoch, client, incarnation or number is another."""
        j = self.place(Request, Cancel)
        if j is None:
            return
        key = self.entries[j].act.key
        name = self.chance.choice(["epoch", "client", "incarnation", "number", "number"])
        own = getattr(key, name)
        clients = self.script.clients if name == "client" else []
        other = self.chance.choice([own - 1, own + 1, own + 1, 1, MAX_IDENTIFIER, *clients])
        key = replace(key, **{name: min(max(1, other), MAX_IDENTIFIER)})
        self.set(j, act=replace(self.entries[j].act, key=key))

    def greeting(self):
        """A hello's client, incarnation or version is another."""
        j = self.place(Hello)
        if j is None:
            return
        hello = self.entries[j].act
        if self.odds(0.2):
            hello = replace(hello, version=3 - hello.version)
        elif self.odds(0.4):
            hello = replace(hello, client=self.chance.choice([*self.script.clients, 5_000]))
        else:
            number = self.chance.choice([hello.incarnation - 1, hello.incarnation + 1, 1, MAX_IDENTIFIER])
            hello = replace(hello, incarnation=min(max(1, number), MAX_IDENTIFIER))
        self.set(j, act=hello)

    def call(self):
        """An arrival has another call: its queue, its wait, its item or its word."""
        j = self.place(Request)
        if j is None:
            return
        call = self.entries[j].act.call
        name = self.chance.choice(["at", "wait", "item", "word", "word", *["max"] * 4 * (call.max is not None)])
        if name == "max":
            call = replace(call, max=min(max(1, call.max + self.chance.choice([-1, -1, 1, -3, 16])), MAX_DRAIN))
        elif name == "item":
            call = replace(call, item=self.chance.choice(["", "other"]) if call.item is not None else None)
        elif name == "at":
            call = replace(call, at=self.chance.choice([*self.script.queues, 0, 63]))
        else:
            word = call.word if name == "wait" else self.chance.choice(WORDS)
            call = self.any_call(word, call.at, call.wait if name == "word" else None)
        self.set(j, act=replace(self.entries[j].act, call=call))

    def any_call(self, word, at, wait=None):
        """A call of a word."""
        wait = self.chance.choice(WAITS) if wait is None else wait
        members = KINDS[word].members
        wait = 1 if wait == "now" and not KINDS[word].unmet else wait
        item = self.chance.choice(["a", "b"]) if "item" in members else None
        most = self.chance.choice([1, 2, 2, 3, MAX_DRAIN]) if "max" in members else None
        return Call(word, at, item, wait if "wait" in members else None, most)

    def act(self):
        """A request becomes the cancel of its key or a hello, a cancel a request, a hello a tick, a tick a hello."""
        j = self.place()
        if j is None:
            return
        match self.entries[j].act:
            case Request(key, _):
                self.set(j, act=self.chance.choice(
                    [Cancel(key), Cancel(key), Hello(key.client, key.incarnation + 1, self.chance.choice([1, 2]))]))
            case Cancel(key):
                self.set(j, act=Request(key, self.any_call(self.chance.choice(WORDS), self.script.queues[0])))
            case Hello():
                self.set(j, act=Tick())
            case Tick():
                self.set(j, act=Hello(self.chance.choice(self.script.clients), 1))

    def further(self):
        """A further entry of some client, at the end or before, that is right but for one thing, or nearly so."""
        j = self.chance.choice([len(self.entries), len(self.entries), self.chance.randint(0, len(self.entries))])
        before = self.entries[:j]
        client = self.free_client(before)
        current = incarnation(before, client) or 1
        number = last_number(before, client) + self.chance.choice([1] * 12 + [0, 2])
        key = Key(self.epoch, client, current, max(1, number))
        request = Request(key, self.meeting_call(before))
        act = self.chance.choice([request] * 9 + [Cancel(key), Hello(client, current + 1), Hello(client, current)])
        self.put_in(j, Entry(before[-1].moment if before else self.opened, act))
        self.set(j, partners=self.any_partners(j) if self.odds(0.6) else tuple(self.fronts(j)))

    def free_client(self, before):
        """A client, mostly one that said hello and waits for nothing."""
        waits = {before[r].act.key.client for r in waiting(before)}
        free = [entry.act.client for entry in before if isinstance(entry.act, Hello) and entry.act.client not in waits]
        return self.chance.choice(free) if free and self.odds(0.9) else self.chance.choice(self.script.clients)

    def meeting_call(self, before):
        """A call, mostly one that meets an arrival that may still be met."""
        there = [before[r].act.call for r in arrivals(before) if is_open(before, r)]
        if not there or self.odds(0.2):
            return self.any_call(self.chance.choice(WORDS), self.chance.choice(self.script.queues))
        met = self.chance.choice(there)
        words = [word for word, kind in KINDS.items() if kind.side == OTHER_SIDE[met.side]]
        return self.any_call(self.chance.choice(words), met.at)


class SpoiltLines:
    """An account's lines, in whose bytes something is changed."""

    def __init__(self, chance, script, text):
        self.chance = chance
        self.script = script
        self.lines = text.split(b"\n")[:-1]
        self.end = b"\n"

    def text(self):
        """The text as it is now."""
        return b"\n".join(self.lines) + (self.end if self.lines else b"")

    def change(self):
        """Makes one change."""
        self.chance.choices([self.field, self.body, self.byte, self.gap, self.head, self.ending, self.blank],
                            [6, 6, 3, 2, 2, 2, 1])[0]()

    def place(self):
        """The index of an entry's line; of the first line where there is no entry."""
        return self.chance.randrange(1, len(self.lines)) if len(self.lines) > 1 else 0

    def field(self):
        """Another moment, partner, epoch or opening moment."""
        at = self.chance.choice([0, *[self.place()] * 9]) if self.lines else None
        if at is None:
            return
        fields = self.lines[at].split(b" ", 2 if at else -1)
        name = self.chance.choice([0, 0, 1, 1, 1]) if at else self.chance.choice([1, 3])
        if name < len(fields):
            own = fields[name]
            other = self.chance.choice(NUMERALS)
            if at and name == 1 and self.chance.random() < 0.5:
                fields[name] = self.partner_list(own, other)
            else:
                fields[name] = self.chance.choice([other, b"0" + own, own + b"0", b"+" + own, own[1:]])
        self.lines[at] = b" ".join(fields)

    def partner_list(self, own, other):
        """A field of partners that is spoilt as a list, or another list."""
        place = b"%d" % self.chance.randrange(len(self.lines))
        many = b",".join(b"%d" % number for number in range(self.chance.choice([15, 16, 17, 100, 2_000])))
        return self.chance.choice([
            own + b",", b"," + own, b",", b",,", own + b",," + place, own + b"," + other, other + b"," + own,
            own + b"," + place, own + b"," + place, place + b"," + own, own + b"," + own, own + b",-", b"-," + own,
            own + b", " + place, own + b";" + place, own.replace(b",", b",0"), own.replace(b",", b"-"), many,
            own.replace(b",", b"", 1), own + b"," + place.zfill(2), own + b",99999", own + b",100000",
        ])

    def body(self):
        """Another body: the same message with white space and escapes, something that is no message, or a tick."""
        at = self.place() if self.lines else None
        fields = self.lines[at].split(b" ", 2) if at else []
        if len(fields) < 3 or not fields[2]:
            return
        body = fields[2]
        if body == b"tick":
            fields[2] = self.chance.choice(TICKS)
        else:
            fields[2] = self.other_body(body)
        self.lines[at] = b" ".join(fields).replace(b"\n", b" ")

    def other_body(self, body):
        """A body in the place of one that is compact."""
        kind = self.chance.randrange(4)
        if kind == 0:
            return self.script.spoilt_body(body)
        if kind == 1:
            return self.chance.choice([*BODIES, *TICKS])
        try:
            return self.script.text(members_of(read_message(body))).encode()
        except NoReading:
            return b" " + body

    def byte(self):
        """A byte more, less or other, anywhere."""
        at = self.chance.randrange(len(self.lines)) if self.lines else None
        if at is None or not self.lines[at]:
            return
        line, i = self.lines[at], self.chance.randrange(len(self.lines[at]))
        other = bytes([self.chance.choice([*b"0123456789 -\r\n\t\0,:{}\"\\", self.chance.randrange(256)])])
        self.lines[at] = self.chance.choice([line[:i] + line[i + 1 :], line[:i] + other + line[i:],
                                             line[:i] + other + line[i + 1 :]])

    def gap(self):
        """A space more or less, or a tab for one."""
        at = self.chance.randrange(len(self.lines)) if self.lines else None
        if at is not None:
            line, one = self.lines[at], self.chance.choice([1, 2])
            self.lines[at] = self.chance.choice([
                b" " + line, line + b" ", line + b"\r", b"\t" + line, line.replace(b" ", b"  ", one),
                line.replace(b" ", b"\t", one), line.replace(b" ", b"", one), line.rsplit(b" ", 1)[0],
                line + b" " + line])

    def head(self):
        """Another first line, or none."""
        epoch = self.chance.choice([self.chance.choice(NUMERALS), b"0", b"9007199254740991", b"9007199254740992"])
        opened = self.chance.choice([self.chance.choice(NUMERALS), b"4611686018427387904", b"4611686018427387905"])
        self.lines[:1] = self.chance.choice([
            [], [self.chance.choice(HEADS)], [self.chance.choice(HEADS)], [b"epoch %s opened 0" % epoch],
            [b"epoch 1 opened %s" % opened], self.lines[:1] * 2])

    def ending(self):
        """Another end: the last LF is missing, or there is one more, or a CR or other bytes; or each line has a CR."""
        self.end = self.chance.choice([b"", b"", b"", b"\n\n", b"\n \n", b"\r\n", b"\n\r\n", b"\n\0", b" \n", b"\ntick",
                                       b"\n0 - tick", b"\n\n\n"])
        if self.chance.random() < 0.1:
            self.lines = [line + b"\r" for line in self.lines]

    def blank(self):
        """A line without bytes, or nothing but such; or no line at all."""
        self.lines.insert(self.chance.randint(0, len(self.lines)), b"")
        if self.chance.random() < 0.1:
            self.lines = self.chance.choice([[], [b""], [b"", b""]])


def make_texts(chance, count):
    """So many texts of one book's account, or of its front: some as they are, most with one or two changes."""
    script = AccountScript(chance)
    is_long = chance.random() < 0.01
    for _ in range(chance.randint(200, 400) if is_long else chance.choice([0, 20, 40, 60, 80, 100, 100, 120, 120])):
        script.line()
    for _ in range(count):
        yield make_text(chance, script)


def make_text(chance, script):
    """One text of a book's account."""
    length = len(script.account.entries)
    entries = SpoiltEntries(chance, script, length if chance.random() < 0.3 else chance.randint(0, length))
    changes = chance.choices([0, 1, 2], [1, 10, 9])[0]
    in_lines = sum(chance.random() < 0.25 for _ in range(changes))
    for _ in range(changes - in_lines):
        entries.change()
    lines = SpoiltLines(chance, script, account_text(entries.account()))
    for _ in range(in_lines):
        lines.change()
    return lines.text()
