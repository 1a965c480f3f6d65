"""Random plays: lines of `rv play`, good ones and bad ones, with what the model of the world answers to each."""
from tests.model.account import Hello
from tests.model.scripts import Script
from tests.model.texts import MAX_IDENTIFIER
from tests.model.world import Idle, New, Outstanding, World, growth_fault, lists_of, world_fault

ODD_NUMBERS = [b"", b"0", b"00", b"01", b"+1", b"-1", b"1.0", b"x", b" 1", b"1 ", b"1\r", "１".encode(), b"9" * 15,
               b"9007199254740991", b"9007199254740992", b"9" * 19, b"1".zfill(19), b"1".zfill(20), b"1" + b"0" * 19,
               b"18446744073709551615", b"18446744073709551616", b"9" * 30]
WORDS = [b"start", b"begin", b"resend", b"cancel", b"crash", b"server", b"client", b"epoch"]
ODD_LINES = [b"", b" ", b"\r", b"start", b"stop 1", b"Start 1 1", b"begin", b"settled", b"bad line", b"\xff", b"0 {}"]


class Play:
    """One world's lines. What comes next is chosen by the world that the model has so far."""

    def __init__(self, chance):
        self.chance = chance
        self.world = World()
        self.script = Script(chance, 1)
        self.clients = self.script.clients[: chance.choice([2, 3, 4, 16])]
        self.losses = chance.choice([0, 0.05, 0.3])
        self.repeats = chance.choice([0.05, 0.3, 0.6])
        self.restarts = chance.choice([0.003, 0.02, 0.1])
        self.epochs = chance.choice([0, 0.004, 0.02])
        self.seen = {"server": 0, "client": 0}

    def odds(self, likelihood):
        """True so often."""
        return self.chance.random() < likelihood

    def line(self):
        """One line more, and the text that answers it."""
        line = self.event()
        if self.odds(0.03):
            line = self.spoilt(line)
        line = line.replace(b"\n", b" ")
        return line, self.world.play(line).encode()

    def event(self):
        """A line, mostly of an event that may come."""
        if self.odds(self.epochs):
            return b"epoch %d" % max(1, self.world.accounts[-1].epoch + self.chance.choice([1, 1, 2, 0, -1]))
        if self.odds(self.restarts):
            return self.restart()
        return self.chance.choice([self.delivery, self.delivery, self.delivery, self.speech])()

    def delivery(self):
        """A packet comes: the next one that did not, unless the link loses it; or an earlier one, again or late."""
        to = self.chance.choice(["server", "client"])
        count = len(self.world.to_server if to == "server" else self.world.to_client)
        while self.seen[to] < count and self.odds(self.losses):
            self.seen[to] += 1
        packet = self.seen[to]
        if count and self.odds(self.repeats):
            packet = self.chance.choice([self.chance.randrange(count), max(0, count - self.chance.randint(1, 4))])
        elif packet < count:
            self.seen[to] += 1
        else:
            return self.speech()
        if self.odds(0.01):
            packet = self.chance.choice([count, count + 1, 10**19 - 1])
        return b"client %d" % packet if to == "client" else b"server %d %s" % (packet, self.script.moment())

    def restart(self):
        """A client starts or crashes."""
        client = self.chance.choice(self.clients)
        return b"crash %d" % client if self.odds(0.4) else self.start(client)

    def start(self, client):
        """A client starts, mostly in a greater incarnation."""
        newest = max((earlier for other, earlier in self.world.started if other == client), default=0)
        if self.odds(0.005):
            newest = MAX_IDENTIFIER - 1
        line = b"start %d %d" % (client, max(1, newest + self.chance.choice([1] * 12 + [2, 0, -1])))
        return line + b" 2" if self.odds(self.script.seconds) else line

    def speech(self):
        """A client says what its process may say, or now and then something else."""
        client = self.chance.choice(self.clients)
        process = self.world.processes.get(client)
        choices = [b"begin", b"resend", b"cancel", b"crash"]
        match process:
            case None:
                choices += [b"start"] * 20
            case New() if self.odds(0.9):
                return self.greeting(process)
            case Idle():
                choices += [b"begin"] * 20
            case Outstanding():
                choices = [b"resend"] * 6 + [b"cancel"] * 2 + [b"begin"]
        word = self.chance.choice(choices)
        if word == b"start":
            return self.start(client)
        return b"%s %d" % (word, client) + (b" " + self.call() if word == b"begin" else b"")

    def greeting(self, new):
        """The hello of a new process comes to the server, or the last answer to its client comes to it."""
        answers = [k for k, (client, _) in enumerate(self.world.to_client) if client == new.client]
        if answers and self.odds(0.5):
            return b"client %d" % answers[-1]
        hello = self.world.to_server.index(Hello(new.client, new.incarnation, new.version))
        return b"server %d %s" % (hello, self.script.moment())

    def call(self):
        """A call text, mostly a good one."""
        members = self.script.call()
        if self.odds(0.04):
            self.script.spoil(members)
        if self.odds(0.02):
            members.update(client=1, epoch=1, incarnation=1, number=1)
        text = self.script.text(members).encode()
        return self.script.spoilt_body(text) if self.odds(0.03) else text

    def spoilt(self, line):
        """A line of another form, or nearly so."""
        words = line.split(b" ")
        at = self.chance.randrange(1, len(words)) if len(words) > 1 else 0
        odd = lambda new: b" ".join([*words[:at], new, *words[at + 1 :]])
        return self.chance.choice([
            odd(self.chance.choice(ODD_NUMBERS)), odd(self.chance.choice(ODD_NUMBERS)),
            b" ".join([self.chance.choice(WORDS), *words[1:]]), self.chance.choice(ODD_LINES), b" " + line,
            line + b" ", line + b"\r", line.replace(b" ", b"  ", 1), line.replace(b" ", b"\t", 1), line[:-1],
            b" ".join(words[:-1]), line + b" 1", line + b" 2", line + b" 3", line + b" 02", line.upper(), line + b"\x00",
        ])


def make_play(chance, count, kind=Play):
    """So many lines of a world's play, each with the text that the program must print; and what the world then
    breaks of the headline, if something."""
    play = kind(chance)
    middle = chance.randrange(count)
    lines = [play.line() for _ in range(middle)]
    before = lists_of(play.world)
    lines += [play.line() for _ in range(count - middle)]
    return lines, world_fault(play.world) or growth_fault(before, play.world)


def play_fault(chance):
    """What a random play breaks of the headline, if something."""
    return make_play(chance, 300)[1]
