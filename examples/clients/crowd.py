"""A day's work over a bad link: three producers hand items over to three consumers, and whatever connects them to the server
breaks again and again. Each session keeps its record in the file of RV_RECORD.

usage: crowd.py ADDRESS CONNECTIONS
  CONNECTIONS   how many the server takes; those that the day left are spent at its end
"""
import random
import socket
import sys
import threading

from rendezvous import Session

PAIRS, ITEMS, QUEUE = 3, 40, 3
# A connection carries between these numbers of bytes, each way, before it breaks.
SHORTEST, LONGEST = 500, 4_000


class BadLink:
    """Listens at an address of its own, and carries bytes to and from the server until the connection breaks."""

    def __init__(self, server, connections):
        self.server, self.left = server, connections
        self.listener = socket.create_server(("127.0.0.1", 0))
        self.address = "%s:%d" % self.listener.getsockname()
        threading.Thread(target=self.listen, daemon=True).start()

    def listen(self):
        """Meets whoever comes."""
        while True:
            near, _ = self.listener.accept()
            far = self.connect()
            for source, sink in ((near, far), (far, near)):
                threading.Thread(target=self.carry, args=(source, sink), daemon=True).start()

    def connect(self):
        """One of the connections that the server takes."""
        self.left -= 1
        return socket.create_connection(self.server)

    def carry(self, source, sink):
        """Carries bytes one way, and breaks the connection in the middle of them while enough are left to come back by."""
        most = random.randint(SHORTEST, LONGEST) if self.left > 4 * PAIRS else sys.maxsize
        try:
            while most and (piece := source.recv(min(most, 4_096))):
                sink.sendall(piece)
                most -= len(piece)
        except OSError:
            pass
        for end in (source, sink):
            try:
                end.shutdown(socket.SHUT_RDWR)
            except OSError:
                pass

    def spend(self):
        """Makes the connections that the server still waits for."""
        while self.left:
            self.connect().close()


def produce(link, name, received):
    """Hands items over, each until it is received."""
    with Session(link.address) as session:
        for number in range(ITEMS):
            session.transfer(QUEUE, f"item {number} of {name}")
            received.append(name)


def consume(link, taken):
    """Takes as many."""
    with Session(link.address) as session:
        for _ in range(ITEMS):
            taken.append(session.take(QUEUE))


def main(address, connections):
    """The day."""
    host, port = address.rsplit(":", 1)
    link, received, taken = BadLink((host, int(port)), int(connections)), [], []
    crowd = [threading.Thread(target=produce, args=(link, f"producer {pair}", received)) for pair in range(PAIRS)]
    crowd += [threading.Thread(target=consume, args=(link, taken)) for _ in range(PAIRS)]
    for one in crowd:
        one.start()
    for one in crowd:
        one.join()
    print(f"{len(received)} transfers were received, and {len(set(taken))} items taken")
    link.spend()


main(*sys.argv[1:])
