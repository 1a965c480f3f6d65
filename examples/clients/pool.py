"""A pool of two workers, each of which dies once in the middle of a job, and is started anew.

What was received was assigned to one worker: it is never offered again, so it is never done twice. What
nobody received is still the boss's, who offers it again. By the receipts the boss knows which worker had a
job that was not done.

usage: pool.py ADDRESS                  the boss, who starts the workers
       pool.py ADDRESS new|again        a worker, which was started the first time, or behind a death
"""
import subprocess
import sys

from rendezvous import Session

JOBS, RESULTS = 3, 4
# Whoever gets one of these dies of it, where it was not started anew.
DEADLY = ("job 2", "job 3")


def work(address, start):
    """Tells who it is, takes jobs and tells what came of them, until there are no more."""
    with Session(address) as session:
        print(session.client, session.incarnation, flush=True)
        for job in session.items(JOBS):
            if job == "no more":
                break
            if job in DEADLY and start == "new":
                sys.exit(1)
            session.put(RESULTS, f"{job} is done")


class Boss:
    """Hands jobs over, and starts a worker anew that died."""

    def __init__(self, address):
        self.address, self.workers, self.takers = address, {}, {}
        self.session = Session(address)

    def start(self, name, start):
        """A worker, which leases a number that is free. The number of one that died is, and the new hello ends what that one had
        waiting."""
        words = [sys.executable, __file__, self.address, start]
        process = subprocess.Popen(words, stdout=subprocess.PIPE, text=True)
        client, incarnation = map(int, process.stdout.readline().split())
        self.workers[client, incarnation] = (name, process)

    def restart_the_dead(self):
        """Starts whoever died."""
        for name, process in list(self.workers.values()):
            if process.returncode is None and process.poll() is not None:
                print(f"worker {name} died, and is started anew")
                self.start(name, "again")

    def hand_over(self, job):
        """Offers a job until somebody receives it, and keeps whose request that was."""
        while not (receipt := self.session.try_transfer(JOBS, job, timeout=1)):
            print(f"{job} was received by nobody, and is offered again")
            self.restart_the_dead()
        print(f"{job} was received")
        self.takers[job] = receipt.by

    def run(self):
        """All jobs, and what came of them."""
        self.start(1, "new")
        self.start(2, "new")
        with self.session:
            for number in range(1, 6):
                self.hand_over(f"job {number}")
            for _ in range(2):
                while not self.session.try_transfer(JOBS, "no more", timeout=1):
                    self.restart_the_dead()
            for _, process in self.workers.values():
                process.wait()
            results = []
            while result := self.session.poll(RESULTS):
                results.append(result)
                del self.takers[result.removesuffix(" is done")]
        print(*sorted(results), sep="\n")
        for job, taker in self.takers.items():
            _, process = self.workers[taker.client, taker.incarnation]
            print(f"{job} was lost with its worker, which ended by {process.returncode}")


if len(sys.argv) == 2:
    Boss(sys.argv[1]).run()
else:
    work(*sys.argv[1:])
