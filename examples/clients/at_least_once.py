"""Jobs that must be done at least once: a boss offers each until it has a result, and two workers, one of which dies.

Workers take with a time, so that the take of one that was killed while it waited ends by itself; results come over a second
queue. A job whose worker died is offered again, so one that was done and not yet reported is done twice.

usage: at_least_once.py ADDRESS             the boss, who starts the workers
       at_least_once.py ADDRESS worker      a worker
"""
import subprocess
import sys
import time

from rendezvous import Session

JOBS, RESULTS = 5, 6
# The worker that gets a job with this behind it dies of it.
DEADLY = ", and die"


def work(address):
    """Tells who it is, takes jobs and tells what came of them, until there are no more."""
    with Session(address) as session:
        print(session.client, session.incarnation, flush=True)
        while (job := session.poll(JOBS, timeout=30)) != "no more":
            if job is not None and job.endswith(DEADLY):
                sys.exit(1)
            if job is not None:
                session.put(RESULTS, job)


class Boss:
    """Offers jobs, collects results, and offers again what a dead worker had."""

    def __init__(self, address):
        self.address, self.workers, self.takers, self.done, self.again = address, {}, {}, [], set()
        self.session = Session(address)

    def start(self):
        """A worker, which leases a number that is free: as the number of one that died is. Its client and incarnation are the
        receipts'."""
        process = subprocess.Popen([sys.executable, __file__, self.address, "worker"], stdout=subprocess.PIPE, text=True)
        client, incarnation = map(int, process.stdout.readline().split())
        self.workers[client, incarnation] = process

    def offer(self, job, item):
        """Hands a job over, and keeps whose request got it."""
        self.takers[job] = self.session.transfer(JOBS, item).by

    def is_dead(self, taker):
        """Whether the worker that got a job has ended since."""
        return self.workers[taker.client, taker.incarnation].poll() is not None

    def offer_again(self):
        """Starts a worker for each that died with a job, and offers what it had."""
        for job in [job for job, taker in self.takers.items() if self.is_dead(taker)]:
            self.again.add(job)
            self.start()
            self.offer(job, job)

    def collect(self):
        """Takes what results there are."""
        while result := self.session.poll(RESULTS):
            if self.takers.pop(result, None):
                self.done.append(result)

    def run(self):
        """All jobs, each until it has a result."""
        self.start()
        self.start()
        with self.session:
            for job in ("job 1", "job 2", "job 3"):
                self.offer(job, job + DEADLY if job == "job 2" else job)
            while self.takers:
                self.collect()
                self.offer_again()
                time.sleep(0.05)
            for process in self.workers.values():
                if process.poll() is None:
                    self.session.transfer(JOBS, "no more")
            for process in self.workers.values():
                process.wait()
        for job in sorted(self.done):
            print(f"{job} is done{', at another offer: its first worker died' if job in self.again else ''}")


if len(sys.argv) == 2:
    Boss(sys.argv[1]).run()
else:
    work(sys.argv[1])
