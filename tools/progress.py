"""How far a proof of several crates is: on a terminal one line that is written anew each second, else a line for each crate
that ends."""
import shutil
import sys
import threading
import time

from tools import proved

# How much of the work tells the pace of the rest.
ENOUGH = 0.1


def weight(name):
    """About how long a crate's proof takes beside that of another one, by what there is to read."""
    folder = proved.ROOT / "crates" / name
    files = [path for kind in ("src", "specs", "proofs") for path in (folder / kind).rglob("*") if path.is_file()]
    return sum(path.stat().st_size for path in files) ** 0.75


class Progress:
    """Which crates have ended, which are being proved, for how long, and about how long still."""

    def __init__(self, crates, jobs, out=sys.stderr, clock=time.monotonic):
        self.crates, self.jobs, self.out, self.clock = crates, jobs, out, clock
        self.weights, self.ended, self.began, self.over = {name: weight(name) for name in crates}, [], clock(), threading.Event()
        self.tell(f"proving {len(crates)} crates, {jobs} at a time{self.now()}")
        if out.isatty():
            threading.Thread(target=self.go_on, daemon=True).start()

    def now(self):
        """The crates that wait for no other: as many as are proved at a time."""
        ready = [crate for crate in self.crates if crate not in self.ended
                 and set(proved.standing_on(crate)) <= {crate, *self.ended}]
        return f"; now {', '.join(ready[:self.jobs])}" if ready else ""

    def still(self):
        """About how long still at the pace so far, once there is one."""
        done = sum(self.weights[crate] for crate in self.ended) / sum(self.weights.values())
        if done < ENOUGH or len(self.ended) == len(self.crates):
            return ""
        return f"; about {max(1, round((self.clock() - self.began) / 60 * (1 / done - 1)))} min still"

    def line(self):
        """All of it, in one line."""
        minutes, seconds = divmod(int(self.clock() - self.began), 60)
        return f"{len(self.ended)} of {len(self.crates)} crates proved in {minutes}:{seconds:02}{self.now()}{self.still()}"

    def tell(self, words):
        """Writes a line, in place of the last one on a terminal."""
        if self.out.isatty():
            words = f"\r\033[K{words[:shutil.get_terminal_size().columns - 1]}"
        print(words, end="" if self.out.isatty() else "\n", file=self.out, flush=True)

    def go_on(self):
        """Writes the line anew each second, until all is over."""
        while not self.over.wait(1):
            self.tell(self.line())

    def end(self, crate):
        """A crate has ended."""
        self.ended.append(crate)
        self.tell(self.line() if self.out.isatty() else f"{crate} ended; {self.line()}")

    def close(self):
        """All is over: what comes next on a terminal begins a line of its own."""
        self.over.set()
        if self.out.isatty():
            print(file=self.out, flush=True)
