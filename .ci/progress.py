"""How far rt ci is: crates, minutes, and what is likely left. On a terminal it is one line of standard error that stays current, else a line a
minute. What ./test, ./quick and ./prove share."""

import os
import re
import sys
import threading
import time

import crates
import gate_cost

IS_PROVED = re.compile(r"rt: (\w+) proved\b")
IS_KEPT = re.compile(r"rt: (\w+) is kept\b")
IS_REFUSED = re.compile(r"rt: (\w+)(: its tests are)? NOT PROVED\b")


def minutes(seconds):
    return f"{max(round(seconds / 60), 1)} min" if seconds >= 45 else "less than a minute"


class Work:
    """The crates that are to be proved, with what each is likely to cost."""

    def __init__(self, names, with_edits):
        rows = gate_cost.rows_of(crates.read(gate_cost.PATH)) if os.path.exists(gate_cost.PATH) else {}
        self.below = {name: [it for it in below if it in names] for name, (_, below) in crates.listed().items() if name in names}
        self.costs = {it: gate_cost.seconds_of(rows, it) for it in self.below}
        if not with_edits:
            self.costs = {it: (proof, 0) for it, (proof, _) in self.costs.items()}
        self.lanes = len(os.sched_getaffinity(0))

    def least(self, names):
        """Returns the seconds that these crates take at least: by the processors there are, and by the longest chain that waits for one another."""
        ends = {}
        # (crates.txt has lower ones first)
        for it in self.below:
            before = max((ends[below] for below in self.below[it]), default=0)
            ends[it] = before + self.costs[it][0] if it in names else before
        behind = max((ends[it] + self.costs[it][1] for it in names), default=0)
        return max(sum(sum(self.costs[it]) for it in names) / self.lanes, behind)

    def left(self, proved, kept, passed):
        """Returns how many seconds are likely left, by the pace so far, or None where nothing tells."""
        rest = set(self.below) - proved - kept
        done = self.least(proved)
        return self.least(rest) * passed / done if done else None


class Progress:
    """Hears the lines of rt ci, and tells how far it is."""

    def __init__(self, who, names, with_edits=False):
        self.who, self.work, self.began = who, Work(names, with_edits), time.monotonic()
        self.proved, self.kept, self.refused = set(), set(), []
        self.ended = threading.Event()
        self.ticker = threading.Thread(target=self.tick, daemon=True)

    def __enter__(self):
        self.tell()
        self.ticker.start()
        return self

    def __exit__(self, *_):
        self.ended.set()
        self.ticker.join()
        crates.show("")

    def hear(self, line):
        for told, pattern in ((self.proved, IS_PROVED), (self.kept, IS_KEPT)):
            found = pattern.match(line)
            if found and found[1] in self.work.below:
                told.add(found[1])
        found = IS_REFUSED.match(line)
        if found:
            self.refused.append(found[1])

    def text(self):
        passed, done, count = time.monotonic() - self.began, self.proved | self.kept, len(self.work.below)
        said = f"{self.who}: {len(done)} of {count} crates proved{' or kept' if self.kept else ''}, {int(passed // 60)} min"
        if self.refused:
            said += f"; not proved: {' '.join(dict.fromkeys(self.refused))}"
        elif len(done) == count:
            said += "; what runs now are edits, programs and tests"
        else:
            left = self.work.left(self.proved, self.kept, passed)
            said += f"; likely left: {minutes(left)}" if left is not None else ""
        return said

    def tell(self):
        if sys.stderr.isatty():
            crates.show(self.text())

    def tick(self):
        every = 2 if sys.stderr.isatty() else 60
        while not self.ended.wait(every):
            if sys.stderr.isatty():
                self.tell()
            else:
                print(self.text(), file=sys.stderr, flush=True)
