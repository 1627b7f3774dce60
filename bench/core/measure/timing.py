"""Benchmark programs that run and answer commands (`timer/timer.c` has them), timed in turn, round by round."""

import os
import subprocess
import time
from statistics import median, quantiles

# A timing takes about as much processor time, in nanoseconds, and at least so many passes, beside which
# what is done once is little.
TARGET = 6_000_000
FEWEST = 8

# A round is taken again where a fixed loop takes so much longer around it than at its fastest: others on the same host can
# slow a processor down for seconds at a time. How fast it can be is looked at for some seconds before.
SLOWER = 1.1
LOOKED = 20


class Pace:
    """How fast a processor is."""

    def __init__(self, core):
        self.core, self.patience, self.rounds, self.again = core, 0, 0, 0
        self.best, end = self.loop(), time.monotonic() + LOOKED
        while time.monotonic() < end:
            self.best = min(self.best, self.loop())
            time.sleep(0.01)

    def loop(self):
        """The seconds of a fixed loop, on the processor of the programs where they have one."""
        everywhere = os.sched_getaffinity(0)
        if self.core is not None:
            os.sched_setaffinity(0, {self.core})
        begun = time.process_time()
        sum(range(100_000))
        taken = time.process_time() - begun
        os.sched_setaffinity(0, everywhere)
        return taken

    def is_slow(self):
        """Whether it is slower now than it has been."""
        taken = min(self.loop() for _ in range(3))
        self.best = min(self.best, taken)
        return taken > SLOWER * self.best

    def steady(self, take):
        """What a round gives that was taken while the processor was fast, as long as the patience lasts."""
        self.rounds += 1
        while True:
            begun, was_slow = time.monotonic(), self.is_slow()
            found = take()
            if not (was_slow or self.is_slow()) or self.patience <= 0:
                return found
            self.again += 1
            self.patience -= time.monotonic() - begun

    def words(self):
        """How many rounds were taken, and taken again."""
        return f"Of {self.rounds + self.again} rounds {self.again} were taken again, since the processor was slower around them."


class Program:
    def __init__(self, words, core=None):
        """Starts it, on one processor where its number is given."""
        bound = (lambda: os.sched_setaffinity(0, {core})) if core is not None else None
        pipes = {"stdin": subprocess.PIPE, "stdout": subprocess.PIPE}
        self.process = subprocess.Popen(list(map(str, words)), text=True, preexec_fn=bound, **pipes)

    def ask(self, *words):
        """The number that answers a command."""
        print(*words, file=self.process.stdin, flush=True)
        line = self.process.stdout.readline()
        if not line:
            raise SystemExit(f"{self.process.args[0]} ended at {' '.join(map(str, words))}")
        return int(line)

    def close(self):
        self.process.stdin.close()
        self.process.wait()


class Programs:
    """The programs of all sides, each in its orders, with the same bytes."""

    def __init__(self, sides, folder, pace):
        self.sides = {side: programs for side, programs in sides.items() if programs}
        self.input, self.pace = folder / "input", pace

    def load(self, data):
        self.input.write_bytes(data)
        for programs in self.sides.values():
            for program in programs:
                program.ask("load", self.input)

    def offered(self, hows, piece=0):
        """Who does what: a side and a how for each that a side offers. Ends where two differ."""
        sums = {
            (side, how): {program.ask("check", how, piece) for program in programs}
            for side, programs in self.sides.items()
            for how in hows[side]
        }
        if len({one for each in sums.values() for one in each if one}) != 1:
            raise SystemExit(f"the sides differ: {sums}")
        return [job for job, each in sums.items() if 0 not in each]

    def passes(self, job, piece=0):
        """How many passes take about TARGET."""
        side, how = job
        program, passes = self.sides[side][0], 1
        while (taken := program.ask("time", how, piece, passes)) < TARGET / 8 and passes < 1 << 30:
            passes *= 4
        return max(FEWEST, round(passes * TARGET / max(taken, 1)))

    def time(self, jobs, rounds, orders, patience, piece=0):
        """The nanoseconds of a pass, by job: a list for each order, of one for each round."""
        self.pace.patience = patience
        passes = {job: self.passes(job, piece) for job in jobs}
        times = {job: [[] for _ in orders] for job in jobs}
        for turn in range(rounds):
            first = turn % len(jobs)
            turned = jobs[first:] + jobs[:first]
            for order in orders:
                taken = self.pace.steady(lambda: [self.time_one(job, order, piece, passes[job]) for job in turned])
                for job, each in zip(turned, taken):
                    times[job][order].append(each)
        return times

    def time_one(self, job, order, piece, passes):
        """The nanoseconds of a pass."""
        side, how = job
        program = self.sides[side][order % len(self.sides[side])]
        return program.ask("time", how, piece, passes) / passes


def typical(times):
    """The median over the orders, of the medians over the rounds."""
    return median(median(rounds) for rounds in times)


def ratio(times, others):
    """How often longer than others': the median over the orders, of the medians over the rounds, and
    the first and the last tenth of all."""
    by_order = [
        [mine / other for mine, other in zip(*rounds) if other] for rounds in zip(times, others)
    ]
    every = [each for order in by_order for each in order]
    low, *_, high = quantiles(every, n=10) if len(every) > 1 else (every[0], every[0])
    return median(map(median, by_order)), low, high
