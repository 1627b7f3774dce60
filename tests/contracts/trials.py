"""Tries wrong bodies, many in a check, and judges each by the function that it changes."""

import contextlib
import functools
import io
import math
import os
import re
import resource
import shutil
import tempfile
import threading
import time
from concurrent.futures import ThreadPoolExecutor

import crates
import report
import wrong_bodies
from wrong_bodies import ACCEPTED, NOT_APPLIED, OF_SHAPE, REFUSED, UNCHECKED, UNDECIDED, UNREADABLE, Mutant

# How often one that isn't refused is put beside others.
TURNS = 2

# How many are in a check: each takes some time to start, and proves what its functions call, and a few long ones leave
# processors idle. They are fewer at the end, where some are tried again.
LEAST, LEAST_AGAIN, MOST = 10, 3, 40

# No more checks at a time than there are processors for, which they leave to whatever else runs.
PROCESSORS = threading.BoundedSemaphore(crates.processors())
NICE = ("nice", "-n", "19")


class Known:
    """What is proved of a crate, by checks before its wrong bodies and by those that try some of them."""

    def __init__(self, crate, proofs):
        self.crate, self.proofs = crate, proofs
        self.lock = threading.Lock()
        # The goals that stay open of right bodies, by function, without their answers or in the form of mutants.
        self.controls = {}

    @functools.cached_property
    def folder(self):
        """The folder of what is known, at first of what checks before it kept. It is made for the first check, under the lock."""
        folder = tempfile.TemporaryDirectory(prefix="proved-")
        if self.crate.kept().exists():
            shutil.copytree(self.crate.kept(), folder.name, copy_function=link_or_copy, dirs_exist_ok=True)
        return folder

    def can_begin(self):
        """Waits until what the crate stands on is proved, where that is done meanwhile; whether it is."""
        return self.proofs is None or all(map(self.proofs.have, self.crate.libraries()))

    def copy(self, to):
        """Copies what is known to a folder."""
        with self.lock:
            shutil.copytree(self.folder.name, to, copy_function=link_or_copy, dirs_exist_ok=True)

    def keep(self, proved):
        """Keeps what a check proved in a folder and nothing had before."""
        with self.lock:
            shutil.copytree(proved, self.folder.name, copy_function=add_missing, dirs_exist_ok=True)


def link_or_copy(source, to):
    """Gives a proved module another name, as rt does: a check replaces such a file, and never writes into it."""
    try:
        if source.endswith(".oantt"):
            os.link(source, to)
            return
    except OSError:
        # It is on another disk.
        pass
    shutil.copy2(source, to)


def add_missing(source, to):
    """Puts a file to where none is."""
    if not os.path.exists(to):
        link_or_copy(source, to)


class Trial:
    """Some wrong bodies of a crate, tried over what is known of it: many in a check, and the checks beside each other."""

    def __init__(self, known, wrong):
        self.known, self.crate, self.wrong, self.checks = known, known.crate, wrong, 0
        self.passed, self.failed = 0, 0
        # The mutants with a verdict, the functions of which one shows something, and those that have none left to try.
        self.tried, self.shown, self.mute = set(), set(), set()

    def show(self, it, verdict, why):
        """Counts a verdict, and prints it; returns what is tried in place of a mutant that shows nothing."""
        # A function that reports name otherwise would never be judged.
        is_known = "has no function" not in why
        shows_nothing = verdict not in (REFUSED, ACCEPTED, NOT_APPLIED) and (it.instead or verdict != UNCHECKED) and is_known
        self.tried.add(it)
        if isinstance(it, Mutant) and shows_nothing:
            print(f"shows nothing: {it}: {verdict}: {why}", flush=True)
            self.mute |= set() if it.instead else {it.function.name}
            return [it.instead] if it.instead else []
        if isinstance(it, Mutant):
            self.shown.add(it.function.name)
            is_listed = it.function.name in wrong_bodies.let_through()
            why = f"{why}; tests/contracts/accepted.txt says that nothing is shown of its function" if is_listed else why
            verdict = UNDECIDED if is_listed else verdict
        if verdict == it.due:
            self.passed += 1
            print(f"{verdict}: {it}", flush=True)
        else:
            self.failed += 1
            print(f"FAILED {it}: {verdict}: {why}", flush=True)
        return []

    def of_mute(self):
        """Of each function of which nothing is shown the next of its mutants; one that has none left fails."""
        again = []
        for name in sorted(self.mute - self.shown):
            left = [it for it in wrong_bodies.in_reach(self.crate, name) if it not in self.tried]
            again += left[:1]
            if not left and name not in wrong_bodies.let_through():
                self.failed += 1
                print(f"FAILED {name}: none of its mutants shows anything, and tests/contracts/accepted.txt doesn't say why", flush=True)
        self.mute.clear()
        return again

    def run(self):
        """Shows a verdict for each of them, once the crates are proved that its own stands on."""
        can_begin = self.known.can_begin()
        left = []
        for it in self.wrong:
            if it.why_not or not can_begin:
                self.show(it, NOT_APPLIED, it.why_not or "what its crate stands on is not proved")
            else:
                left.append(it)
        while left:
            # Beside other steps no processor is idle, so the checks are as few as can be, and the others begin with what the
            # first has proved.
            is_beside = bool(self.known.proofs)
            batches = batches_of(left, 1 if is_beside else crates.processors())
            first = int(is_beside and not self.checks)
            with ThreadPoolExecutor(len(batches)) as pool:
                left = [it for part in (batches[:first], batches[first:]) for again in pool.map(self.together, part) for it in again]
            left = left or self.of_mute()

    def check(self, batch, has_stray=True):
        """The report of a check of the functions that these change, with stray answers, or with answers as they are."""
        owners = {owner for it in batch for owner in it.owners - it.laws}
        texts = wrong_bodies.answers(self.crate, owners, has_stray, batch[0].is_bare)
        readers = set().union(*(it.readers for it in batch))
        return self.report({**texts, **wrong_bodies.texts(self.crate, batch)}, owners, readers)

    def report(self, texts, owners, readers=frozenset()):
        """The report of a check of some functions with some texts."""
        self.checks += 1
        functions = {owner.partition("::")[2] for owner in owners} | readers
        # A law that no function's proof reads is checked with all that is.
        only = [] if None in functions else [word for function in sorted(functions) for word in ("--only", function)]
        with tempfile.TemporaryDirectory(prefix="wrong-") as kept, PROCESSORS:
            self.known.copy(kept)
            said = self.crate.check(texts, only, kept, before=NICE)
            self.known.keep(kept)
        return report.Report(said)

    def together(self, batch):
        """Judges a batch by one check; returns what is to be tried again, or in place of what shows nothing."""
        if len(batch) == 1:
            return self.alone(batch[0])
        has_stray = batch[0].has_stray
        said = self.check(batch, has_stray)
        if not said.is_judged:
            return self.divided(batch, said)
        self.control([it for it in batch if verdict_of(it, said)[0] == report.OPEN_GOAL])
        again = []
        for it in batch:
            verdict, why = self.verdict(it, said)
            if self.is_next_bare(it, verdict):
                again.append(it)
                continue
            is_final = verdict == report.OPEN_GOAL or isinstance(it, Mutant) and (
                verdict == report.OF_SHAPE or verdict == report.PROVED and not has_stray)
            if is_final:
                again += self.show(it, NAMED[verdict], why)
                continue
            it.turns += 1
            # Only what waits could yet have an open goal beside a stray answer.
            it.has_stray = has_stray and verdict == report.WAITS
            it.avoids |= {name for owner in it.owners for name in said.waits_for(owner)}
            again.append(it)
        return again

    def divided(self, batch, said):
        """What is to be tried again of a batch whose text can't be read: alone what a hand made and stands on the named lines."""
        named = {(path, number - 1): words for path, number, words in said.unread()}
        bad = {it: where[0] for it in batch if (where := [at for at in sorted(named) if is_at(it, *at)])}
        again = []
        for it in batch:
            if isinstance(it, Mutant) and it in bad:
                again += self.show(it, UNREADABLE, named[bad[it]])
                continue
            if it in bad or not bad:
                it.turns = TURNS
            again.append(it)
        return again

    def is_next_bare(self, it, verdict):
        """Whether one is to be tried without answers, because those that stand there don't fit."""
        is_next = verdict == report.OF_SHAPE and not it.is_bare and not it.laws
        if is_next:
            it.is_bare, it.has_stray = True, True
        return is_next

    def control(self, batch):
        """Finds which goals stay open of right bodies in place of these, where they are without their answers or of another form."""
        new = [it for it in batch if (it.is_bare or it.control) and control_of(it) not in self.known.controls]
        if new:
            owners = {owner for it in new for owner in it.owners}
            texts = wrong_bodies.answers(self.crate, owners, True, new[0].is_bare)
            said = self.report({**texts, **wrong_bodies.texts(self.crate, [it.control for it in new if it.control])}, owners)
            self.known.controls |= {control_of(it): {goal for owner in it.owners for goal in said.goals(owner)} for it in new}

    def verdict(self, it, said):
        """The verdict of a check on one: a goal stays open that doesn't of the right body in its place."""
        verdict, why = verdict_of(it, said)
        if verdict != report.OPEN_GOAL or not (isinstance(it, Mutant) or it.is_bare):
            return verdict, why
        known = self.known.controls.get(control_of(it), ())
        new = [line for owner in it.owners for goal, line in said.goals(owner).items() if goal not in known]
        if known and not new:
            return report.OF_SHAPE, "no goal stays open that doesn't of the right body in its place"
        return verdict, (new or [why])[0]

    def alone(self, it):
        """Judges one by a check of its own, and by one with its answers as they are where no goal of it stays open."""
        said = self.check([it], it.has_stray)
        if it.has_stray and said.is_judged and not it.laws and verdict_of(it, said)[0] != report.OPEN_GOAL:
            said = self.check([it], has_stray=False)
        if not said.is_judged:
            unread = [f"{path}:{number}: {words}" for path, number, words in said.unread()]
            return self.show(it, UNREADABLE if unread else UNCHECKED, (unread or said.lines[-1:] or ["no line"])[0])
        self.control([it] if verdict_of(it, said)[0] == report.OPEN_GOAL else [])
        verdict, why = self.verdict(it, said)
        if self.is_next_bare(it, verdict):
            return [it]
        # A check that was ended says nothing of what it judges.
        return self.show(it, UNCHECKED if verdict == report.UNKNOWN else NAMED.get(verdict, UNDECIDED), why)


# What a check says of one, in the words of a verdict.
NAMED = {report.OPEN_GOAL: REFUSED, report.PROVED: ACCEPTED, report.OF_SHAPE: OF_SHAPE}


def control_of(it):
    """By what the right body in the place of one is known."""
    return min(it.owners), it.is_bare, bool(it.control)


def is_at(it, path, number):
    """Whether one stands on a line: a mutant anywhere in its function."""
    if isinstance(it, Mutant):
        return path in it.changes and it.function.first <= number <= max(it.function.body, it.function.last)
    return (path, number) in it.lines


class Proofs:
    """What a run of `rt ci` proves meanwhile, by the file that it prints to; a file `LOG.ended` tells its end."""

    def __init__(self, log):
        self.log, self.ended = log, log.with_name(f"{log.name}.ended")

    def have(self, crate):
        """Waits for the proof of a crate; whether there is one."""
        while not self.says(crate):
            if self.ended.exists():
                return self.says(crate)
            time.sleep(1)
        return True

    def says(self, crate):
        is_said = re.compile(rf"rt: {crate.name} (?:proved$|is kept:)", re.MULTILINE)
        return self.log.exists() and bool(is_said.search(self.log.read_text(errors="replace")))


def verdict_of(it, said):
    """The verdict on one: that of the first of its functions that has an open goal, else of the least decided."""
    order = [report.OPEN_GOAL, report.UNKNOWN, report.OF_SHAPE, report.WAITS, report.PROVED]
    return min((said.verdict(owner) for owner in sorted(it.owners)), key=lambda it: order.index(it[0]))


def batches_of(wrong, processors):
    """All of them, for a check each: no two that touch in one, and as many checks for each processor."""
    rounds = math.ceil(len(wrong) / (MOST * processors))
    least = LEAST_AGAIN if all(it.turns for it in wrong) else LEAST
    most = max(least, math.ceil(len(wrong) / (rounds * processors)))
    others = {it: sum(map(it.touches, wrong)) for it in wrong}
    batches = []
    # What touches most others comes first. Those of a file are together as far as can be, for a check proves also what
    # their functions call.
    for it in sorted(wrong, key=lambda it: (is_alone(it), it.has_stray, it.is_bare, -others[it], min(it.changes))):
        fitting = next((batch for batch in batches if len(batch) < most and can_join(it, batch)), None)
        if fitting:
            fitting.append(it)
        else:
            batches.append([it])
    return batches


def can_join(it, batch):
    """Whether one can stand beside those of a check."""
    first = batch[0]
    is_alike = it.has_stray == first.has_stray and it.is_bare == first.is_bare
    return is_alike and not is_alone(it) and not is_alone(first) and not any(map(it.touches, batch))


def is_alone(it):
    """Whether nothing can stand beside one."""
    return it.is_apart or it.turns >= TURNS


def amiss():
    """What is wrong with the judgement of a function of which no mutant can be read: it fails."""
    crate = next(iter(crates.known().values()))
    name = next(name for name, its in wrong_bodies.by_rules(crate).items() if len(its) > wrong_bodies.EACH)
    trial = Trial(Known(crate, None), [])
    with contextlib.redirect_stdout(io.StringIO()):
        for it in wrong_bodies.in_reach(crate, name):
            trial.show(it, UNREADABLE, "for a test")
        trial.of_mute()
    return [] if trial.failed == 1 else [f"tests/contracts/trials.py: a function of which nothing is shown fails {trial.failed} times"]


def of(crate, each=wrong_bodies.EACH):
    """The wrong bodies of a crate that its contracts must refuse."""
    made = [it for its in wrong_bodies.chains(crate, each).values() for it in its]
    return made + [it for it in wrong_bodies.by_hand(crate) if not it.seen_by]


def run(trials, proofs=None, failed=0):
    """Runs trials beside each other, each once it has its proofs; returns whether each had the verdict that is due."""
    begun, spent = time.monotonic(), resource.getrusage(resource.RUSAGE_CHILDREN)
    trials = [trial for trial in trials if trial.wrong]
    if not proofs:
        crates.build([trial.crate for trial in trials])
    with ThreadPoolExecutor(max(1, len(trials))) as pool:
        list(pool.map(Trial.run, trials))
    passed, checks = sum(trial.passed for trial in trials), sum(trial.checks for trial in trials)
    failed += sum(trial.failed for trial in trials)
    now = resource.getrusage(resource.RUSAGE_CHILDREN)
    seconds = now.ru_utime + now.ru_stime - spent.ru_utime - spent.ru_stime
    print(f"{passed + failed} wrong bodies in {checks} checks, {seconds:.0f} seconds of processors and {time.monotonic() - begun:.0f} in all")
    print(f"{passed} passed, {failed} failed")
    return not failed
