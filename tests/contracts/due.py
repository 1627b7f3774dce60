"""Which wrong bodies the merge gate tries: those of what changed since it last passed on this machine, and a share of all."""

import os
import pathlib
import subprocess
import tempfile

import changes
import crates
import rules
import wrong_bodies

# The commits that the gate passed on this machine, a line for each with the logic of its toolchain, the last one at the end.
PASSED = pathlib.Path(os.environ.get("XDG_CACHE_HOME") or pathlib.Path.home() / ".cache") / "tarnwhisk" / "passed"

# The functions of each source have their turn at one of so many commits that change a crate, with the next of their mutants, and
# constants and wrong bodies by hand at one of so many. What has its turn stands together in the tree: each check has some
# seconds of its own, so a few of many wrong bodies cost less than many of a few.
TURNS, TURNS_BY_HAND = 24, 48


class Due:
    """What is due at this commit, of the wrong bodies of all crates."""

    def __init__(self):
        since, logic = last_passed(PASSED)
        # Another logic proves all anew.
        self.is_all = since is not None and logic != logic_of(printed("rt", "version"))
        self.has_self_test = self.is_all or since is None or changes.differ(since, "tests")
        # Where nothing is known to have passed, the share is tried alone.
        lines = changes.changed(since) if since else {}
        self.changed = {crate: changes.Change(crate, since, lines) for crate in crates.known().values()}
        self.turn = int(changes.git("rev-list", "--count", "HEAD", "--", "crates"))
        self.sources = sources_at("HEAD")

    def of(self, wrong):
        """Those that are due, of the wrong bodies of each crate.

        What the crates below it promise doesn't decide: a body that breaks a promise of its own crate breaks it over
        any of theirs.
        """
        if self.is_all:
            return wrong
        share = set(self.share_of(wrong))
        return {crate: [it for it in its if it in share or self.changed[crate].concerns(it)] for crate, its in wrong.items()}

    def share_of(self, wrong):
        """A share of all wrong bodies, another one for each commit that changes a crate: what else is committed doesn't choose."""
        sources = part(self.sources, self.turn, TURNS)
        made, by_hand = {}, []
        for crate, it in ((crate, it) for crate, its in wrong.items() for it in its):
            if not isinstance(it, wrong_bodies.Mutant) or it.rule == rules.CONSTANT_RULE:
                by_hand.append((it, 1))
            elif sources & {f"crates/{crate.name}/{path}" for path in it.changes}:
                made.setdefault(it.function.name, []).append(it)
        for its in made.values():
            yield its[self.turn // TURNS % len(its)]
        yield from part(by_hand, self.turn, TURNS_BY_HAND)


def sources_at(commit):
    """The paths of all sources at a commit, each with how many bytes it has."""
    lines = changes.git("ls-tree", "-r", "--format=%(path) %(objectsize)", commit, "--", "crates").splitlines()
    return [(path, int(size)) for path, size in map(str.split, lines) if path.endswith(".rt")]


def part(sized, turn, turns):
    """Those that begin in the part of the whole whose turn it is."""
    whole, begun, found = sum(size for _, size in sized), 0, set()
    for it, size in sized:
        if begun * turns // whole == turn % turns:
            found.add(it)
        begun += size
    return found


def last_passed(file):
    """The last commit of this one's history that a gate passed, and the logic by which; nothing where none is known."""
    lines = file.read_text().splitlines() if file.exists() else []
    return next((tuple(line.split()) for line in reversed(lines) if is_ancestor(line.split()[0])), (None, None))


def keep_passed(file, logic):
    """Keeps that a gate passed this commit, where the tree is as the commit has it; the last hundred are kept."""
    if not changes.git("status", "--porcelain"):
        lines = [*(file.read_text().splitlines() if file.exists() else []), f"{changes.git('rev-parse', 'HEAD').strip()} {logic}"]
        file.parent.mkdir(parents=True, exist_ok=True)
        new = file.with_name(f"{file.name}.{os.getpid()}")
        new.write_text("".join(f"{line}\n" for line in lines[-100:]))
        new.replace(file)


def amiss():
    """What is wrong with the parts of an example, each of which stands together, and with what is kept of commits that passed."""
    sized = [("a", 5), ("b", 1), ("c", 9), ("d", 2), ("e", 1)]
    found = [sorted(part(sized, turn, 3)) for turn in range(3, 6)]
    with tempfile.TemporaryDirectory() as folder:
        kept = pathlib.Path(folder, "passed")
        kept.write_text(f"{changes.git('rev-parse', 'HEAD').strip()} this\n{'0' * 40} other\n")
        passed = last_passed(kept)[1], last_passed(kept.with_name("none"))
    return [f"tests/contracts/due.py: the parts are {found}"] * (found != [["a", "b"], ["c"], ["d", "e"]]) \
        + [f"tests/contracts/due.py: what passed is {passed}"] * (passed != ("this", (None, None)))


def is_ancestor(commit):
    """Whether a commit is in the history of this one."""
    words = ["git", "merge-base", "--is-ancestor", commit, "HEAD"]
    return not subprocess.run(words, cwd=crates.TOP, capture_output=True).returncode


def logic_of(version):
    """What proofs depend on, of the line by which a toolchain names itself."""
    return version.split(" logic ")[1]


def printed(*words):
    """The line that a command prints."""
    return subprocess.run(words, capture_output=True, text=True, check=True).stdout.strip()
