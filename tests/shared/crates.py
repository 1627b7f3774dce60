"""The crates of the repository, what they are made of, and how one is checked with some of its texts changed."""

import argparse
import contextlib
import fcntl
import functools
import os
import pathlib
import re
import shutil
import subprocess
import sys
import tempfile
from concurrent.futures import FIRST_COMPLETED, ThreadPoolExecutor, wait

TOP = pathlib.Path(__file__).resolve().parents[2]

# The folders that a check reads.
PARTS = ("src", "specs", "proofs")


def arguments(about):
    """A parser of a script's arguments, whose help is what the script says about itself."""
    return argparse.ArgumentParser(description=about, formatter_class=argparse.RawDescriptionHelpFormatter)


def named(name):
    """The crate of a name that a script was given."""
    if name not in known():
        raise argparse.ArgumentTypeError(f"no crate is called {name}")
    return known()[name]


class Crate:
    """A line of crates.txt: a crate, its kind, and the libraries that it names."""

    def __init__(self, name, is_static, names, folder=None):
        self.name, self.is_static, self.names = name, is_static, names
        self.folder = folder or TOP / "crates" / name
        self.root = "src/main.rt" if any(self.folder.glob("src/main.rt*")) else "src/lib.rt"

    def libraries(self):
        """The crates of the repository that it stands on, the lowest first."""
        found = []
        for name in self.names:
            if name in known():
                found += [*known()[name].libraries(), known()[name]]
        return list(dict.fromkeys(found))

    @functools.lru_cache(maxsize=None)
    def lines(self, path):
        """The lines of one of its files, by its path in the crate."""
        return (self.folder / path).read_text().split("\n")

    def built(self):
        """The library that a run of `rt ci`, of `rt lib` or of `build` left."""
        return self.folder / "out/rlib" / f"{self.name}.rlib"

    def kept(self):
        """Where its checks keep what they proved."""
        return self.folder / "out/incremental"

    def is_program(self):
        """Whether it is a program."""
        return self.root == "src/main.rt"

    def has_tests(self):
        """Whether it has unit tests."""
        return (self.folder / "tests").exists()

    def is_older(self, made):
        """Whether a file that was made of the crate is missing, or some source is not older than it."""
        if not made.exists():
            return True
        # The time of a change is the system's own: a copy of an old file, or one moved here, is new by it.
        parts = [crate.folder / part for crate in [*self.libraries(), self] for part in PARTS]
        sources = [path for part in parts if part.exists() for path in [part, *part.rglob("*")]]
        return max(path.stat().st_ctime for path in [TOP / "crates.txt", *sources]) >= made.stat().st_mtime

    def check(self, texts, flags, kept, jobs=1, before=()):
        """The lines of a check of a copy with these texts in place of its own, over what `kept` holds.

        The words `before` the compiler's are those of a command that runs it.
        """
        with tempfile.TemporaryDirectory(prefix="check-") as copy:
            for part in PARTS:
                if (self.folder / part).exists():
                    shutil.copytree(self.folder / part, f"{copy}/{part}")
            for path, text in texts.items():
                pathlib.Path(copy, path).parent.mkdir(parents=True, exist_ok=True)
                pathlib.Path(copy, path).write_text(text)
            run = self.run("check", "--incremental", kept, "--jobs", str(jobs), *flags, folder=copy, before=before)
        return run.stdout.splitlines()

    def run(self, verb, *flags, folder=None, before=()):
        """A compiler's call over the libraries that are built, in its folder or in a copy of that."""
        return subprocess.run([*before, *self.command(verb), *flags], cwd=folder or self.folder, stdin=subprocess.DEVNULL,
                              stdout=subprocess.PIPE, stderr=subprocess.STDOUT, text=True, errors="replace")

    def command(self, verb):
        """The words of a compiler's call over the libraries that are built."""
        words = [kit() / "bin/rattle", verb, "--crate-name", self.name, self.root]
        words += ["--antt-project", kit() / "rattle/logic/antt-project.json", "--logic-built", kit() / "logic_built"]
        words += ["-L", f"dependency={kit()}/rlibs", *(["--crate-type", "staticlib"] if self.is_static else [])]
        for name in ["std", *self.names]:
            words += ["--extern", f"{name}={known()[name].built() if name in known() else kit() / 'rlibs' / (name + '.rlib')}"]
        for crate in self.libraries():
            words += ["-L", f"dependency={crate.built().parent}"]
        return words


@functools.lru_cache(maxsize=None)
def known():
    """The crates of crates.txt by their names."""
    return listed(TOP / "crates.txt", TOP / "crates")


@functools.lru_cache(maxsize=None)
def benched():
    """What the benchmarks and the comparison of answers lay out, by name, where its sources stand."""
    folders = [TOP / "bench/core", TOP / "tests/answers"]
    return {name: crate for folder in folders for name, crate in listed(folder / "programs.txt", folder).items()}


def listed(file, folder):
    """The crates of a list by their names, whose own folders are in this one."""
    found = {}
    for line in file.read_text().splitlines():
        if line and not line.startswith("#"):
            name, *kind = line.partition(":")[0].split()
            found[name] = Crate(name, "staticlib" in kind, line.partition(":")[2].split(), folder / name)
    return found


@functools.lru_cache(maxsize=None)
def kit():
    """The folder of the toolchain."""
    if not shutil.which("rt"):
        raise SystemExit("no rt is on the PATH: README.md names the toolchain that it is of")
    said = subprocess.run(["rt", "doc"], capture_output=True, text=True, check=True).stdout
    return pathlib.Path(said.strip()).parent


def build(crates, report=lambda crate, done, total: None):
    """Builds those that these crates stand on that are missing or not newer than their sources, beside each other."""
    with locked([crate.folder for crate in older(crates)]) as held, ThreadPoolExecutor(processors()) as pool:
        # Another run may have built some of them before it let go of their folders.
        left, running = [crate for crate in older(crates) if crate.folder in held], {}
        total = len(left)
        while left or running:
            for crate, jobs in startable(left, running.values()):
                running[pool.submit(build_one, crate, jobs)] = crate, jobs
                left.remove(crate)
            for ended in wait(running, return_when=FIRST_COMPLETED).done:
                crate, _ = running.pop(ended)
                if said := ended.result():
                    raise SystemExit(f"{said[-3000:]}{crate.name}: is not proved")
                report(crate, total - len(left) - len(running), total)


def older(crates):
    """Those that these crates stand on that are missing or not newer than their sources, the lowest first."""
    found = []
    for crate in sorted({it for crate in crates for it in crate.libraries()}, key=lambda it: len(it.libraries())):
        # What stands on a library that is built anew goes with it.
        if crate.is_older(crate.built() / "format") or not set(found).isdisjoint(crate.libraries()):
            found.append(crate)
    return found


def renew():
    """Gives the libraries that `rt ci` took from an earlier run of the same files the time of now, the lowest first: rt proves
    a library again that is older than one that it stands on. Each is a file of its own afterwards."""
    for crate in sorted(known().values(), key=lambda it: len(it.libraries())):
        made = crate.built() / "format"
        if made.exists():
            shutil.copyfile(made, made.with_suffix(".new"))
            made.with_suffix(".new").replace(made)


@contextlib.contextmanager
def locked(folders):
    """Waits for whatever works in these folders, as each rt does in a crate's, and keeps others out."""
    with contextlib.ExitStack() as held:
        for folder in sorted(folders):
            opened = os.open(folder, os.O_RDONLY)
            held.callback(os.close, opened)
            fcntl.flock(opened, fcntl.LOCK_EX)
        yield folders


def startable(left, running):
    """The crates that wait for none, the longest chain first, and the jobs of each, as far as processors are idle.

    Each gets the idle processors but one for those after it.
    """
    waiting = {*left, *(crate for crate, _ in running)}
    ready = sorted((crate for crate in left if waiting.isdisjoint(crate.libraries())), key=lambda it: -chain(it))
    idle = processors() - sum(jobs for _, jobs in running)
    started = []
    for crate in ready:
        if idle:
            others = len(ready) > len(started) + 1 and idle > 2
            started.append((crate, min(4, idle - others)))
            idle -= started[-1][1]
    return started


def build_one(crate, jobs):
    """Proves a library, and keeps what others can cite of it; what a build that failed printed."""
    # What rt keeps of an older build goes away, so that rt takes none of this one for its own.
    shutil.rmtree(crate.built().parent, ignore_errors=True)
    crate.built().parent.mkdir(parents=True)
    run = crate.run("build", "--statements", "--jobs", str(jobs), "-o", crate.built())
    return run.stdout if run.returncode else ""


def archive(crate):
    """The static library of a crate, proved and built where that is not done; what was proved stays beside it."""
    build([crate])
    made = crate.folder / "out" / f"lib{crate.name}.a"
    with locked([crate.folder]):
        if crate.is_older(made):
            # What fails must leave no library of older sources.
            made.unlink(missing_ok=True)
            made.parent.mkdir(exist_ok=True)
            flags = ["--incremental", crate.kept(), "--jobs", str(processors())]
            run = crate.run("build", *flags, "--toolchain", kit() / "toolchain", "-o", made)
            if run.returncode:
                raise SystemExit(f"{run.stdout[-3000:]}{crate.name}: is not proved")
    return made


def program(crate, report=lambda crate, done, total: None):
    """A program, proved and built after the crates that it stands on, where that is not done."""
    build([crate], report)
    made = crate.folder / "out" / crate.name
    if not crate.is_older(made):
        return made
    made.parent.mkdir(exist_ok=True)
    toolchain = ["--toolchain", kit() / "toolchain"]
    run = crate.run("build", *toolchain, "--backend", "llvm", "--jobs", str(processors()), "-o", f"{made}.o")
    if run.returncode:
        raise SystemExit(f"{run.stdout[-3000:]}{crate.name}: is not proved")
    linked = [f"{made}.o", kit() / "c/libos_c.a", kit() / "c/liblibc_c.a"]
    words = ["--target", "x86_64-unknown-linux-gnu", *toolchain, "-o", made, *linked]
    subprocess.run([kit() / "bin/rattle-link", *words], check=True)
    return made


@functools.lru_cache(maxsize=None)
def chain(crate):
    """How many lines the crate has, and the longest chain of crates that stand on it."""
    files = [path for part in PARTS for path in (crate.folder / part).rglob("*") if path.is_file()]
    lines = sum(path.read_bytes().count(b"\n") for path in files)
    return lines + max((chain(it) for it in known().values() if crate.name in it.names), default=0)


@functools.lru_cache(maxsize=None)
def processors():
    """How many checks can run at a time: RT_JOBS, or one a processor, and no more than memory holds."""
    wanted = int(os.environ.get("RT_JOBS") or len(os.sched_getaffinity(0)))
    kilobytes = re.search(r"MemAvailable: *(\d+)", pathlib.Path("/proc/meminfo").read_text())[1]
    return max(1, min(wanted, int(kilobytes) // 3_000_000))
