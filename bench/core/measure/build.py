"""Builds the benchmark programs: each side's functions, and the timer linked with them."""

import os
import re
import shutil
import subprocess
from pathlib import Path

import ours

CORE = Path(__file__).resolve().parent.parent

# Debian's sources of crates, where its packages are installed.
DEBIAN_CRATES = Path("/usr/share/cargo/registry")

DEBIAN_GO = Path("/usr/share/gocode")
PGPROTO3 = DEBIAN_GO / "src/github.com/jackc/pgproto3/v2"

# The linker shuffles the functions by a number. 0 leaves them as they are.
ORDERS = (0, 1, 2)

# What is taken of the original.
LAYER = re.compile(r"src/(error\.rs|io/\w+\.rs|message/\w+\.rs)")


def output(*words, **rest):
    """What a program prints. Ends with its complaint where it fails."""
    if not shutil.which(words[0]):
        raise SystemExit(f"no {words[0]}: docs/BENCHMARKS.md names the packages")
    run = subprocess.run(words, capture_output=True, text=True, **rest)
    if run.returncode:
        raise SystemExit(f"{' '.join(map(str, words))}:\n{run.stdout}{run.stderr}")
    return run.stdout


def files_of(source):
    """The files of the original's layer, by their path in the crate. Each has its path as its name, or
    the path with -- for each / and .txt after it."""
    found = {}
    for file in source.rglob("*"):
        name = file.relative_to(source).as_posix().removesuffix(".txt").removeprefix("src--")
        path = name.replace("--", "/")
        if file.is_file() and LAYER.fullmatch(path):
            found[path] = file
    if "src/message/bind.rs" not in found:
        raise SystemExit(f"{source} has no src/message/bind.rs: unpack sqlx-postgres 0.9.0 there")
    return found


def cargo(folder):
    """Builds the static library of a Cargo package or workspace."""
    if DEBIAN_CRATES.is_dir():
        (folder / ".cargo").mkdir(exist_ok=True)
        (folder / ".cargo/config.toml").write_text(
            '[source.crates-io]\nreplace-with = "debian"\n'
            f'[source.debian]\ndirectory = "{DEBIAN_CRATES}"\n'
        )
    clean = {name: value for name, value in os.environ.items() if "RUSTFLAGS" not in name}
    output("cargo", "build", "--release", "--quiet", cwd=folder, env=clean | {"CARGO_TARGET_DIR": "target"})


def original(source, out):
    """The library of the original, whose files are copied unchanged beside the stand-ins."""
    folder = out / "original"
    for path, file in files_of(source).items():
        to = folder / "layer" / path
        to.parent.mkdir(parents=True, exist_ok=True)
        shutil.copyfile(file, to)
    cargo(folder)
    return [folder / "target/release/liboriginal.a"]


def postgres_protocol(out):
    cargo(out / "peer")
    return [out / "peer/target/release/libpeer.a"]


def link(out, side, archives, *flags):
    """The timer with a side's functions, once in each order."""
    timer = out / f"{side}.o"
    output("cc", "-std=c11", "-O2", "-Wall", *flags, "-c", CORE / "timer/timer.c", "-o", timer)
    programs = []
    for order in ORDERS:
        program = out / f"{side}.{order}"
        shuffled = [f"-Wl,--shuffle-sections=.text*={order}"] if order else []
        output("cc", "-fuse-ld=lld", *shuffled, timer, *archives, "-lm", "-o", program)
        programs.append([program])
    return programs


def go(out):
    """The program over pgproto3, in one order, since its linker has no other. None without Go."""
    if not shutil.which("go") or not PGPROTO3.is_dir():
        return []
    program = out / "pgproto3"
    settings = {"GO111MODULE": "off", "GOPATH": str(DEBIAN_GO), "GOCACHE": str(out / "go-cache")}
    output("go", "build", "-o", program, ".", cwd=CORE / "pgproto3", env=os.environ | settings)
    return [[program]]


def build(source, out):
    """The programs of each side, in each order: a dict of lists of command lines."""
    for name in ("shared", "original", "peer"):
        shutil.copytree(CORE / name, out / name, dirs_exist_ok=True)
    return {
        "ours": link(out, "ours", ours.timed(out), "-DOURS"),
        "original": link(out, "original", original(source, out)),
        "postgres-protocol": link(out, "peer", postgres_protocol(out)),
        "pgproto3": go(out),
    }
