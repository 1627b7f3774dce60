"""Plants wrong bodies in sources that are laid out for tests: those that no contract refuses, each of which a test must catch.

Each body stands whole beside the right one, and is run where C says so: tests/contracts/caught/planted.c, which runs a test with each
of its own before the test itself.
"""

import collections
import pathlib
import re
import tempfile

import crates
import unproved
import wrong_bodies

SOURCES = [crates.TOP / "tests/contracts/caught" / name for name in ("planted.c", "planted.h")]

SWITCH = """\
//! Which wrong body is run.

unsafe extern "C" {
    fn is_planted(number: u32) -> i32;
}

pub fn is(number: u32) -> bool {
    unsafe { is_planted(number) != 0 }
}
"""

# In place of a test's name: each of all, and what it says of one is kept in a file.
EACH_TEST = "*"


def of(modules):
    """The wrong bodies that tests of some modules must catch."""
    mutants = (it for crate in crates.known().values() for its in wrong_bodies.chains(crate).values() for first in its for it in then(first))
    wrong = [*(it for crate in crates.known().values() for it in wrong_bodies.by_hand(crate)), *mutants]
    return [it for it in wrong if it.seen_by and it.seen_by.partition("::")[0] in modules]


def then(mutant):
    """A mutant and those that come in its place."""
    while mutant:
        yield mutant
        mutant = mutant.instead


def plant(wrong, folder):
    """Plants them in the crates that are laid out in a folder, by their numbers from 1; returns the lines of C that name them."""
    places = collections.defaultdict(list)
    for number, it in enumerate(wrong, 1):
        if it.why_not:
            raise SystemExit(f"{it}: {it.why_not}")
        for path, lines in wrong_bodies.texts(it.crate, [it]).items():
            for function in wrong_bodies.functions(it.crate, path):
                if function.name in it.owners:
                    places[it.crate, path, function].append((number, inside(it.crate, path, function, lines.split("\n"))))
    for (crate, path, function), choices in sorted(places.items(), key=lambda it: -it[0][2].first):
        file = folder / "crates" / crate.name / path
        lines = file.read_text().split("\n")
        chosen = "".join(f"if crate::planted::is({number}) {{{text}}} else " for number, text in choices)
        right = inside(crate, path, function, crate.lines(path))
        last = max(function.body, function.last)
        text = "\n".join(lines[function.body : last + 1])
        lines[function.body : last + 1] = [text[: opening(crate, path, function) + 1] + f"{chosen}{{{right}}}" + text[text.rindex("}"):]]
        file.write_text("\n".join(lines))
    for crate in {it.crate for it in wrong}:
        source = folder / "crates" / crate.name / "src"
        (source / "planted.rt").write_text(SWITCH)
        with open(source / "lib.rt", "a") as root:
            root.write("\nmod planted;\n")
    said = (str(it).replace("\\", "\\\\").replace('"', '\\"') for it in wrong)
    return "".join(f'{{"{it.seen_by}", {number}, "{name}"}},\n' for number, (it, name) in enumerate(zip(wrong, said), 1))


def opening(crate, path, function):
    """The place of the bracket that opens a function's body, in its line."""
    line = crate.lines(path)[function.body]
    return line.index("{") if line.rstrip().endswith("}") else line.rindex("{")


def inside(crate, path, function, lines):
    """What a function's body has between its brackets, in the lines of its file or in others with another body."""
    text = "\n".join(lines[function.body : max(function.body, function.last) + 1])
    return text[opening(crate, path, function) + 1 : text.rindex("}")]


def show_seen(log):
    """Prints which test fails with each mutant that a run's lines have as accepted; returns whether none does with some."""
    accepted = set(re.findall(r"^(?:FAILED (.*): accepted: |accepted: (.*)$)", log, re.MULTILINE))
    said = {it for pair in accepted for it in pair if it}
    found = [it for crate in crates.known().values() for its in wrong_bodies.by_rules(crate).values() for it in its if str(it) in said]
    for it in found:
        it.seen_by = EACH_TEST
    changed = {it.crate for it in found}
    tested = [crate for crate in crates.known().values() if crate.has_tests() and changed & {crate, *crate.libraries()}]
    with tempfile.TemporaryDirectory() as folder:
        made, names = unproved.lay_out_tests(tested, pathlib.Path(folder), False, found)
        passed, failed, said = unproved.run(made, names)
        if failed or not passed:
            raise SystemExit(f"{said[-3000:]}the tests themselves fail, or can't be built")
        (made / "c/seen").touch()
        seen = dict(reversed(line.split(" ", 1)) for line in (made / "c/seen").read_text().splitlines())
    for it in found:
        print(f"{it}  # seen by {seen[str(it)]}" if str(it) in seen else f"NOT SEEN: {it}")
    return len(seen) < len(found)
