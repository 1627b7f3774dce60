"""Wrong bodies: those that a crate's file has, and those that rules make of its sources; and the functions that each changes."""

import collections
import functools
import hashlib
import re

import crates
import definitions
import rules
import sources

REFUSED, ACCEPTED, OF_SHAPE = "refused", "accepted", "refused for shape alone"
UNREADABLE, NOT_APPLIED, UNDECIDED, UNCHECKED = "does not read", "does not apply", "no verdict", "no check"

# The wrong bodies of a crate, the one that `rt ci` tries, and those by which the trials are tested.
BY_HAND, MUST_FAIL = "wrong.edits", "must-fail"
SELF_TEST = crates.TOP / "tests/contracts/self_test"

# The mutants that contracts let through, with the reason or the test that sees each.
LET_THROUGH = crates.TOP / "tests/contracts/accepted.txt"

# The word by which the mutants of a function are ranked, how many of them are its own, and how many are tried for each of these
# until one shows something.
WORD, EACH, TRIES = "tarnwhisk", 3, 4

# A constant that only its own file, or its own item, sees.
PRIVATE = re.compile(r" *const (\w+)\s*:")

IMPL = re.compile(r"impl\b.*?(\w+)(?:<[^{]*>)? for ")
TRAIT = re.compile(r"^(?:pub(?:\(\w+\))? )?trait (\w+).*?^\}", re.MULTILINE | re.DOTALL)


class WrongBody:
    """Lines in place of others in some files, and the functions whose contracts must refuse them."""

    def __init__(self, crate):
        self.crate, self.why_not, self.due, self.seen_by = crate, None, REFUSED, None
        # Its own file and lines, of one by hand.
        self.file, self.places = None, set()
        self.changes, self.owners, self.laws, self.refusing, self.readers = {}, set(), set(), set(), set()
        self.lines, self.stands_on, self.avoids = set(), set(), set()
        # It is tried without the answers of its functions where these don't fit.
        self.turns, self.has_stray, self.is_bare, self.is_apart, self.control = 0, True, False, False, None
        # The one that is tried where this shows nothing.
        self.instead = None

    def touches(self, other):
        """Whether the two can't stand in one check: of laws, where what one changes could refuse the other."""
        return bool((self.owners | self.avoids) & other.owners or self.owners & other.avoids
                    or self.lines & (other.lines | other.stands_on) or self.stands_on & other.lines
                    or bool(self.laws) != bool(other.laws))


class Edit(WrongBody):
    """A paragraph of a file: a sentence that says the mistake, and lines `file: PATH`, `old: TEXT` and `new: TEXT`.

    A line `file:` holds for the paragraphs after it too. Each old text stands once in its file, on one line, or once in the
    bodies that a line `in: FUNCTION` names by the end of their path. A line `refused by: FUNCTION` names so the function whose
    contract refuses an edit that stands in none, as that of a number of an enum. A line `refused by law: NAME` names the proof
    that no longer holds of a definition, that of a clause as `returns-clause-CLAUSE`. Of proofs of one name one is
    `FOLDER/NAME`. A line `caught by: TEST` names a test that fails with an edit of what has no contract, and `verdict: WORDS`
    one that is due in place of a refusal.
    """

    def __init__(self, crate, file, number, lines, path):
        super().__init__(crate)
        self.file, self.number, self.places = file, number, set(range(number, number + len(lines)))
        self.says, self.path = lines[0], path
        self.due = next((line[9:] for line in lines if line.startswith("verdict: ")), REFUSED)
        try:
            self.read(lines)
            self.lines = {(path, number) for path, changed in self.changes.items() for number in changed}
            # What changes more than bodies could also refuse what stands beside it.
            self.is_apart = bool(self.refusing) and not self.is_of_bodies()
            self.owners = self.refusing | self.laws or self.changed_functions()
            if self.laws:
                self.read_laws(definitions.of(self.crate))
        except (OSError, ValueError) as why:
            self.why_not = str(why)

    def __str__(self):
        return f"{self.file.relative_to(crates.TOP)}:{self.number + 1}: {self.says}"

    def read(self, lines):
        """Reads the changed lines, by path and number."""
        inside, old = None, None
        for line in lines:
            word, _, rest = line.partition(": ")
            if word == "file":
                self.path, inside = rest, None
            elif word == "in":
                inside = rest
            elif word == "old":
                old = rest
            elif word == "new":
                self.change(self.path, inside, old, rest)
            elif word == "caught by":
                self.seen_by = rest
            elif word == "refused by":
                self.refusing.add("::".join([self.crate.name, rest]))
            elif word == "refused by law":
                self.laws.add(rest)
        if not self.changes:
            raise ValueError("it changes nothing")

    def read_laws(self, known):
        """Finds the lines on which the laws stand, and the functions whose proofs read them."""
        new = [definitions.Part(path, [line], 0, 0) for path, changed in self.changes.items() for line in changed.values()]
        for law in self.laws:
            self.stands_on |= known.lines_of(law, new)
            self.readers.add(known.reader_of(law))
        if not self.lines <= self.stands_on:
            raise ValueError("the law that it names doesn't stand on the lines that it changes")

    def change(self, path, inside, old, new):
        """Puts a text in the place of another that stands once in the file, or in those functions, as edited so far."""
        if not path or not old:
            raise ValueError("a line new: comes before file: and old:")
        lines = self.crate.lines(path)
        changed = self.changes.setdefault(path, {})
        searched = self.lines_of(path, inside) if inside else range(len(lines))
        found = [number for number in searched for _ in re.finditer(re.escape(old), changed.get(number, lines[number]))]
        if len(found) != 1:
            raise ValueError(f"a text stands {len(found)} times in {inside or path} and not once: {old}")
        changed[found[0]] = changed.get(found[0], lines[found[0]]).replace(old, new)

    def lines_of(self, path, function):
        """The numbers of the lines of the bodies of those functions of a file whose path ends so."""
        for it in functions(self.crate, path):
            if it.name.endswith("::" + function):
                yield from range(it.body, it.last + 1)

    def is_of_bodies(self):
        """Whether each changed line is in the body of a function."""
        return all(self.bodies_at(path, number) for path, number in self.lines)

    def bodies_at(self, path, number):
        """The functions whose bodies have a changed line."""
        old, new = self.crate.lines(path)[number], self.changes[path][number]
        return [it.name for it in functions(self.crate, path) if it.holds(number, old, new)]

    def changed_functions(self):
        """The functions whose bodies have the changed lines; of a private constant those that name it."""
        found = set()
        for path, changed in self.changes.items():
            lines = self.crate.lines(path)
            for number in changed:
                here = self.bodies_at(path, number)
                constant = PRIVATE.match(lines[number])
                if not here and constant:
                    name = re.compile(rf"\b{constant[1]}\b")
                    here = [it.name for it in functions(self.crate, path) if any(map(name.search, lines[it.body : it.last + 1]))]
                if not here:
                    raise ValueError(f"line {number + 1} of {path} is in no function, and no line says refused by:")
                found.update(here)
        return found


class Mutant(WrongBody):
    """A text in place of another in a function's body or a constant's value, by a rule, and the functions that must refuse it."""

    def __init__(self, crate, path, function, owners, text, rule, start, end, new):
        super().__init__(crate)
        self.function, self.rule, old, says = function, rule, text[start:end], new
        self.says = f"{function.name.split('::')[-1]} {rules.shown(text, rule, start, end, new)}"
        # The lines after it keep their numbers.
        is_whole = rules.WHOLE in new
        new = new.replace(rules.WHOLE, old) if is_whole else new.replace("\n", " ") + "\n" * old.count("\n")
        first, begun = text.count("\n", 0, start), text.rfind("\n", 0, start) + 1
        changed = text[begun:start] + new + text[end:].partition("\n")[0]
        self.changes = {path: dict(enumerate(changed.split("\n"), first))}
        self.lines, self.owners = {(path, number) for number in self.changes[path]}, owners
        # A body of the same form that is right.
        if rule == rules.STATE and says != rules.UNCHANGED:
            self.control = Mutant(crate, path, function, owners, text, rule, start, end, rules.UNCHANGED)

    def __str__(self):
        return f"{self.function.name.rpartition('::')[0]}::{self.says}"

    def rank(self):
        """Its place among those of its function, wherever that stands."""
        return hashlib.sha256(f"{WORD} {self.says}".encode()).digest()


def paragraphs(file):
    """The paragraphs of a file, each with the number of its first line from 0, and the file of the paragraph before it."""
    found, path = [], None
    lines = [*file.read_text().split("\n"), ""] if file.exists() else []
    begun = 0
    for number, line in enumerate(lines):
        if not line.strip():
            if number > begun:
                found.append((begun, lines[begun:number], path))
                path = next((it[6:] for it in reversed(lines[begun:number]) if it.startswith("file: ")), path)
            begun = number + 1
    return found


@functools.lru_cache(maxsize=None)
def by_hand(crate):
    """The wrong bodies that stand in a crate's file, and the one that `rt ci` tries."""
    files = [crate.folder / BY_HAND, *sorted((crate.folder / MUST_FAIL).glob("*.edit"))]
    return [Edit(crate, file, *it) for file in files for it in paragraphs(file)]


def of_self_test(crate):
    """The edits of a crate by which the trials are tested."""
    file = SELF_TEST / f"{crate.name}.edits"
    return [Edit(crate, file, *it) for it in paragraphs(file)]


@functools.lru_cache(maxsize=None)
def functions(crate, path):
    """The functions of a source of a crate."""
    return sources.functions(crate.name, path, "\n".join(crate.lines(path)))


@functools.lru_cache(maxsize=None)
def by_rules(crate):
    """The mutants of each function of a crate that has a contract, in the order in which they are tried."""
    below = (file for it in [*crate.libraries(), crate] for file in sorted((it.folder / "src").rglob("*.rt")))
    known = rules.Known(file.read_text() for file in below)
    found = {}
    for path in proved(crate):
        text, lines = "\n".join(crate.lines(path)), crate.lines(path)
        for it in functions(crate, path):
            if not lines[it.body].endswith("{}") and promises(lines, it):
                made = rules.mutants_of(text, it, known)
                found[it.name] = in_turn([Mutant(crate, path, it, {it.name}, text, *one) for one in made])
        for it in sources.constants(crate.name, path, text):
            made = rules.of_constant(text, it, known) if (users := users_of(crate, path, it)) else ()
            found[it.name] = in_turn([Mutant(crate, path, it, users, text, *one) for one in made])
    return found


@functools.lru_cache(maxsize=None)
def proved(crate):
    """The sources of a crate with contracts: what has no definitions promises nothing but that it ends."""
    files = sorted((crate.folder / "src").rglob("*.rt")) if (crate.folder / "specs").exists() else ()
    return [str(file.relative_to(crate.folder)) for file in files]


def users_of(crate, path, constant):
    """What must refuse another value of a constant: a clause of its own, or the functions that name it, in its file if there are any."""
    home, _, name = constant.name.rpartition("::")
    lines = crate.lines(path)
    if any(re.match(rf" *ghost {name} = ", line) for line in lines[constant.last : constant.last + 3]):
        return {constant.name}
    if lines[constant.first].startswith(" "):
        names = [rf"{home.split('::')[-1]}::{name}"]
    else:
        # A constant that has it in its value stands for it.
        names = [name, *re.findall(rf"const (\w+): [^=;]*= [^;]*\b{name}\b", "\n".join(lines))]
    named = re.compile(rf"\b(?:{'|'.join(names)})\b")
    own = re.compile(rf"\bSelf(?: as \w+>)?::{name}\b")
    for paths in ([path], proved(crate)):
        users = {it.name for other in paths for it in functions(crate, other) if promises(crate.lines(other), it)
                 and any(named.search(line) or home == it.name.rpartition("::")[0] and own.search(line)
                         for line in crate.lines(other)[it.first : it.last + 1])}
        if users:
            return users
    return set()


def in_turn(mutants):
    """Mutants of a function by their rank, a rule at a time, that of state first; of those that say the same each later one by its number."""
    turns, places, alike = {}, {}, collections.Counter()
    for it in mutants:
        alike[it.says] += 1
        it.says += f" ({alike[it.says]})" if alike[it.says] > 1 else ""
    for it in sorted(mutants, key=Mutant.rank):
        turns[it.rule] = turns.get(it.rule, -1) + 1
        places[it] = turns[it.rule], it.rule != rules.STATE
    return sorted(places, key=places.get)


def chains(crate, each=EACH):
    """Of each function of a crate so many mutants, and of a constant one, each with those that come in its place where it shows nothing."""
    allowed = let_through()
    found = {}
    for name, mutants in by_rules(crate).items():
        own = 1 if is_constant(name) else each
        for it, after in zip(mutants, mutants[own : own * TRIES]):
            it.instead = after
        for it in mutants:
            if str(it) in allowed:
                it.due, it.seen_by = ACCEPTED, allowed[str(it)]
        found[name] = mutants[:own]
    return found


def is_constant(name):
    """Whether a name is that of a constant."""
    return name.rpartition("::")[2].isupper()


def in_reach(crate, name):
    """The mutants of a function that are tried until one shows something."""
    return by_rules(crate)[name][: EACH * TRIES]


@functools.lru_cache(maxsize=None)
def let_through():
    """The mutants that may be accepted, and functions of which none shows anything, each with the test that sees it or with None."""
    lines = LET_THROUGH.read_text().splitlines() if LET_THROUGH.exists() else []
    said = [line.partition("  # ") for line in lines if not line.startswith("#")]
    return {mutant: why[8:] if why.startswith("seen by ") else None for mutant, _, why in said}


def gone():
    """What that list has and is no mutant of the rules, nor a function."""
    made = {str(it) for crate in crates.known().values() for its in by_rules(crate).values() for it in its}
    named = {name for crate in crates.known().values() for name in by_rules(crate)}
    return [f"{it}: tests/contracts/accepted.txt has it, and no rule makes it" for it in let_through() if it not in made | named]


def untried():
    """The functions with a contract, and the constants, of which no rule makes a mutant, but for those of that list."""
    names = (name for crate in crates.known().values() for name, its in by_rules(crate).items() if not its)
    return [f"{name}: no rule makes a mutant of it, and tests/contracts/accepted.txt doesn't say why" for name in names if name not in let_through()]


def of_rules():
    """The mutants in which the rules differ from those that stand below an example."""
    text, _, below = (SELF_TEST / "rules.txt").read_text().partition("\n\n\n")
    known = rules.Known([text])
    functions, constants = sources.items("example", "src/lib.rt", text)
    made = [rules.shown(text, *it) for function in functions for it in rules.mutants_of(text, function, known)]
    made += [rules.shown(text, *it) for constant in constants for it in rules.of_constant(text, constant, known)]
    return [f"tests/contracts/self_test/rules.txt: {it}" for it in set(made).symmetric_difference(below.splitlines())]


def promises(lines, it):
    """Whether a function says what it gives: by a clause of its own, or by one of the trait or ghost items of its impl."""
    if any(line.lstrip().startswith("ensures") for line in lines[it.first : it.body]):
        return True
    if not lines[it.first].startswith(" "):
        return False
    head = next(at for at in range(it.first, -1, -1) if re.match(r"\w", lines[at]))
    impl = IMPL.match(" ".join(lines[head : head + 3]))
    declared = impl and traits().get(impl[1], "").partition(f"fn {it.name.split('::')[-1]}")[2].partition(" fn ")[0]
    return bool(impl) and ("ensures" in declared or any(re.match(" +ghost ", line) for line in lines[head : it.first]))


@functools.lru_cache(maxsize=None)
def traits():
    """The texts of the traits of the crates, by name."""
    texts = [file.read_text() for crate in crates.known().values() for file in (crate.folder / "src").rglob("*.rt")]
    return {found[1]: found[0] for text in texts for found in TRAIT.finditer(text)}


# A line of a proof that no goal asks for and that is refused. With it to report, the compiler doesn't write down the goals
# of the functions that are left open for somebody to prove, which takes it many seconds.
STRAY = "stray : no-such-goal"


def answers(crate, functions, has_stray, is_bare):
    """The files of answers of some functions, by path: with a stray one, or without those that stand there."""
    found = {}
    for function in functions:
        path = "/".join(["proofs", *function.split("::")[1:], "Answers.antt"])
        is_there = (crate.folder / path).exists()
        if has_stray or is_bare and is_there:
            found[path] = "\n".join([*(crate.lines(path) if is_there and not is_bare else []), *[STRAY] * has_stray, ""])
    return found


def texts(crate, wrong):
    """The texts of the files with these wrong bodies, by path."""
    found = {}
    for it in wrong:
        for path, changed in it.changes.items():
            lines = found.setdefault(path, list(crate.lines(path)))
            for number, line in changed.items():
                lines[number] = line
    return {path: "\n".join(lines) for path, lines in found.items()}
