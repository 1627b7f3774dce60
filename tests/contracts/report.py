"""What the lines of a check say of each function."""

import re

DECLARATION = re.compile(r"(?:fn|impl|struct|enum|trait|const|static|closure) (\S+): (.*)")

# A goal of the function itself that stays open at a line of its source, and its name.
OPEN = re.compile(r"note: (?:\./)?src/\S+:\d+:\d+: (?:it is not proved that|`search` found no proof)")
GOAL = re.compile(r"\(`([^`\s]+)`\)")

# An answer of its proof that doesn't fit says nothing of the contract.
ANSWER = re.compile(r"(?:\./)?(proofs/\S+?)/\w+\.antt:\d+:\d+: error")

# Values are known at which a goal is false.
FALSE = re.compile(r"at which this goal is false|and the goal fails, at ")

# An answer that stands there by design.
STRAY = re.compile(r"error: `stray`: ")

# A proof that doesn't hold, and those of which that one leaves nothing known.
LAW = re.compile(r"(?:\./)?(proofs/\S+?):\d+:\d+: error: `(\w\S*)`")
UNCHECKED = re.compile(r"(?:\./)?proofs/\S+?:\d+:\d+: error: \d+ declarations? that depends? on .* not checked: ")

# A clause or a definition that has no type any more, so that nothing is said of what it means.
UNTYPED = re.compile(r"(?:\./)?(?:src|specs)/\S+?:\d+:\d+: error: `\w\S*`")

# A line by which the text itself can't be read, of which no goal was tried.
UNREAD = re.compile(r"(?:\./)?((?:src|specs)/\S+?):(\d+):\d+: error(?:\[[\w-]+\])?: (.*)")

PROVED, OPEN_GOAL, OF_SHAPE, WAITS, UNKNOWN = "proved", "open goal", "of shape", "waits", "unknown"


def joined(lines):
    """The lines, with an answer's error on one: the compiler breaks long words, and goes on after two blanks."""
    found = []
    for line in lines:
        if line.startswith("  ") and found and ANSWER.match(found[-1]):
            found[-1] += " " + line.strip()
        else:
            found.append(line)
    return found


class Report:
    """The lines of a check, by function."""

    def __init__(self, printed):
        self.lines = lines = joined(printed)
        self.is_proved = any(line.startswith("logic=proved") for line in lines)
        self.is_judged = any(DECLARATION.match(line) and line.startswith("fn ") for line in lines)
        self.said, self.open, above = {}, {}, []
        for line in lines:
            declared = DECLARATION.match(line)
            if declared:
                self.said[declared[1]] = declared[2]
                self.open[declared[1]] = [it for it in above if OPEN.match(it)]
                above = []
            else:
                above.append(line)
        self.answers = [(answer[1], line) for line in lines if (answer := ANSWER.match(line)) and not STRAY.search(line)]
        laws = [(law, line) for line in lines if (law := LAW.match(line))]
        self.laws = {name: line for law, line in laws for name in (law[2], f"{law[1].split('/')[-2]}/{law[2]}")}
        self.unchecked = [line for line in lines if UNCHECKED.match(line)]
        self.untyped = [line for line in lines if UNTYPED.match(line)]

    def verdict(self, function):
        """What the check says of a function and its closures, or of a law, and the line that shows it."""
        if "::" not in function:
            return self.verdict_of_law(function)
        each = [self.verdict_of(name) for name in [function, *self.closures(function)]]
        order = [OPEN_GOAL, UNKNOWN, OF_SHAPE, WAITS, PROVED]
        return min(each, key=lambda it: order.index(it[0]))

    def verdict_of_law(self, law):
        """What the check says of a law: nothing where a text has no type. Of many that weren't checked it names some."""
        if self.untyped:
            return OF_SHAPE, self.untyped[0]
        if law in self.laws:
            return OPEN_GOAL, self.laws[law]
        waits = [line for line in self.unchecked if law.split("/")[-1] in re.split(r"[, ]+", line) or re.search(r" and \d+ more$", line)]
        return (WAITS, waits[0]) if waits else (PROVED, "the law holds")

    def verdict_of(self, name):
        said = self.said.get(name)
        if said is None or "could not tell" in said:
            return UNKNOWN, said or "no line says anything of it"
        if said.startswith("proved"):
            return PROVED, said
        proof = "/".join(["proofs", *name.split("::")[1:]])
        answers = [line for path, line in self.answers if path == proof]
        false = list(filter(FALSE.search, [*self.open[name], *answers]))
        if false:
            return OPEN_GOAL, false[0]
        if answers:
            return OF_SHAPE, answers[0]
        if self.open[name]:
            return OPEN_GOAL, self.open[name][0]
        return (WAITS if "it calls" in said else UNKNOWN), said

    def goals(self, function):
        """The goals of a function and its closures that stay open, and whether each is known to be false, with the lines that say so."""
        lines = [line for name in [function, *self.closures(function)] for line in self.open.get(name, ())]
        return {(found[1], bool(FALSE.search(line))): line for line in lines if (found := GOAL.search(line))}

    def closures(self, function):
        """The closures of a function, which have lines of their own."""
        parts = function.split("::")
        starts = ["::".join([*parts[:at], "fn", *parts[at:]]) + "::" for at in range(1, len(parts))]
        return [name for name in self.said if name.startswith(tuple(starts))]

    def waits_for(self, function):
        """The functions without a proof that a function calls, and those that they wait for."""
        found, todo = set(), [function]
        while todo:
            called = set(re.findall("`([^`]+)`", self.said.get(todo.pop(), ""))) & set(self.said) - found
            found |= called
            todo += called
        return found

    def unread(self):
        """The lines of source that can't be read: path, number and words."""
        return [(found[1], int(found[2]), found[3]) for line in self.lines if (found := UNREAD.match(line))]


# What a check prints of four functions, and what it says of each.
EXAMPLE = {
    "note: src/a.rt:1:1: it is not proved that what the function ensures holds when it returns (`returns`)": OPEN_GOAL,
    "./proofs/f1/Answers.antt:1:1: error: `returns`: `rw`: no occurrence of the path's left endpoint": OF_SHAPE,
    "./proofs/f2/Answers.antt:1:1: error: `returns`: `omega`: the goal does not follow. All of that holds, and the goal fails, at `n` = 0": OPEN_GOAL,
    "./proofs/f3/Answers.antt:1:1: error: `returns`: module `Goals` has no `returns`": OF_SHAPE,
}


def amiss():
    """What is wrong with the verdicts on an example."""
    lines = [line for number, said in enumerate(EXAMPLE) for line in (said, f"fn a::f{number}: not proved")]
    found = [Report(lines).verdict(f"a::f{number}")[0] for number in range(len(EXAMPLE))]
    return [] if found == list(EXAMPLE.values()) else [f"tests/contracts/report.py: the verdicts are {found}"]
