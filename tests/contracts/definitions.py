"""What the proofs of a crate stand on: the lines of its definitions, laws and clauses, and which others each names."""

import functools
import re

import sources

# The name of a definition, or of an equation of one by cases and its first argument.
HEAD = re.compile(r"(?:(?:pub|abbrev|unfoldable|data|record) )*([^\s:]+)(?: \(*([^\s()]+))?")
CLAUSE = re.compile(r" *ensures (\w+) \{")
WORD = re.compile(r"[^\s(){}\[\],;.]+")

# A line that brings names, or a module by another name.
USE = re.compile(r" *(?:pub |ghost )?use [\w.]+?(?:\.\{(.*)\}|\.([\w-]+)| as (\w+));?$")

# A line that brings something of a crate's file of proofs, and the files of the proof of one function; the others in
# proofs/ are for several.
OF_PROOFS = re.compile(r"(?:pub )?use Rattle\.(\w+)\.proofs\.([\w.]+\w)")
OF_FUNCTION = re.compile(r"proofs/(.*)/(?:Answers|Invariants|Proof)\.antt")


class Part:
    """Lines of a file that belong together: a type, an equation, or a clause."""

    def __init__(self, path, lines, first, last):
        self.path, self.lines = path, frozenset((path, number) for number in range(first, last + 1))
        self.text = " ".join(word for line in lines[first : last + 1] if not line.startswith("--") for word in line.split())


def unwrapped(lines):
    """The lines of a file, of which those of a module without a name stand at the margin."""
    found, is_within = [], False
    for line in lines:
        if re.match(r"[^\s-]", line):
            is_within = line.startswith("module _ ")
            found.append("" if is_within else line)
        else:
            found.append(line.removeprefix("  ") if is_within else line)
    return found


class Definitions:
    """The parts of a crate's definitions by their names, and of those by cases by the case of each."""

    def __init__(self, crate):
        # The names that a file can use, its own and those of its lines `use`, and the modules that it names anew.
        self.named, self.names_in, self.modules_in = {}, {}, {}
        # The files of proofs that each file reads.
        self.reads = {}
        files = [file for part in ("specs", "proofs", "src") for file in (crate.folder / part).rglob("*")]
        for file in sorted(it for it in files if it.is_file()):
            path = str(file.relative_to(crate.folder))
            lines = crate.lines(path)
            uses = [use for use in map(USE.match, lines) if use]
            self.names_in[path] = {word for use in uses for word in WORD.findall((use[1] or use[2] or "").replace("◌", " "))}
            self.modules_in[path] = {use[2] or use[3] for use in uses}
            proofs = [use[2] for use in map(OF_PROOFS.match, lines) if use and use[1] == crate.name]
            self.reads[path] = {f"proofs/{module.replace('.', '/')}.antt" for module in proofs}
            self.read_clauses(path, lines) if file.suffix == ".rt" else self.read(path, lines)

    def read(self, path, lines):
        """Reads the definitions of a file: each begins at the margin, and goes on as far as lines are indented."""
        lines = unwrapped(lines)
        starts = [number for number, line in enumerate(lines) if re.match(r"[^\s-]", line)]
        starts = [number for number in starts if not re.match(r"(?:pub )?(?:use|mod)\b", lines[number])]
        defined = set()
        for first, after in zip(starts, [*starts[1:], len(lines)]):
            # What an equation unfolds stands on a line before it.
            if lines[first].startswith("unfolding"):
                continue
            part = Part(path, lines, first - lines[first - 1].startswith("unfolding"), after - 1)
            head = HEAD.match(lines[first])
            if head[2] == ":" or re.search(r"\b(?:data|record) ", head[0]):
                # The type of a definition by cases names none of them.
                part.text = part.text.partition(" : ")[2]
                self.add(head[1], None, part)
                self.add(f"{path.split('/')[-2]}/{head[1]}", None, part)
                defined.update(head[1].split("◌"))
            elif head[1] in defined:
                self.add(head[1], head[2], part)
                self.add(f"{path.split('/')[-2]}/{head[1]}", head[2], part)
            else:
                for operator in defined & set(WORD.findall(lines[first].partition(" = ")[0])):
                    self.add(operator, "by its sign", part)

    def read_clauses(self, path, lines):
        """Reads the clauses of a source by the names of what proves them."""
        for number, line in enumerate(lines):
            if function := sources.FUNCTION.match(line):
                name = function[2]
            elif clause := CLAUSE.match(line):
                part = Part(path, lines, number, sources.clause_end(lines, number))
                for law in (f"returns-clause-{clause[1]}", f"{name}/returns-clause-{clause[1]}"):
                    self.add(law, "its type", part)

    def add(self, name, case, part):
        """Keeps a part by the words of its name, which an operator may have many of."""
        for word in filter(None, name.split("◌")):
            self.named.setdefault(word, {}).setdefault(case, []).append(part)
            self.names_in[part.path].add(word)

    def named_by(self, part):
        """The parts that a part names: of a definition by cases, those of a case where only such are named."""
        found = set()
        of_modules = {name for module, name in re.findall(r"(\w+)\.([\w-]+)", part.text) if module in self.modules_in[part.path]}
        for word in (set(WORD.findall(part.text)) & self.names_in[part.path] | of_modules) & self.named.keys():
            cases = self.named[word]
            uses = set(re.findall(rf"(?<![\w-]){re.escape(word)}(?![\w-])(?: \(*([^\s()]+))?", part.text))
            for case in (uses | {None} if uses <= cases.keys() else cases.keys()):
                found.update(cases.get(case, ()))
        return found

    def lines_of(self, law, changed):
        """The lines on which a law and its proof stand, with those of all that they name, and of what changed lines do."""
        cases = self.named.get(law, {})
        if len(cases.get(None, ())) != 1:
            raise ValueError(f"{len(cases.get(None, ()))} proofs have the name {law}, and not one")
        found, todo = set(), [*changed, *(part for parts in cases.values() for part in parts)]
        while todo:
            part = todo.pop()
            if part not in found:
                found.add(part)
                todo += self.named_by(part)
        return set().union(*(part.lines for part in found.difference(changed)))

    def reader_of(self, law):
        """A function whose proof reads the file of a law, one of those that do so most directly, or None."""
        files, seen = {self.named[law][None][0].path}, set()
        while files:
            readers = [read[1].replace("/", "::") for read in map(OF_FUNCTION.fullmatch, files) if read]
            if readers:
                return min(readers)
            seen |= files
            files = {path for path, read in self.reads.items() if read & files} - seen
        return None


@functools.lru_cache(maxsize=None)
def of(crate):
    """The definitions of a crate."""
    return Definitions(crate)
