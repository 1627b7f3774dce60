"""What changed since a commit: lines of files, functions, and what stands in contracts."""

import functools
import re
import subprocess

import crates
import definitions
import sources

HUNK = re.compile(r"@@ -\S+ \+(\d+)(?:,(\d+))? @@")

# What says nothing by itself: an import, a module's name, a comment.
IMPORT = re.compile(r"^ *(?:(?:pub(?:\([a-z]+\))? |ghost )?(?:use|mod) [^;{\n]*(?:\{[^}]*\})?.*|//.*|--.*)$", re.MULTILINE)


def git(*words):
    """What git prints."""
    return subprocess.run(["git", *words], cwd=crates.TOP, capture_output=True, text=True, check=True).stdout


def differ(since, folder):
    """Whether something in a folder changed since a commit."""
    return bool(git("diff", "--name-only", since, "--", folder) or git("ls-files", "--others", "--exclude-standard", "--", folder))


def changed(since):
    """The changed lines of each file that changed, from 0, by its path from the top."""
    found, path = {}, None
    for line in git("diff", "-U0", "--no-renames", "--no-ext-diff", "--no-textconv", "--no-color", "--src-prefix=a/", "--dst-prefix=b/", since, "--", "crates").splitlines():
        if line.startswith(("--- a/", "+++ b/")):
            path = line[6:]
            found.setdefault(path, set())
        elif hunk := HUNK.match(line):
            first, count = int(hunk[1]) - 1, int(hunk[2] or 1)
            found[path] |= set(range(first, first + count)) or {first}
    for path in git("ls-files", "--others", "--exclude-standard", "--", "crates").splitlines():
        found[path] = set(range((crates.TOP / path).read_bytes().count(b"\n")))
    return found


class Change:
    """What changed of a crate since a commit, given the changed lines of all files."""

    def __init__(self, crate, since, lines):
        parts = {path.removeprefix(f"crates/{crate.name}/"): lines[path] for path in lines if path.startswith(f"crates/{crate.name}/")}
        self.crate, self.since, self.parts = crate, since, parts
        self.proved = [path for path in parts if path.startswith(crates.PARTS)]
        self.functions = {name for path in parts for name in self.functions_of(path)}

    def is_seen_above(self):
        """Whether a crate above can see what changed."""
        return not all(map(self.is_of_body, self.proved))

    def is_of_body(self, path):
        """Whether a file changed in bodies of functions alone, or has the proof of one."""
        if path.startswith("proofs/"):
            return bool(definitions.OF_FUNCTION.fullmatch(path))
        bodies = {number for it in self.functions_in(path) for number in range(it.body + 1, it.last)}
        return self.parts[path] <= bodies

    def functions_of(self, path):
        """The functions whose source or proof changed in a file."""
        *folders, _ = path.split("/")
        if folders[:1] == ["proofs"]:
            return ["::".join([self.crate.name, *folders[1:]])]
        return [it.name for it in self.functions_in(path) if self.parts[path] & set(range(it.first, it.last + 1))]

    def functions_in(self, path):
        """The functions of a source."""
        file = self.crate.folder / path
        if not path.startswith("src/") or not file.exists():
            return []
        return sources.functions(self.crate.name, path, file.read_text())

    @functools.cached_property
    def restated(self):
        """The files of which something that they say outside of functions is gone, or is another now."""
        paths = [path for path in self.parts if path.startswith(("specs/", "src/"))]
        return {path for path in paths if not self.said_before(path) <= self.said_now(path)}

    def said_before(self, path):
        file = f"crates/{self.crate.name}/{path}"
        return said(self.crate, path, git("show", f"{self.since}:{file}") if git("ls-tree", self.since, file) else "")

    def said_now(self, path):
        file = self.crate.folder / path
        return said(self.crate, path, file.read_text() if file.exists() else "")

    def concerns(self, it):
        """Whether a wrong body is of what changed, stands on a changed line of its own file, or no longer applies.

        What a source says outside of functions is of its own. A change of a definition alone is left to the share of all.
        """
        own = it.file and self.parts.get(str(it.file.relative_to(self.crate.folder)), set()) & it.places
        return bool(own or it.why_not) or not self.restated.isdisjoint(it.changes) or not it.owners.isdisjoint(self.functions)


def said(crate, path, text):
    """The lines of a file outside of functions, without imports and comments."""
    lines = text.split("\n")
    functions = sources.functions(crate.name, path, text) if path.startswith("src/") else []
    inside = {number for it in functions for number in range(it.first, max(it.body, it.last) + 1)}
    outside = "\n".join(line for number, line in enumerate(lines) if number not in inside)
    return set(IMPORT.sub("", outside).split("\n"))
