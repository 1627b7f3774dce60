"""The functions and constants of a source in the layout of `rt fmt`, and the names by which a check reports them."""

import pathlib
import re

SOURCES = pathlib.Path(__file__).resolve().parents[2] / "crates"

# The head of an item that has others in it, or of a function. In this layout an item ends at the first line that
# closes at its own indentation.
BLOCK = re.compile(r"^( *)(?:pub(?:\([a-z]+\))? )?(impl|trait|mod)\b(.*)$")
FUNCTION = re.compile(r'^( *)(?:pub(?:\([a-z]+\))? |const |final |unsafe |extern "C" )*fn (\w+)')

# A constant that has its value, which may go over several lines.
CONSTANT = re.compile(r"^( *)(?:pub(?:\([a-z]+\))? )?const (\w+): .*=(?: |$)")

# A clause of a contract, which may go over several lines.
CLAUSE = re.compile(r" *(requires|ensures)\b")

LIFETIME = re.compile(r"'[a-z_]+\b,? ?")


class Function:
    """A function with a body, or a constant: its name in reports, and its lines from 0, those of its body apart."""

    def __init__(self, name, first, body, last):
        self.name, self.first, self.body, self.last = name, first, body, last

    def holds(self, number, old, new):
        """Whether a line that changes so is in the body, or adds to the line that opens it."""
        return self.body < number <= self.last or number == self.body and new.startswith(old)


def functions(crate, path, text):
    """The functions of a source, given its path in the crate, in the order of their lines."""
    return items(crate, path, text)[0]


def constants(crate, path, text):
    """The constants of a source that have a value, of the file and of its impls."""
    return items(crate, path, text)[1]


def items(crate, path, text):
    """The functions and the constants of a source."""
    lines = text.split("\n")
    at = module(crate, path)
    found, values, blocks, number = [], [], [], 0
    while number < len(lines):
        while blocks and number > blocks[-1][1]:
            blocks.pop()
        block, function, constant = (it.match(lines[number]) for it in (BLOCK, FUNCTION, CONSTANT))
        if block and (head := head_of(lines, number)):
            blocks.append((block_name(block[2], head, text), end_of(lines, number, block[1])))
        elif function:
            body = body_of(lines, number, function[1])
            if body is not None:
                last = number if lines[body].rstrip().endswith("}") else end_of(lines, body, function[1])
                found.append(Function(name_in(crate, text, at, blocks, function[2]), number, body, last))
                number = last
        elif constant:
            last = next(it for it in range(number, len(lines)) if lines[it].endswith(";"))
            values.append(Function(name_in(crate, text, at, blocks, constant[2]), number, number, last))
            number = last
        number += 1
    return found, values


def name_in(crate, text, module, blocks, name):
    """The name in reports of what stands in some blocks of a module."""
    inner = [block for block, _ in blocks if block]
    home = home_of(crate, inner[0], text) if inner else None
    return "::".join([*(home or module), *inner, name])


def module(crate, path):
    """The path of a source's module, from its crate's name on."""
    parts = path.removeprefix("src/").removesuffix(".in").removesuffix(".rt").split("/")
    if parts[-1] in ("mod", "lib", "main"):
        parts.pop()
    return [crate, *parts]


def home_of(crate, name, text):
    """The module of a type whose functions a source has, and that it takes from elsewhere in its crate."""
    found = re.search(rf"^use crate::([\w:]+)::{name};", text, re.MULTILINE)
    if not found:
        return None
    path = found[1].split("::")
    # Where that module has the type from one below it, it is that one's.
    below = re.search(rf"^pub use (\w+)::(?:{name};|\{{[^}}]*\b{name}\b)", module_text(crate, path), re.MULTILINE)
    return [crate, *path, *(below.groups() if below else ())]


def module_text(crate, path):
    """The source of a module of a crate, by its path there; empty where it has none of its own."""
    folder = SOURCES / crate / "src" / "/".join(path)
    files = (folder.with_suffix(".rt"), folder / "mod.rt")
    return next((file.read_text() for file in files if file.exists()), "")


def head_of(lines, number):
    """The head of a block that begins on a line, up to its bracket; None where it opens none."""
    head = []
    for line in lines[number:]:
        head.append(line.strip())
        if line.endswith("{"):
            return " ".join(head)[:-1]
        if line.endswith(("}", ";")):
            return None
    return None


def end_of(lines, number, indent):
    """The line that closes what a line opens."""
    while number < len(lines) and not re.match(rf"^{indent}}}", lines[number]):
        number += 1
    return number


def body_of(lines, number, indent):
    """The line on which a function's body opens, or None where it has none."""
    at = number
    while at < len(lines):
        line = lines[at]
        if CLAUSE.match(line):
            at = clause_end(lines, at)
            if lines[at].endswith(";"):
                return None
        elif line == indent + "{" or re.search(r"\{( .*\})?$|\{\}$", line):
            return at
        elif line.endswith(";"):
            return None
        at += 1
    return None


def clause_end(lines, number):
    """The line on which a clause ends that begins on a line."""
    depth = 0
    for at in range(number, len(lines)):
        depth += lines[at].count("{") - lines[at].count("}")
        if not depth:
            return at
    return number


def block_name(kind, head, text):
    """What a block of a source adds to the names of its functions."""
    head = re.sub(r"\bwhere\b.*", "", head.split(kind, 1)[1]).strip()
    parameters, head = parameters_of(head)
    trait, of, item = head.partition(" for ")
    if kind != "impl" or not of:
        return re.match(r"\w+", head)[0]
    # Reports have the module of a trait too, where its type has two traits of one name.
    named = re.match(r"\w+::(\w+)", trait)
    if named and len(re.findall(rf"^impl\b.*\b{named[1]}\b.* for {re.escape(item)} ", text, re.MULTILINE)) > 1:
        trait = trait.replace("::", " ")
    return (joined(item, parameters) or "Any") + joined(trait, parameters)


def parameters_of(head):
    """The names of the types that a head is for any of, and the rest of it."""
    level = 0
    for at, sign in enumerate(head if head.startswith("<") else ""):
        level += (sign == "<") - (sign == ">" and head[at - 1] != "-")
        if not level:
            return re.findall(r"(?:<|, )(?:const )?(\w+)(?=[:,>])", head[: at + 1]), head[at + 1:].strip()
    return [], head


def joined(words, parameters):
    """A type or a trait as one word, as reports have it."""
    signs = {"&": "Ref", "[": "Slice", "()": "Unit"}
    # A tuple begins with how many it has.
    words = re.sub(r"\(([^()]+)\)", lambda tuple: f"Tuple{tuple[1].count(',') + 1} {tuple[1]}", LIFETIME.sub("", words))
    parts = re.findall(r"&|\[|\(\)|\w+(?!::)\b", words)
    return "".join(signs.get(it) or it[0].upper() + it[1:] for it in parts if it not in parameters)
