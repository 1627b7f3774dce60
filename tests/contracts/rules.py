"""The rules by which a function's body is made wrong, as a programmer might by mistake, and what they know of types."""

import re

import sources

TOKEN = re.compile(r"""//[^\n]*|b?"(?:\\.|[^"\\])*"|b?'(?:\\.|[^'\\])'|'\w+|\w+|::|->|=>|==|!=|<=|>=|&&|\|\||\.\.=?|[-+*/%&|^]=|<<|>>|\S""")
STRUCT = re.compile(r"^(?:pub(?:\(\w+\))? )?struct (\w+)[^({;]*(?:\{(.*?)^\}|\(([^;]*)\);)", re.MULTILINE | re.DOTALL)
ENUM = re.compile(r"^(?:pub(?:\(\w+\))? )?enum (\w+)[^{]*\{(.*?)^\}", re.MULTILINE | re.DOTALL)
FIELD = re.compile(r"^    (?:pub(?:\(\w+\))? )?(\w+): (.*),$", re.MULTILINE)
VARIANT = re.compile(r"^    ([A-Z]\w*)(\([^)]*\)| \{.*?^    \})?(?: = [^\n]*)?,$", re.MULTILINE | re.DOTALL)
CALLED = re.compile(r"\bfn (\w+)(?:<[^(]*>)?\(((?:[^{};\[]|\[[^\]]*\])*?)\)(?: -> ([^{;]*?))?"
                    r"(?=\s*(?:\{|;|where\b|requires\b|ensures\b|ghost\b|//|$))", re.MULTILINE)
NUMBERS = {"u8", "u16", "u32", "u64", "usize", "i8", "i16", "i32", "i64", "isize"}
CONSTANT = re.compile(r"\bconst ([A-Z][A-Z_0-9]+): ([^=;]+) = ([^;]+);")
OPEN, CLOSE = "([{", ")]}"
# What a function of a type answers that gives up, where its name doesn't say.
NOTHING = {"()": [""], "bool": ["false", "true"], "&[u8]": ["&[]"], "&str": ['""'], "&'static str": ['""'],
           "Error": ["Error::OutOfMemory", "ProtocolFault::BadParams.into()"]}
COMPARED = {"<": "<=", "<=": "<", ">": ">=", ">=": ">", "==": "!=", "!=": "=="}
OTHER_SIGN = {"+": "-", "-": "+", "*": "+", "/": "*", "%": "/", "+=": "-=", "-=": "+=", "&&": "||", "||": "&&"}
# What ends an operand of + and the like.
LOOSER = {",", ";", "=>", "=", "<", ">", "<=", ">=", "==", "!=", "&&", "||", "..", "..=", "+", "-", "+=", "-=", *CLOSE, "{", "else"}
# What is easily taken for its sibling.
SIBLINGS = [("to_be_bytes", "to_le_bytes"), ("BigEndian", "byteorder::LittleEndian"), ("first", "last"), ("min", "max"),
            ("starts_with", "ends_with"), ("split_first", "split_last"), ("memchr", "memrchr"), ("is_some", "is_none"),
            ("STANDARD", "STANDARD_NO_PAD")]
SIBLING = {one: two for pair in SIBLINGS for one, two in (pair, pair[::-1])}
# The rule of state behind a `&mut`, and what stands for the old text in a new one that has it whole.
STATE, WHOLE = "state", "\0"
# A body of the form of such a mutant that changes nothing.
UNCHANGED = f" let given = {{{WHOLE}}}; given "
# The rule of the value of a constant.
CONSTANT_RULE = "value of a constant"
# Methods that can be left out of a chain.
KEEPING = {"max", "min", "saturating_add", "saturating_sub", "take", "skip"}


def split(text, sign=","):
    """The parts of a text between signs outside of brackets."""
    parts, depth, begun = [], 0, 0
    for at, it in enumerate(text):
        depth += (it in "([{<") - (it in ")]}" or it == ">" and text[at - 1] not in "-=")
        if it == sign and not depth:
            parts.append(text[begun:at])
            begun = at + 1
    return [it.strip() for it in [*parts, text[begun:]] if it.strip()]


def plain(words):
    """A type without lifetimes."""
    return re.sub(r"'\w+\s*,?\s*", "", " ".join(words.split())).replace("<>", "").strip()


class Known:
    """The fields of structs, the variants of enums and the types of functions, by name."""

    def __init__(self, texts):
        self.fields, self.variants, self.calls, self.constants = {}, {}, {}, {}
        for text in (re.sub(r"^ *//.*\n", "", text, flags=re.MULTILINE) for text in texts):
            for name, of, _ in CONSTANT.findall(text):
                self.constants.setdefault(name, plain(of))
            for name, named, numbered in STRUCT.findall(text):
                named = [it for it in FIELD.findall(named) if it[0] != "ghost"]
                its = named or enumerate(it.removeprefix("pub ") for it in split(numbered))
                self.fields[name] = {field: plain(of) for field, of in its}
            for name, inside in ENUM.findall(text):
                self.variants[name] = {variant: plain(of) for variant, of in VARIANT.findall(inside)}
            for name, parameters, result in CALLED.findall(text):
                types = [plain(it.partition(":")[2]) for it in split(parameters) if "self" not in it]
                old = self.calls.setdefault(name, (types, plain(result)))
                if old != (types, plain(result)):
                    # Two functions have the name.
                    self.calls[name] = ([], "")


class Body:
    """The tokens of a function's body, the brackets that they open, and the types of what it names."""

    def __init__(self, text, function, known):
        self.text, self.known = text, known
        lines = text.split("\n")
        starts = [0]
        for line in lines:
            starts.append(starts[-1] + len(line) + 1)
        last = max(function.body, function.last)
        opened = lines[function.body].index("{") if function.body == last else lines[function.body].rindex("{")
        places = starts[function.body] + opened, starts[last] + len(lines[last])
        self.tokens = [(it.start(), it[0]) for it in TOKEN.finditer(text, *places) if not it[0].startswith("//")]
        self.words = [word for _, word in self.tokens]
        self.pairs, stack = {}, []
        for number, word in enumerate(self.words):
            if word in OPEN:
                stack.append(number)
            elif word in CLOSE and stack:
                self.pairs[stack.pop()] = number
        self.opened = {close: begun for begun, close in self.pairs.items()}
        # The type of `self`, and its name.
        self.own = self.implemented(lines, function.first) if re.match(r" ", lines[function.first]) else ""
        self.implementing = re.match(r"\w*", self.own)[0]
        head = [it for it in lines[function.first : function.body + 1] if not re.match(r" *(?:requires|ensures|ghost|//)", it)]
        found = CALLED.search("\n".join(head))
        named = [it.partition(":") for it in split(found[2]) if ":" in it] if found else []
        self.names_room = any(re.search(r"[cC]apacity|Room", line) for line in lines[function.first : function.body])
        self.changes_self = bool(found) and found[2].split(",")[0].split()[-2:] == ["&mut", "self"]
        self.parameters = {name.removeprefix("mut ").strip(): plain(of) for name, _, of in named}
        self.result = plain(found[3] or "()").replace("Self", self.implementing or "Self") if found else ""
        # The names of what is bound, with their types and the token after which they are known.
        self.locals = {name: (of, 0) for name, of in self.parameters.items()}
        self.bind()

    def implemented(self, lines, number):
        """The type whose method begins on a line."""
        head = next((at for at in range(number, -1, -1) if re.match(r"impl\b", lines[at])), None)
        said = head is not None and sources.head_of(lines, head)
        if not said:
            return ""
        _, of = sources.parameters_of(said.removeprefix("impl").strip())
        return plain(re.sub(r"\bwhere\b.*", "", of).rpartition(" for ")[2])

    def bind(self):
        for number, word in enumerate(self.words):
            if word in ("let", "for"):
                stop = next((at for at in range(number, len(self.words)) if self.words[at] in ("=", "in")), None)
                if stop is None:
                    continue
                names = self.slice(number + 1, stop).removeprefix("mut ")
                end = self.expression_end(stop + 1)
                given = self.type_of(stop + 1, end) if word == "let" else "usize" if ".." in self.words[stop:end] else ""
                names, _, said = names.partition(":")
                self.bind_names(names.strip(), plain(said) or given, end)

    def bind_names(self, names, of, at):
        if some := re.fullmatch(r"(Some|Ok)\((.*)\)", names):
            self.bind_names(some[2], inner(of), at)
        elif names.startswith("(") and of.startswith("("):
            for name, part in zip(split(names[1:-1]), split(of[1:-1])):
                self.bind_names(name.removeprefix("mut "), part, at)
        elif re.fullmatch(r"[a-z]\w*", names):
            self.locals.setdefault(names, (of, at))

    def place(self, number):
        return self.tokens[number][0]

    def end(self, number):
        return self.tokens[number][0] + len(self.words[number])

    def slice(self, first, after):
        return self.text[self.place(first): self.end(after - 1)] if first < after else ""

    def expression_end(self, at, stops=frozenset({";", ",", "=>", "else", "{", *CLOSE})):
        """The token after an expression that begins at a token."""
        while at < len(self.words) and self.words[at] not in stops:
            at = self.pairs.get(at, at) + 1
        return at

    def arguments(self, opened):
        """The parts between commas in a bracket, as spans of tokens."""
        found, at, close = [], opened + 1, self.pairs[opened]
        while at < close:
            end = self.expression_end(at, {",", self.words[close]})
            found.append((at, min(end, close)))
            at = end + 1
        return found

    def type_of(self, first, end):
        """The type of an expression, or an empty word where it can't be told."""
        words = self.words[first:end]
        if not words:
            return ""
        if words[-1] == "?":
            return inner(self.type_of(first, end - 1))
        if len(words) > 1 and words[-2] == "as":
            return words[-1]
        for at in range(first, end):
            is_inside = any(first <= begun < at < close for begun, close in self.pairs.items())
            if self.words[at] in ("+", "-", "*", "/", "%") and at > first and not is_inside:
                return self.type_of(first, at)
        if words in (["self"], ["*", "self"]):
            return self.own if self.own.startswith("&") or words[0] == "*" else ""
        if words[-2:-1] == ["::"]:
            return self.known.constants.get(words[-1], "").replace("Self", words[-3])
        if len(words) == 1:
            named = self.known.constants.get(words[0], "") or self.locals.get(words[0], ("", 0))[0]
            return "number" if words[0][0].isdigit() else "&str" if words[0][0] == '"' else named
        if words[-1] == ")":
            called = self.words[self.opened[end - 1] - 1]
            if called in ("len", "capacity", "saturating_add", "saturating_sub") or words[:3] == ["usize", "::", "from"]:
                return "usize"
            if called in ("as_slice", "as_bytes"):
                return "&[u8]"
            if called == "cast_unsigned":
                signed = self.own if words[:-4] == ["self"] else self.type_of(first, end - 4)
                return signed.replace("i", "u", 1)
            return called if called in self.known.fields else self.known.calls.get(called, ([], ""))[1]
        if words[:2] == ["self", "."] and len(words) == 3:
            return self.fields_of_self().get(words[2], "")
        return "&[u8]" if words[0] == "&" and words[-1] == "]" and ".." in words else ""

    def fields_of_self(self):
        return {str(name): of for name, of in self.known.fields.get(self.implementing, {}).items()}

    def state(self):
        """The places behind a `&mut` that the function is passed, each with its type: the fields of a struct, one by one."""
        passed = {"self": self.own} if self.changes_self and self.own else {}
        passed |= {name: of.removeprefix("&mut ") for name, of in self.parameters.items() if of.startswith("&mut ")}
        for name, of in passed.items():
            fields = self.known.fields.get(re.match(r"\w*", of)[0])
            if fields is None:
                yield name, of
            else:
                yield from ((f"{name}.{field}", its.removeprefix("&mut ")) for field, its in fields.items())

    def without_memory(self):
        """The error of missing memory that the function can give, or None."""
        found = re.fullmatch(r"Result<.*\b(\w+)>", self.result)
        return f"{found[1]}::OutOfMemory" if found and "OutOfMemory" in self.known.variants.get(found[1], {}) else None

    def has_in_scope(self, name):
        """Whether the file has a function of a name, or imports one."""
        return re.search(rf"\bfn {name}\b|\buse [^;]*\b{name}\b", self.text)

    def in_pattern(self, number):
        """Whether a token is of a pattern: it or brackets around it before =>, or between let and =."""
        around = [begun for begun, close in self.pairs.items() if begun < number < close]
        closes = [self.pairs[begun] + 1 for begun in around if self.words[begun] != "{" or self.words[begun - 1][0].isupper()]
        if any(map(self.before_arrow, [number, *closes])) or self.words[number + 1 : number + 2] == ["@"]:
            return True
        back = number
        while back and self.words[back] not in (";", "{", "}", "=", "=>", "in"):
            back -= 1
            if self.words[back] in ("let", "for"):
                return True
        return False

    def before_arrow(self, at):
        """Whether the arrow of an arm follows a token, before whatever ends an expression."""
        while at < len(self.words) and self.words[at] not in (";", ",", *CLOSE, "=>"):
            if self.words[at] == "{" and not self.words[at - 1][0].isupper():
                return False
            at = self.pairs.get(at, at) + 1
        return self.words[at : at + 1] == ["=>"]

    def in_literal(self, number):
        """Whether a token stands in the brackets of a struct's value."""
        at = next((begun for begun in sorted(self.pairs, reverse=True) if begun < number < self.pairs[begun]), 0)
        return self.words[at] == "{" and (self.words[at - 1] in self.known.fields or self.words[at - 1] in ("Self", ">"))

    def values(self):
        """What is answered at the end, passed to a call, kept in a field or named, as spans of tokens with their types."""
        blocks = ("if", "match", "return", "for", "loop", "while")
        yield from (it for it in self.values_given() if self.words[it[0]] not in blocks)
        for at, word in enumerate(self.words):
            if word == "let" and self.words[at + 1] not in ("mut", "(") and self.words[at + 2] == "=":
                end = self.expression_end(at + 3, {";", "else"})
                yield at + 3, end, self.type_of(at + 3, end)
            elif word == "(" and at in self.pairs and re.match(r"\w", self.words[at - 1]) and not self.in_pattern(at):
                yield from ((*it, self.type_of(*it)) for it in self.arguments(at) if it[0] < it[1])
            elif word == "{" and at in self.pairs and self.words[at - 1] in self.known.fields and not self.in_pattern(at):
                its = self.known.fields[self.words[at - 1]]
                named = ((first, end) for first, end in self.arguments(at) if end > first + 2)
                yield from ((first + 2, end, its.get(self.words[first], "")) for first, end in named)

    def is_last(self, number):
        """Whether an expression that begins at a token is what the function gives."""
        return any(first == number for first, _, _ in self.values_given())

    def values_given(self):
        """What is answered at the end, as a span of tokens with its type."""
        close = self.pairs.get(0, 0)
        inner = [pair for pair in self.pairs.items() if pair[0]]
        ends = (end for first, end in self.statements() if not any(begun < first < closed for begun, closed in inner))
        begun = max(ends, default=1)
        if begun < close:
            yield begun, close, self.result

    def statements(self):
        """The statements that end in a semicolon or are an `if`, as spans of tokens."""
        for opened, close in self.pairs.items():
            if self.words[opened] != "{":
                continue
            at = opened + 1
            while at < close:
                end = at
                while end < close and self.words[end] != ";":
                    step = self.pairs.get(end, end)
                    if self.words[end] == "{" and self.words[at] in ("if", "for", "while", "loop", "match"):
                        if self.words[step + 1] != "else":
                            end = step
                            break
                    end = step + 1
                if end >= close:
                    break
                yield at, end + 1
                at = end + 1


def inner(of):
    """The type that `?` gives of a result or an option."""
    found = re.fullmatch(r"(?:\w+::)?(?:Result|Option)<(.*)>", of)
    return split(found[1])[0] if found else ""


def answers(of, known):
    """What a function of a type answers that gives up."""
    units = [f"{of}::{name}" for name, holds in known.variants.get(of, {}).items() if not holds][:2]
    if some := re.fullmatch(r"Option<(.*)>", of):
        return ["None", *(f"Some({it})" for it in answers(some[1], known)[:1])]
    if result := re.fullmatch(r"Result<(.*)>", of):
        good, bad = (*split(result[1]), "")[:2]
        failing = answers(bad, known)[:1] or ["std::alloc::AllocError"] * (bad == "AllocError")
        return [f"Ok({it})" for it in (["()"] if good == "()" else answers(good, known))] + [f"Err({it})" for it in failing]
    return NOTHING.get(of) or units or ["0"] * (of in NUMBERS)


def shown(text, rule, start, end, new):
    """A mutant in a line. What stands whole in the new text is two dots there."""
    old = "" if WHOLE in new else text[start:end]
    old, new = (" ".join(it.split()) or "(nothing)" for it in (old, new.replace(WHOLE, "..")))
    return f"[{rule}] {old} -> {new}"


def mutants_of(text, function, known):
    """The mutants of a function: rule, place, end of what goes, and the text in its place; each once, and none without effect."""
    found = {(start, end, new.strip()): (rule, start, end, new) for rule, start, end, new in made_of(text, function, known)}
    return [it for (start, end, new), it in found.items() if text[start:end].strip() != new]


def of_constant(text, constant, known):
    """The mutants of a constant: a number one more or less, a letter or a variant in place of another, a shorter text."""
    lines = text.split("\n")
    begun = sum(len(line) + 1 for line in lines[: constant.first])
    after = begun + sum(len(line) + 1 for line in lines[constant.first : constant.last + 1])
    declared, begun = text.index(":", begun) + 1, text.index("=", begun) + 1
    tokens = [it for it in TOKEN.finditer(text, begun, text.rindex(";", begun, after)) if not it[0].startswith("//")]
    words = [it[0] for it in tokens]
    for at, word in enumerate(words):
        span, its = tokens[at].span(), known.variants.get(words[at - 2], {}) if at > 1 else {}
        if re.fullmatch(r"\d[\d_]*", word):
            yield from ((CONSTANT_RULE, *span, str(int(word) + by)) for by in (1, -1) if int(word) + by >= 0)
        elif re.fullmatch(r"b'[^\\]'", word):
            yield CONSTANT_RULE, *span, f"b'{chr(ord(word[2]) + 1)}'"
        elif re.fullmatch(r'b?"[^"\\]+"', word):
            yield CONSTANT_RULE, *span, word[:-2] + '"'
        elif word in its:
            yield from ((CONSTANT_RULE, *span, other) for other in its if other != word and its[other] == its[word])
    start, end, of = tokens[0].start(), tokens[-1].end(), text[declared : begun - 1].strip()
    if of in NUMBERS and not any(word[0].isdigit() or word[0] == "b" for word in words):
        yield CONSTANT_RULE, start, end, f"{text[start:end]} - 1"
    # The value of another item, as of a type parameter.
    units = [name for name, holds in known.variants.get(of, {}).items() if not holds and of not in words]
    yield from ((CONSTANT_RULE, start, end, f"{of}::{name}") for name in units[:2])


def made_of(text, function, known):
    body = Body(text, function, known)
    for rule in (of_numbers, of_signs, of_calls, of_constants, of_variables, of_fields, of_variants, of_answers, of_statements, of_arms,
                 of_values, of_parameters, of_errors, of_texts, of_state):
        yield from rule(body)


def of_numbers(body):
    """A constant one more or less."""
    for at, word in enumerate(body.words):
        span = body.place(at), body.end(at)
        if re.fullmatch(r"\d[\d_]*", word) and body.words[at - 1] != "." and not body.in_pattern(at):
            yield "number", *span, str(int(word) + 1)
            if int(word):
                yield "number", *span, str(int(word) - 1)
        elif re.fullmatch(r"[A-Z][A-Z_0-9]+", word) and "::" not in (body.words[at - 1], body.words[at + 1]) \
                and not body.in_pattern(at) and body.known.constants.get(word, "usize") in NUMBERS:
            yield "number", *span, f"({word} + 1)"
            yield "number", *span, f"({word} - 1)"
        elif re.fullmatch(r"b'[^\\]'", word):
            yield "number", *span, f"b'{chr(ord(word[2]) + 1)}'"


def of_signs(body):
    """A comparison or an operation exchanged for its neighbour, a term left out, a condition turned round."""
    for at, word in enumerate(body.words):
        span = body.place(at), body.end(at)
        spaced = body.text[span[0] - 1] == " " and body.text[span[1]: span[1] + 1] in (" ", "\n")
        if spaced and word in COMPARED:
            yield "comparison", *span, COMPARED[word]
        elif spaced and word in OTHER_SIGN:
            yield "operation", *span, OTHER_SIGN[word]
            if word in ("+", "-", "*", "&&", "||"):
                end = body.expression_end(at + 1, LOOSER)
                yield "term", body.end(at - 1), body.end(end - 1), ""
        elif word in ("if", "while") and body.words[at + 1] != "let":
            end = body.expression_end(at + 1, {"{", "=>"})
            yield "condition", body.place(at + 1), body.end(end - 1), f"!({body.slice(at + 1, end)})"
            yield "condition", body.place(at + 1), body.end(end - 1), f"({body.slice(at + 1, end)}) && false"


def of_calls(body):
    """A method left out of a chain, arguments exchanged, an end of a range."""
    for at, word in enumerate(body.words):
        if word == "(" and re.fullmatch(r"\w+", body.words[at - 1]) and at in body.pairs and not body.in_pattern(at):
            name, spans = body.words[at - 1], body.arguments(at)
            if name in KEEPING and body.words[at - 2] == ".":
                yield "call left out", body.place(at - 2), body.end(body.pairs[at]), ""
            types, gives = body.known.calls.get(name, ([], ""))
            for other, its in body.known.calls.items():
                if other != name and types and its == (types, gives) and body.has_in_scope(other):
                    yield "sibling", body.place(at - 1), body.end(at - 1), other
            if len(types) == 1 and types[0] == gives:
                yield "call left out", body.place(at - 1), body.end(at - 1), ""
            yield from of_arguments(body, spans, types)
        elif word == "(" and at in body.pairs and not re.fullmatch(r"\w+|[?\])>]", body.words[at - 1]) and not body.in_pattern(at):
            spans = body.arguments(at)
            if len(spans) == 2 and body.type_of(*spans[0]) == body.type_of(*spans[1]) != "":
                yield "exchange", body.place(at), body.end(body.pairs[at]), f"({body.slice(*spans[1])}, {body.slice(*spans[0])})"
        elif word in SIBLING and body.words[at + 1] in ("(", "::", ".") and not body.in_pattern(at):
            yield "sibling", body.place(at), body.end(at), SIBLING[word]
        elif word == "..":
            if body.words[at + 1] not in CLOSE and not body.in_pattern(at):
                end = body.expression_end(at + 1)
                yield "range", body.place(at + 1), body.end(end - 1), f"({body.slice(at + 1, end)}).saturating_sub(1)"
                if body.words[end] == "]":
                    yield "range", body.place(at + 1), body.end(end - 1), ""
            if body.words[at - 1] == "0" and body.words[at - 2] == "in":
                yield "range", body.place(at - 1), body.end(at - 1), "1"


def of_arguments(body, spans, types):
    """Two arguments of one type exchanged."""
    for one, (first, end) in enumerate(spans):
        of, said = body.type_of(first, end), body.slice(first, end)
        for two, (other, last) in enumerate(spans[one + 1 :], one + 1):
            if len(types) == len(spans) and types[one] == types[two] or of and of == body.type_of(other, last):
                between = body.text[body.end(end - 1) : body.place(other)]
                yield "exchange", body.place(first), body.end(last - 1), body.slice(other, last) + between + said


def of_constants(body):
    """A constant of the file in place of another of its type."""
    constants = {name: (of, said) for name, of, said in CONSTANT.findall(body.text)}
    for at, word in enumerate(body.words):
        if word in constants and not body.in_pattern(at):
            mine = constants[word]
            others = (name for name, (of, said) in constants.items() if of == mine[0] and said != mine[1])
            yield from (("constant", body.place(at), body.end(at), name) for name in others)


def of_variables(body):
    """A variable, or a field of self, in place of another of its type."""
    fields = body.fields_of_self()
    for at, word in enumerate(body.words):
        before, after = body.words[at - 1], body.words[at + 1] if at + 1 < len(body.words) else ""
        is_bound = before in ("let", "mut", "|", "for") or after in (":", "=", "@", "in") or body.in_pattern(at)
        if word in body.locals and not is_bound and before not in (".", "::") and after not in ("(", "::", "!"):
            of, known = body.locals[word]
            others = [name for name, (its, begun) in body.locals.items() if name != word and its == of != "" and begun < at]
            others += [f"self.{name}" for name, its in fields.items() if its == of != "" and "self" in body.words]
            for other in others:
                is_short = after in (",", "}") and before in (",", "{") and re.match(r"\w", body.words[at - 2])
                yield "variable", body.place(at), body.end(at), f"{word}: {other}" if is_short and body.in_literal(at) else other
        if word == "self" and after == "." and body.words[at + 2] in fields and body.words[at + 3] != "=":
            for name, of in fields.items():
                if name != body.words[at + 2] and of == fields[body.words[at + 2]]:
                    yield "variable", body.place(at + 2), body.end(at + 2), name
            yield from (("variable", body.place(at), body.end(at + 2), name) for name, (of, begun) in body.locals.items()
                        if of == fields[body.words[at + 2]] != "" and begun < at)


def of_fields(body):
    """Two fields of a struct of one type exchanged."""
    for at, word in enumerate(body.words):
        its = body.known.fields.get(body.implementing if word == "Self" else word, {})
        if len(its) < 2 or body.words[at + 1] != "{" or at + 1 not in body.pairs or body.in_pattern(at):
            continue
        spans = {body.words[first]: (first, end) for first, end in body.arguments(at + 1)}
        values = {name: body.slice(first + 2, end) or name for name, (first, end) in spans.items()}
        for one in spans:
            for two in spans:
                if one < two and its.get(one) == its.get(two) is not None and values[one] != values[two]:
                    changed = {**values, one: values[two], two: values[one]}
                    made = ", ".join(f"{name}: {value}" for name, value in changed.items())
                    yield "exchange", body.place(at + 1), body.end(body.pairs[at + 1]), "{ " + made + " }"


def of_variants(body):
    """A variant in place of another with what it holds, or OutOfMemory in place of any error."""
    for at, word in enumerate(body.words):
        its = body.known.variants.get(word, {})
        if body.words[at + 1: at + 2] == ["::"] and body.words[at + 2] in its and not body.in_pattern(at):
            names = list(its)
            place = names.index(body.words[at + 2])
            others = [other for other in names[place + 1:] + names[:place] if its[other] == its[names[place]]]
            yield from (("variant", body.place(at + 2), body.end(at + 2), other) for other in others[:2])
        if word == "Err" and body.words[at + 1] == "(" and body.without_memory() and not body.in_pattern(at):
            yield "variant", body.place(at + 1), body.end(body.pairs[at + 1]), f"({body.without_memory()})"


def of_answers(body):
    """An answer that gives up at once, or for some arguments alone."""
    place = body.end(0)
    cases = {**dict.fromkeys(NUMBERS, "if {} == 0 "), "&[u8]": "if {}.is_empty() ", "&str": "if {}.is_empty() ", "bool": "if {} "}
    for said in answers(body.result, body.known):
        if said == body.slice(1, len(body.words) - 1):
            continue
        yield "answer", place, place, f" return {said};".replace(" ;", ";") if len(body.words) > 2 else f" {said} "
        for name, of in body.parameters.items():
            if of in cases:
                yield "case", place, place, f" {cases[of].format(name)}{{ return {said}; }}".replace(" ; ", "; ")


def of_statements(body):
    """A statement left out, or done twice, or without its error; a loop that ends after its first turn."""
    for first, end in body.statements():
        words = body.words[first:end]
        is_left = words[-1] == ";" and words[0] not in ("let", "return", "break", "continue", "prove", "use")
        if is_left or words[0] == "if" and "else" not in words:
            yield "statement", body.place(first), body.end(end - 1), ""
            if words[-2:] in (["?", ";"], [")", ";"]):
                yield "statement", body.end(end - 1), body.end(end - 1), " " + body.slice(first, end)
            if words[-2:] == ["?", ";"]:
                yield "statement", body.place(first), body.end(end - 1), f"let _ = {body.slice(first, end - 2)};"
        if words[0] in ("for", "while", "loop") and words[-1] == "}":
            yield "loop", body.place(end - 1), body.place(end - 1), "break; "


    for first, end, of in body.values_given():
        if of.startswith("Result<()") and body.words[first] not in ("if", "match", "Ok", "Err"):
            yield "statement", body.place(first), body.place(first), f"{body.slice(first, end)}?; "


def arms_of(body, opened):
    """The arms of a match, as spans of tokens, each with the words of its pattern."""
    place = opened + 1
    while place < body.pairs[opened]:
        arrow = next(it for it in range(place, body.pairs[opened]) if body.words[it] == "=>")
        is_block = body.words[arrow + 1] == "{"
        end = body.pairs[arrow + 1] + 1 if is_block else body.expression_end(arrow + 1, {",", "}"})
        yield arrow + 1, end, set(body.words[place:arrow])
        place = end + (body.words[end] == ",")


def of_arms(body):
    """An arm of a match that gives up, or does what the next one does."""
    for at, word in enumerate(body.words):
        opened = word == "match" and body.expression_end(at + 1)
        if not opened or body.words[opened] != "{":
            continue
        arms = list(arms_of(body, opened))
        for first, end, _ in arms if body.is_last(at) else ():
            yield from (("arm", body.place(first), body.end(end - 1), it) for it in answers(body.result, body.known) if it)
        for (*one, bound), (*two, others) in zip(arms, arms[1:] + arms[:1]):
            # Names that only the other pattern binds mean nothing here.
            is_told = {it for it in others - bound if it.islower()}.isdisjoint(body.words[two[0] : two[1]])
            if body.slice(*one) != body.slice(*two) and is_told:
                has_comma = body.words[one[1]] == "," or body.words[one[1] - 1] != "}" or body.words[two[1] - 1] == "}"
                yield "arm", body.place(one[0]), body.end(one[1] - 1), body.slice(*two) + "," * (not has_comma)


def of_values(body):
    """What is answered, passed, kept or named: a number that is cut, or held to a bound; bytes without the first, the last or all."""
    for first, end, of in body.values():
        said = body.slice(first, end)
        span = body.place(first), body.end(end - 1)
        if of in NUMBERS and said not in body.known.constants and not said.isdigit():
            short = said if re.fullmatch(r"[\w.]+|[\w:]+\([^()]*\)", said) else f"({said})"
            most = ".min(15)" if of in ("u8", "i8") else ".min(255)"
            for bound in (most, ".max(1)", " / 2", ".saturating_sub(1)", ".saturating_add(1)"):
                yield "number cut", *span, short + bound
            if of[1:] in ("16", "32", "64"):
                yield "number cut", *span, f"{short}.swap_bytes()"
            lengths = (f"{name}.len()" for name, its in body.parameters.items() if its.startswith("&[") and of == "usize")
            yield from (("variable", *span, it) for it in lengths if it != said)
        yield from (("value", *span, it) for it in defaults(of, said) if it != said)
        if of == "&str" and said != '""':
            yield "bytes", *span, '""'
        if of.startswith("&[") and not said.startswith("&mut "):
            bare = said.removeprefix("&")
            yield "bytes", *span, "&[]"
            yield "bytes", *span, f"{bare}.get(1..).unwrap_or(&[])"
            yield "bytes", *span, f"&{bare}[..{bare}.len().saturating_sub(1)]"
        if of == "bool":
            yield from (("condition", *span, constant) for constant in ("true", "false") if constant != said)
            if said not in ("true", "false"):
                yield "condition", *span, f"!({said})"


def defaults(of, said):
    """What stands in place of any value of a type."""
    if of in NUMBERS:
        return ["0"]
    if some := re.fullmatch(r"Option<(.*)>", of):
        return ["None", *(f"Some({said}.unwrap_or({it}))" for it in NOTHING.get(some[1], ["0"] * (some[1] in NUMBERS)))]
    if of.startswith("Result<(),"):
        return ["Ok(())"]
    return [f"&mut {said}[..0]"] if of == "&mut [u8]" else ["Bytes::new()"] if of == "Bytes" else []


def of_parameters(body):
    """Parameters that change as the function begins: one that is cut, or two that are exchanged."""
    place = body.end(0)
    for name, of in body.parameters.items():
        if name.startswith("_"):
            continue
        cut = ["{0}.saturating_sub(1)", "{0}.saturating_add(1)"] * (of in NUMBERS) + ["&mut {0}[..0]"] * (of == "&mut [u8]")
        if of.startswith("&["):
            cut = ["&{0}[..0]", "{0}.get(1..).unwrap_or(&[])", "&{0}[..{0}.len().saturating_sub(1)]"]
        yield from (("parameter", place, place, f" let {name} = {it.format(name)};") for it in cut)
        for other in body.parameters:
            if name < other and of == body.parameters[other]:
                yield "exchange", place, place, f" let ({name}, {other}) = ({other}, {name});"


def of_errors(body):
    """An error that becomes OutOfMemory, or is passed over."""
    for at, word in enumerate(body.words):
        if word == "?" and body.words[at - 1] == ")" and body.without_memory():
            name = body.opened[at - 1] - 1
            given = body.known.calls.get(body.words[name], ([], ""))[1]
            # Of missing memory alone it would be the same, and so it is of most methods of others.
            is_own = body.words[name - 1] != "." or body.words[name - 2] == "self"
            if is_own and given.startswith("Result<") and not given.endswith("AllocError>"):
                yield "error", body.place(at), body.end(at), f".map_err(|_| {body.without_memory()})?"
        if word == "(" and body.words[at - 1] == "unwrap_or":
            yield "error", body.place(at + 1), body.end(body.pairs[at] - 1), "1" if body.words[at + 1] == "0" else "0"


def of_texts(body):
    """A text without its last letter, or with two of its places exchanged."""
    for at, word in enumerate(body.words):
        holes = re.findall(r"\{\w+\}", word) if word[0] == '"' else []
        if len(holes) > 1:
            changed = word.replace(holes[0], "\0").replace(holes[1], holes[0]).replace("\0", holes[1])
            yield "text", body.place(at), body.end(at), changed
        if re.fullmatch(r'b?"[^"\\]*[\w ]"', word) and not body.in_pattern(at):
            yield "text", body.place(at), body.end(at), word[:-2] + '"'


def of_state(body):
    """State behind a `&mut` that takes another value after the body, or is as it was before."""
    opened, closed = body.end(0), body.place(body.pairs[0]) if 0 in body.pairs else body.end(0)
    for place, of in body.state():
        target = place if "." in place or of.startswith("[") else f"*{place}"
        changes = changes_of(place, target, of, body.known)
        # A contract that names no room lets all of it go.
        if of.startswith("Vec<") and body.names_room:
            changes.append(f"if let Ok(again) = {place}.clone() {{ {target} = again; }}")
        for change in changes:
            yield STATE, opened, closed, f" let given = {{{WHOLE}}}; {change} given "
        if re.search(rf"{re.escape(target)} [-+]?= ", body.text[opened:closed]) and (of in NUMBERS or of == "bool"):
            yield STATE, opened, closed, f" let kept = {target}; let given = {{{WHOLE}}}; {target} = kept; given "


def changes_of(place, target, of, known):
    """Statements that give a place of a type another value."""
    if of.startswith("Vec<"):
        return [f"{place}.clear();"]
    if of.startswith("["):
        return [f"{place}.fill(0);" if of[1:].split(";")[0].rstrip("]") in NUMBERS else f"{place}.reverse();"]
    if of == "bool":
        return [f"{target} = !{target};"]
    values = ["0", f"{of}::MAX"] if of in NUMBERS else ["None"] if of.startswith("Option<") else answers(of, known)
    return [f"{target} = {it};" for it in values]
