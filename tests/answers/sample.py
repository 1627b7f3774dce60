#!/usr/bin/env python3
"""Writes the stored sample: pg_answers/stdin and stdout.

    sample.py ORIGINAL OURS

Keeps bodies on which the two programs (`answers.py`) agree, and for each what the original answers.
They are those of `tags` and `handmade`; and from one seed good ones of each tag; each front of a good one
of each tag, and that one with each byte changed; and of many damaged ones, the short ones first, those
with a form of a part of an answer that few before them show.
"""

import argparse
import pathlib
import random
import re
import sys

sys.dont_write_bytecode = True

from answers import both, lines_of, without_reasons
from bodies import TAGS, damaged, line, tags
from good_bodies import TYPED, UNTYPED
from handmade_bodies import handmade

SEED = 20261122

# How many good bodies of each tag are kept. The median of them by length is the one that is changed.
GOOD = 8

# How many damaged bodies are looked through, and how often each form is shown.
DAMAGED = 400_000
TIMES = 4

FOLDER = pathlib.Path(__file__).parent / "pg_answers"


def good_bodies(rng):
    """Some good bodies of each tag."""
    makers = {**TYPED, **UNTYPED, "x": TYPED["C"]}
    return {tag: sorted((makers[tag](rng) for _ in range(GOOD)), key=len) for tag in sorted(set(TAGS))}


def with_one_change(rng, body):
    """Each front of the body, and the body with each byte changed."""
    for at in range(len(body)):
        yield body[:at]
        yield body[:at] + bytes([body[at] ^ 1 << rng.randrange(8)]) + body[at + 1:]


# What stands for itself in an answer: a missing value, no bytes, a flag, a word.
WORD = re.compile("none|-|[01]|ok|original|internal|cleartext|md5|sasl[a-z]*|[A-Z][A-Za-z]*")


def form(value):
    """What kind of value a part of an answer has."""
    if ":" in value:
        return ":".join(form(part) for part in value.split(":"))
    if WORD.fullmatch(value):
        return value
    return "below 0" if value.startswith("-") else f"{len(value) > 9} {value.isdigit()}"


def forms_of_part(key, value):
    """The forms of a part of an answer: in a list, how many items, and each place in them."""
    if not value.startswith("["):
        return {(key, form(value))}
    items = [item.split(":") for item in value[1:-1].split(",")] if value != "[]" else []
    places = {(key, at, form(part)) for item in items for at, part in enumerate(item)}
    return {(key, len(items[:3])), *places}


def forms(answer):
    """The forms of the parts of an answer, or the reason of the refusal without what it quotes."""
    name, word, *parts = answer.split(" ", 2)
    if word != "ok":
        return {(name, re.sub(r"[\"'`].*|\d+", "_", " ".join([word, *parts])))}
    pairs = [part.partition("=") for part in " ".join(parts).split()]
    return {(name, *found) for key, _, value in pairs for found in forms_of_part(key, value)}


def chosen(answered):
    """The bodies that show a form which has not been shown often enough."""
    shown = {}
    for tag, body, original, _ in answered:
        found = forms(original)
        if any(shown.get(one, 0) < TIMES for one in found):
            yield tag, body
            for one in found:
                shown[one] = shown.get(one, 0) + 1


def agreed(programs, bodies):
    """The bodies on which the programs agree, with their answers."""
    return [case for case in both(programs, bodies) if without_reasons(case[2]) == case[3]]


def sample(programs):
    """The tags and bodies that are kept."""
    rng = random.Random(SEED)
    good = good_bodies(rng)
    first = [*tags(), *handmade()]
    first += [(tag, body) for tag, bodies in good.items() for body in bodies]
    first += [(tag, body) for tag, bodies in good.items()
              for body in with_one_change(rng, bodies[GOOD // 2])]
    many = sorted(set(damaged(SEED, DAMAGED)), key=lambda case: (len(case[1]), case))
    kept = [(tag, body) for tag, body, *_ in agreed(programs, first)]
    return list(dict.fromkeys(kept + list(chosen(agreed(programs, many)))))


def main():
    parser = argparse.ArgumentParser(description=__doc__, formatter_class=argparse.RawDescriptionHelpFormatter)
    for name in ("ORIGINAL", "OURS"):
        parser.add_argument(name)
    programs = [*vars(parser.parse_args()).values()]
    bodies = sample(programs)
    answers = lines_of([programs[0], "decode"], bodies)
    (FOLDER / "stdin").write_text("".join(line(*case) + "\n" for case in bodies))
    (FOLDER / "stdout").write_text("".join(answer + "\n" for answer in answers))
    print(f"{len(bodies)} bodies")


if __name__ == "__main__":
    main()
