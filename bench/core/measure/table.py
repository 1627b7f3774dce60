"""The tables, as text and as Markdown: both are the same."""

import aims
from timing import ratio

NONE = ""

OTHERS = ("original", "postgres-protocol", "pgproto3")


def table(heads, lines, names=2):
    """A table of text, in columns of equal width, those of names to the left."""
    widths = [max(map(len, column)) for column in zip(heads, *lines)]
    rules = "|".join("-" * (width + 1) + "-:"[at >= names] for at, width in enumerate(widths))
    head, *rest = (
        "| " + " | ".join(map(aligned, line, widths, (at < names for at in range(len(widths))))) + " |"
        for line in (heads, *lines)
    )
    return "\n".join((head, f"|{rules}|", *rest))


def aligned(cell, width, is_name):
    return cell.ljust(width) if is_name else cell.rjust(width)


def number(value, form="{:.2f}"):
    return NONE if value is None else form.format(value)


def compared(ratios, aim):
    """A ratio with its spread."""
    if ratios is None:
        return NONE
    middle, low, high = ratios
    return f"{starred(middle, aim)} ({low:.2f} to {high:.2f})"


def starred(ratio, aim):
    """A ratio, with stars around it where it is above its aim."""
    text = f"{ratio:.2f}"
    return f"**{text}**" if aim is not None and round(ratio, 2) > aim else text


def times_table(rows):
    """One line for each row, with aims."""
    heads = ["case", "how", "ns a message", "over the original's", "aim"]
    heads += ["over postgres-protocol's", "aim", "over pgproto3's"]
    lines = []
    for row in rows:
        original = aims.over_original(row.case, row.how)
        peer = aims.over_postgres_protocol(row.case, row.how)
        has_peer = "postgres-protocol" in row.times
        lines.append([
            row.case,
            row.how,
            f"{row.nanoseconds():.1f}",
            compared(row.over("original"), original),
            number(original),
            compared(row.over("postgres-protocol"), peer),
            number(peer if has_peer else None),
            compared(row.over("pgproto3"), None),
        ])
    return table(heads, lines)


def main_table(rows):
    """The ways that every side has, without spread and aims."""
    heads = ["case", "ours, ns", *OTHERS]
    lines = []
    for row in rows:
        if row.how in ("prepared", "stream"):
            ratios = (row.over(side) for side in OTHERS)
            lines.append([row.case, f"{row.nanoseconds():.1f}", *(number(found and found[0]) for found in ratios)])
    return table(heads, lines, 1)


def instructions_table(rows):
    """The instructions of a message, of each side that callgrind runs."""
    heads = ["case", "how", "ours", "original", "postgres-protocol"]
    lines = [
        [row.case, row.how, *(number(row.instructions.get(side), "{:.0f}") for side in heads[2:])]
        for row in rows
        if row.instructions
    ]
    return table(heads, lines) if lines else NONE


def strict_lines(rows):
    """What `encode_strict` takes over `encode_all`."""
    times = {(row.case, row.how): row.times["ours"] for row in rows}
    for case, how in times:
        if how == "encode_strict" and (case, "encode_all") in times:
            aim = aims.STRICT.get(case[0])
            text = compared(ratio(times[case, how], times[case, "encode_all"]), aim)
            yield f"- {case}: {text}" + (f", aim {aim}" if aim else "")


def scale_table(scale, times):
    """The nanoseconds of a unit: a column for each size. A stream in pieces has its aim over the original's."""
    heads = ["side", "how", *map(str, scale.sizes)]
    jobs = dict.fromkeys(job for size in scale.sizes for job in times[size])
    lines = [
        [*job, *(number(times[size].get(job), "{:.3g}") for size in scale.sizes)]
        for job in jobs
    ]
    if scale.is_piece:
        ratios = (times[size]["ours", "pieces"] / times[size]["original", "pieces"] for size in scale.sizes)
        lines.append(["ours over the original's", "", *(starred(ratio, aims.PIECES) for ratio in ratios)])
    return table(heads, lines)
