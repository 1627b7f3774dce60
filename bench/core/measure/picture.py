"""The picture of the times: a bar for each side and row, with its spread, over the original's time."""

from html import escape

COLOURS = {"ours": "#2f6fb0", "postgres-protocol": "#d98b2b", "pgproto3": "#7a9e4f"}

LEFT, WIDTH, TOP = 330, 520, 56
BAR, GAP = 12, 9

# The axis ends here. A longer bar is cut off, and its number tells.
END = 2.5

STYLE = (
    "text{font:11px sans-serif;fill:#222}.head{font-weight:bold}.grid{stroke:#ddd}"
    ".one{stroke:#222}.spread{stroke:#222;stroke-width:1.2}"
)


def x(ratio):
    return LEFT + WIDTH * min(ratio, END) / END


def line(kind, x1, y1, x2, y2):
    return f'<line class="{kind}" x1="{x1:.1f}" y1="{y1:.1f}" x2="{x2:.1f}" y2="{y2:.1f}"/>'


def text(at, y, words, extra=""):
    return f'<text x="{at:.1f}" y="{y:.1f}"{extra}>{escape(words)}</text>'


def bar(y, side, ratios):
    """A side's bar, its spread as a line, and the number after both."""
    middle, low, high = ratios
    yield (
        f'<rect x="{LEFT}" y="{y}" width="{x(middle) - LEFT:.1f}" height="{BAR}"'
        f' fill="{COLOURS[side]}"/>'
    )
    yield line("spread", x(low), y + BAR / 2, x(high), y + BAR / 2)
    yield text(max(x(middle), x(high)) + 5, y + BAR - 2, f"{middle:.2f}")


def legend():
    yield text(10, 20, "Processor time over the original's, with the first to the last tenth", ' class="head"')
    at = LEFT
    for side, colour in COLOURS.items():
        yield f'<rect x="{at}" y="30" width="11" height="11" fill="{colour}"/>'
        yield text(at + 15, 40, side)
        at += 30 + 7 * len(side)


def axis(bottom):
    for tick in range(int(END / 0.5) + 1):
        at = x(tick * 0.5)
        yield line("one" if tick == 2 else "grid", at, TOP, at, bottom)
        yield text(at, TOP - 4, f"{tick * 0.5:.1f}", ' text-anchor="middle"')


def picture(rows):
    """The SVG of all rows that the original has too."""
    bars, y = [], TOP + GAP
    for row in rows:
        found = {side: row.of_original(side) for side in COLOURS if side in row.times}
        if "original" not in row.times:
            continue
        middle = y + BAR * len(found) / 2 + 4
        bars.append(text(LEFT - 8, middle, f"{row.case}, {row.how}", ' text-anchor="end"'))
        for side, ratios in found.items():
            bars += bar(y, side, ratios)
            y += BAR
        y += GAP
    parts = [*legend(), *axis(y), *bars]
    return (
        f'<svg xmlns="http://www.w3.org/2000/svg" width="{LEFT + WIDTH + 60}" height="{y + 10}">\n'
        f'<style>{STYLE}</style>\n<rect width="100%" height="100%" fill="white"/>\n'
        + "\n".join(parts)
        + "\n</svg>\n"
    )
