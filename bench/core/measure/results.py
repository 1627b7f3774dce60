"""What was measured: times in nanoseconds, and instructions, of a message or another unit."""

from dataclasses import dataclass, field

from cases import INSTEAD
from timing import ratio, typical


@dataclass
class Row:
    """A case, done in one way by ours, and how it compares with the others."""

    case: str
    how: str
    # by side: a list for each order, of the nanoseconds of a message in each round
    times: dict
    # by side: the instructions of a message
    instructions: dict = field(default_factory=dict)

    def nanoseconds(self, side="ours"):
        return typical(self.times[side])

    def over(self, side):
        """Our time over a side's: the median, the first and the last tenth. None where it has none."""
        return ratio(self.times["ours"], self.times[side]) if side in self.times else None

    def of_original(self, side):
        """A side's time over the original's."""
        return ratio(self.times[side], self.times["original"]) if side in self.times else None


def rows_of(case, times, counts):
    """The rows of a case, from the times of a pass by side and how, and the instructions likewise."""
    rows = []
    for how in case.hows:
        if ("ours", how) not in times:
            continue
        row = Row(case.name, how, {})
        for side, other in times:
            if other == (how if side == "ours" else INSTEAD.get(how, how)):
                row.times[side] = per(case.messages, times[side, other])
                if (side, other) in counts:
                    row.instructions[side] = counts[side, other] / case.messages
        rows.append(row)
    return rows


def per(count, times):
    return [[each / count for each in rounds] for rounds in times]
