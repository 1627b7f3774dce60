"""What the tables of the programs are made of."""

NULL = b"\xff\xff\xff\xff"


def short(at, needed):
    """Fewer bytes than are needed from an offset on: the words say how many are there."""
    return lambda length: f"expected {needed} bytes at offset {at}, got {length - at}"


def no_nul(at):
    return f"expected NUL after offset {at}"


def lines(*words):
    return "".join(f"{line}\n" for line in words)


def listed(item, count):
    """A word of so many items."""
    return ",".join([item] * count)


def fronts(body, *answers):
    """Each front of a body with its answer: a pair is the length of a last front and the answer of all from the pair before on;
    an answer by itself is that of the whole body."""
    if len(answers) == 1 and isinstance(answers[0], str):
        yield body, answers[0]
        return
    begin = 0
    for last, answer in answers:
        for length in range(begin, last + 1):
            yield body[:length], answer(length) if callable(answer) else answer
        begin = last + 1
    assert begin == len(body) + 1, body


def cut(frames):
    """Each front of a stream of frames with its lines: those of whole frames, and how many bytes are left."""
    stream = b"".join(frame for frame, _ in frames)
    for length in range(len(stream) + 1):
        lines, left = [], length
        for frame, line in frames:
            if left < len(frame):
                break
            left -= len(frame)
            lines.append(line)
        yield stream[:length], [*lines, f"rest {left}"] if left else lines
