"""What a case is to reach."""

# The most time over the original's, by the case's letter and how.
OVER_ORIGINAL = {
    ("a", "prepared"): 0.8,
    ("a", "encode_all"): 0.9,
    ("a", "script"): 0.95,
    ("b", "prepared"): 0.95,
    ("b", "encode_all"): 1.0,
    ("b", "encode_strict"): 1.1,
    ("b", "script"): 0.85,
    ("e", "body"): 0.7,
    ("e", "stream"): 0.7,
    ("g", "body"): 0.7,
    ("g", "stream"): 0.7,
}

# The most time of `encode_strict` over that of `encode_all`.
STRICT = {"a": 1.2, "b": 1.3}

# The most time of a stream in pieces over the original's, for each size of a piece.
PIECES = 1.0

# The most time over postgres-protocol's where it isn't 1.0: each name of a column asks for memory.
OVER_POSTGRES_PROTOCOL = {("e", "stream"): 1.2}


def over_original(case, how):
    return OVER_ORIGINAL.get((case[0], how), None if how == "encode_strict" else 1.0)


def over_postgres_protocol(case, how):
    """Nothing is asked where it has no such form, or ours does more."""
    if how in ("body", "encode_strict"):
        return None
    is_small = how == "borrowed" and case != "d DataRow 1 x 64 KiB"
    return OVER_POSTGRES_PROTOCOL.get((case[0], how), 0.8 if is_small else 1.0)
