"""Makes changes that a program follows, and compares its lines of JSON with them:

    followed.py run PORT        makes the changes, of tables and a publication that are there
    followed.py compare FILE    fails where a line is missing, comes twice, or is another one
"""

import json
import sys

import asked
from logical import Session

MANY, TIMES = 4000, 400

# What JSON writes in another way, and a text of several bytes a character.
ODD = 'a "b" \\ c\t\n\x01 Grüße'


def row(number, word):
    return {"id": str(number), "word": word}


def steps():
    """Statements of a transaction each, and the changes that they make."""
    yield ([f"INSERT INTO kept SELECT n, 'one of many' FROM generate_series(1, {MANY}) n"],
           [("insert", "kept", {"new": row(number, "one of many")}) for number in range(1, MANY + 1)])
    for number in range(1, TIMES):
        word = f"{ODD}{number}"
        yield ([f"INSERT INTO followed VALUES ({number}, '{word}')", f"UPDATE followed SET word = NULL WHERE id = {number}",
                f"UPDATE followed SET id = -{number} WHERE id = {number}"],
               [("insert", "followed", {"new": row(number, word)}),
                ("update", "followed", {"new": row(number, None)}),
                ("update", "followed", {"old": row(number, None), "new": row(-number, None)})])
        yield ([f"DELETE FROM followed WHERE id = -{number}", f"UPDATE kept SET word = 'other' WHERE id = {number}",
                f"DELETE FROM kept WHERE id = {number}"],
               [("delete", "followed", {"old": row(-number, None)}),
                ("update", "kept", {"old": row(number, "one of many"), "new": row(number, "other")}),
                ("delete", "kept", {"old": row(number, "other")})])
    yield ["TRUNCATE followed, kept"], [("truncate", "followed", {}), ("truncate", "kept", {})]


def run(port):
    with Session(port) as session:
        for statements, _ in steps():
            session.run("BEGIN", *statements, "COMMIT")


def compare(path):
    due = []
    for _, changes in steps():
        due += [{"change": what, "table": f"public.{table}", **rows} for what, table, rows in changes]
        due.append("commit")
    with open(path, encoding="utf-8") as file:
        lines = [json.loads(line) for line in file]
    positions = [line["commit"] for line in lines if "commit" in line]
    if positions != sorted(set(positions)):
        sys.exit("a commit doesn't come after the one before it")
    for number, (line, wanted) in enumerate(zip(lines, due), 1):
        if line != wanted and not (wanted == "commit" and wanted in line):
            sys.exit(f"line {number} is {line}, and not {wanted}")
    if len(lines) != len(due):
        sys.exit(f"{len(lines)} lines, and not {len(due)}")
    print(f"{len(lines) - len(positions)} changes of {len(positions)} transactions")


def main():
    match asked.words(__doc__, run="PORT", compare="FILE"):
        case "run", port:
            run(port)
        case "compare", path:
            compare(path)


if __name__ == "__main__":
    main()
