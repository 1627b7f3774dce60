"""The fixture pg_tape for pytest, which finds this module by its entry point."""

from __future__ import annotations

from collections.abc import Iterator

import pytest

from .program import TapeError
from .recording import ReplayDiffers, Tape, tape
from .unit import check_recorded


def pytest_addoption(parser: pytest.Parser) -> None:
    """Adds the options of recordings."""
    group = parser.getgroup("pgmsg", "recordings of sessions with PostgreSQL")
    group.addoption(
        "--pg-record", action="store_true",
        help="record the modules that use pg_tape anew, by pg_record in front of the server that PGHOST and PGPORT name")
    group.addoption(
        "--pg-record-missing", action="store_true",
        help="replay the modules that use pg_tape, and record what isn't recorded, by that server")
    group.addoption(
        "--pg-whole", action="store_true",
        help="fail where the tests of a module don't take each session of its recording once")


def pytest_configure(config: pytest.Config) -> None:
    """Refuses to record modules anew by workers of pytest-xdist that share the tests of one: the last would have the recording."""
    if config.getoption("pg_record") and config.getoption("dist", "no") not in ("no", "loadfile"):
        raise pytest.UsageError(
            "--pg-record makes one recording of all tests of a module: give them to one worker by --dist loadfile, "
            "or remove the recordings and use --pg-record-missing, which adds to them")


@pytest.fixture(scope="module")
def pg_tape(request: pytest.FixtureRequest) -> Iterator[Tape]:
    """The recording of a module, tapes/MODULE.tape beside it. PGHOST and PGPORT lead to it while the tests run.

    `pg_tape_options` of the module has more options of pg_replay.
    """
    is_recorded = bool(request.config.getoption("pg_record"))
    is_renewed = bool(request.config.getoption("pg_record_missing"))
    path = request.path.parent / "tapes" / f"{request.path.stem}.tape"
    options = getattr(request.module, "pg_tape_options", ())
    try:
        if not is_recorded and not is_renewed:
            check_recorded(path, f"pytest --pg-record {request.path}")
        whole = bool(request.config.getoption("pg_whole"))
        how = tape(path, record=is_recorded, missing=is_renewed, options=options, whole=whole)
        with how as it, it.in_environment():
            yield it
    except (TapeError, ReplayDiffers) as error:
        pytest.fail(str(error), pytrace=False)


def pytest_exception_interact(node: object, report: object) -> None:
    """Shows what pg_replay reported so far with each test that fails."""
    it = getattr(node, "funcargs", {}).get("pg_tape")
    if isinstance(it, Tape) and isinstance(report, pytest.TestReport) and report.when == "call":
        if words := it.differences():
            report.sections.append(("pg_replay", words))
