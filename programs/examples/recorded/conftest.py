"""With pytest the tests run on their recording, and `pytest --pg-record` makes it anew beside a server."""

import pytest


@pytest.fixture(autouse=True)
def on_a_recording(pg_tape):
    """PGHOST and PGPORT lead to tapes/test_people.tape while a test runs."""
