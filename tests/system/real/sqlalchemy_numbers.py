"""Jobs of a pool of two connections, each of which asks for the next number of a sequence in a transaction of its own, in the
order in which the jobs are given. Prints which number each got: sqlalchemy_numbers.py JOB.."""

import os
import sys
from concurrent.futures import ThreadPoolExecutor
from threading import Barrier

from sqlalchemy import create_engine, text
from sqlalchemy.pool import QueuePool

engine = create_engine(f"postgresql+psycopg2://postgres@{os.environ['PGHOST']}:{os.environ['PGPORT']}/postgres",
                       poolclass=QueuePool, pool_size=2, max_overflow=0)
both = Barrier(2)


def next_number(connection):
    return connection.execute(text("SELECT nextval('numbers')")).scalar()


def of_job(job):
    with engine.begin() as connection:
        # Each of two jobs has a connection, and they ask one after the other.
        both.wait()
        return next_number(connection)


jobs = sys.argv[1:]
with ThreadPoolExecutor(2) as threads:
    numbers = dict(zip(jobs, threads.map(of_job, jobs)))
print(sorted(numbers.items()))
engine.dispose()
