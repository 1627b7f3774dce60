"""Forty transactions of SQLAlchemy over a pool of five connections by eight threads, in another order each time:
sqlalchemy_pool.py"""

import os
import random
from concurrent.futures import ThreadPoolExecutor

from sqlalchemy import create_engine, text
from sqlalchemy.pool import QueuePool

engine = create_engine(f"postgresql+psycopg2://postgres@{os.environ['PGHOST']}:{os.environ['PGPORT']}/postgres",
                       poolclass=QueuePool, pool_size=5, max_overflow=0)
with engine.begin() as connection:
    connection.execute(text("DROP TABLE IF EXISTS pooled"))
    connection.execute(text("CREATE TABLE pooled (id int PRIMARY KEY, word text)"))
for connection in [engine.connect() for _ in range(5)]:
    connection.close()


def work(number):
    """One transaction, in which a savepoint is undone now and then."""
    with engine.begin() as connection:
        connection.execute(text("INSERT INTO pooled VALUES (:id, :word)"), {"id": number, "word": f"word {number}"})
        if number % 4 == 0:
            with connection.begin_nested() as inner:
                connection.execute(text("DELETE FROM pooled WHERE id = :id"), {"id": number})
                inner.rollback()
        return connection.execute(text("SELECT word FROM pooled WHERE id = :id"), {"id": number}).scalar()


numbers = list(range(40))
random.shuffle(numbers)
with ThreadPoolExecutor(8) as threads:
    words = dict(zip(numbers, threads.map(work, numbers)))
print(sorted(words.items()))
with engine.connect() as connection:
    print(connection.execute(text("SELECT count(*) FROM pooled")).scalar())
engine.dispose()
