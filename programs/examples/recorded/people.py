"""Keeps people and what they have, in a table of a PostgreSQL server: a program whose tests need no server."""

import io

import psycopg2


class People:
    """A session with the server that libpq's variables name. Its table is gone when it ends."""

    def __init__(self):
        self.connection = psycopg2.connect(user="postgres", dbname="postgres")
        with self.connection, self.connection.cursor() as cursor:
            cursor.execute("CREATE TEMPORARY TABLE people (name text PRIMARY KEY, coins int CHECK (coins >= 0))")

    def ask(self, query, *values):
        """Runs a query in a transaction of its own, and answers its rows."""
        with self.connection, self.connection.cursor() as cursor:
            cursor.execute(query, values)
            return cursor.fetchall() if cursor.description else cursor.rowcount

    def add(self, name, coins=0):
        self.ask("INSERT INTO people VALUES (%s, %s)", name, coins)

    def coins(self, name):
        """How many coins somebody has: None where there is nobody of this name."""
        rows = self.ask("SELECT coins FROM people WHERE name = %s", name)
        return rows[0][0] if rows else None

    def pay(self, giver, taker, coins):
        """Moves coins, or none where the giver has too few."""
        with self.connection, self.connection.cursor() as cursor:
            cursor.execute("UPDATE people SET coins = coins + %s WHERE name = %s", (coins, taker))
            cursor.execute("UPDATE people SET coins = coins - %s WHERE name = %s", (coins, giver))

    def load(self, lines):
        """Adds a person for each line: a name, a tab, a number."""
        with self.connection, self.connection.cursor() as cursor:
            cursor.copy_expert("COPY people FROM STDIN", io.StringIO(lines))

    def richest(self, count):
        return self.ask("SELECT name, coins FROM people ORDER BY coins DESC, name LIMIT %s", count)
