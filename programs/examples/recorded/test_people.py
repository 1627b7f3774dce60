"""Tests of people.py, each with a session of its own. They know nothing of recordings.

    pytest --pg-record    # once, beside a server
    pytest                # without one

The same without pytest and the Python package:

    pg_record -o tapes/test_people.tape 6000 &
    pg_replay --any-order --again tapes/test_people.tape 6000 &
    PGHOST=127.0.0.1 PGPORT=6000 python3 -m unittest    # with either
"""

import unittest

import psycopg2.errors

from people import People


class PeopleTest(unittest.TestCase):
    def setUp(self):
        self.people = People()
        self.addCleanup(self.people.connection.close)

    def test_adds(self):
        self.people.add("ann", 5)
        self.assertEqual(self.people.coins("ann"), 5)

    def test_adds_without_coins(self):
        self.people.add("bob")
        self.assertEqual(self.people.coins("bob"), 0)

    def test_knows_nobody(self):
        self.assertIsNone(self.people.coins("nobody"))

    def test_refuses_a_name_twice(self):
        self.people.add("ann")
        with self.assertRaises(psycopg2.errors.UniqueViolation):
            self.people.add("ann")

    def test_refuses_debts(self):
        with self.assertRaisesRegex(psycopg2.errors.CheckViolation, "people_coins_check"):
            self.people.add("ann", -1)

    def test_pays(self):
        self.people.load("ann\t5\nbob\t1\n")
        self.people.pay("ann", "bob", 2)
        self.assertEqual((self.people.coins("ann"), self.people.coins("bob")), (3, 3))

    def test_pays_nothing_where_too_much(self):
        self.people.load("ann\t5\nbob\t1\n")
        with self.assertRaises(psycopg2.errors.CheckViolation):
            self.people.pay("ann", "bob", 6)
        self.assertEqual((self.people.coins("ann"), self.people.coins("bob")), (5, 1))

    def test_takes_any_name(self):
        name = "Ann 'O\\' Nübel \N{SNOWMAN}"
        self.people.add(name, 1)
        self.assertEqual(self.people.richest(1), [(name, 1)])

    def test_finds_the_richest(self):
        self.people.load("".join(f"p{number}\t{number * number % 101}\n" for number in range(100)))
        self.assertEqual(self.people.richest(2), [("p10", 100), ("p91", 100)])

    def test_refuses_a_line_without_a_number(self):
        with self.assertRaises(psycopg2.errors.InvalidTextRepresentation):
            self.people.load("ann\tmany\n")
        self.assertEqual(self.people.richest(1), [])


if __name__ == "__main__":
    unittest.main()
