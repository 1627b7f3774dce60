"""A Django application and its fifteen tests, each within a savepoint of its class's transaction: django_suite.py [--keepdb]

It speaks to the server that PGHOST and PGPORT name, which keeps the tests' database with --keepdb.
"""

import os
import sys
import unittest
import uuid

import django
from django.conf import settings

settings.configure(
    DATABASES={"default": {"ENGINE": "django.db.backends.postgresql", "HOST": os.environ["PGHOST"],
                           "PORT": os.environ["PGPORT"], "USER": "postgres", "NAME": "postgres",
                           "TEST": {"NAME": "django_suite"}}},
    DEFAULT_AUTO_FIELD="django.db.models.AutoField", USE_TZ=True, SECRET_KEY="none", INSTALLED_APPS=[])
django.setup()

from django.db import IntegrityError, connection, models, transaction  # noqa: E402
from django.test import TestCase, TransactionTestCase  # noqa: E402
from django.test.runner import DiscoverRunner  # noqa: E402


class Person(models.Model):
    name = models.CharField(max_length=40, unique=True)
    coins = models.IntegerField(default=0)
    number = models.UUIDField(default=uuid.uuid4)
    made_at = models.DateTimeField(auto_now_add=True)

    class Meta:
        app_label = "people"


class PersonTest(TestCase):
    @classmethod
    def setUpTestData(cls):
        with connection.schema_editor() as editor:
            editor.create_model(Person)
        Person.objects.create(name="Ann", coins=10)
        Person.objects.create(name="Bob", coins=5)

    def test_counts(self):
        self.assertEqual(Person.objects.count(), 2)

    def test_finds(self):
        self.assertEqual(Person.objects.get(name="Ann").coins, 10)

    def test_finds_none(self):
        with self.assertRaises(Person.DoesNotExist):
            Person.objects.get(name="Cyd")

    def test_adds(self):
        Person.objects.create(name="Cyd")
        self.assertEqual(Person.objects.count(), 3)

    def test_changes(self):
        Person.objects.filter(name="Ann").update(coins=models.F("coins") + 1)
        ann = Person.objects.get(name="Ann")
        Person.objects.filter(name="Ann").update(coins=12)
        ann.refresh_from_db()
        self.assertEqual(ann.coins, 12)

    def test_deletes(self):
        Person.objects.get(name="Bob").delete()
        self.assertEqual(Person.objects.count(), 1)

    def test_refuses_a_second_name(self):
        with self.assertRaises(IntegrityError), transaction.atomic():
            Person.objects.create(name="Ann")
        self.assertEqual(Person.objects.count(), 2)

    def test_savepoint_is_undone(self):
        with self.assertRaises(ZeroDivisionError), transaction.atomic():
            Person.objects.create(name="Cyd")
            1 / 0
        self.assertEqual(Person.objects.count(), 2)

    def test_savepoints_in_savepoints(self):
        with transaction.atomic():
            Person.objects.create(name="Cyd")
            with self.assertRaises(ZeroDivisionError), transaction.atomic():
                Person.objects.create(name="Dan")
                1 / 0
        self.assertEqual(Person.objects.count(), 3)

    def test_orders(self):
        self.assertEqual([it.name for it in Person.objects.order_by("coins")], ["Bob", "Ann"])

    def test_sums(self):
        self.assertEqual(Person.objects.aggregate(models.Sum("coins")), {"coins__sum": 15})

    def test_many(self):
        Person.objects.bulk_create(Person(name=f"n{number}", coins=number) for number in range(100))
        self.assertEqual(Person.objects.filter(coins__gte=50).count(), 50)

    def test_iterates(self):
        Person.objects.bulk_create(Person(name=f"n{number}", coins=number) for number in range(100))
        self.assertEqual(sum(it.coins for it in Person.objects.iterator(chunk_size=30)), 4965)

    def test_gets_or_makes(self):
        self.assertEqual(Person.objects.get_or_create(name="Cyd")[1], True)
        self.assertEqual(Person.objects.get_or_create(name="Cyd")[1], False)

    def test_locks(self):
        self.assertEqual(Person.objects.select_for_update().get(name="Bob").coins, 5)


runner = DiscoverRunner(verbosity=0, interactive=False, keepdb="--keepdb" in sys.argv)
old = runner.setup_databases()
result = unittest.TextTestRunner(stream=open(os.devnull, "w")).run(unittest.defaultTestLoader.loadTestsFromTestCase(PersonTest))
runner.teardown_databases(old)
for _, words in result.errors + result.failures:
    print(words)
print(f"{result.testsRun} tests, {len(result.errors)} errors, {len(result.failures)} failures")
sys.exit(not result.wasSuccessful())
