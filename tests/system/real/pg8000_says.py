"""Speaks by pg8000, with a password where it is asked for one, and prints what it hears."""

import os

import pg8000

connection = pg8000.connect(user="by_md5", host=os.environ["PGHOST"], port=int(os.environ["PGPORT"]), database="postgres",
                            password="pass word '1")
cursor = connection.cursor()
cursor.execute("CREATE TEMPORARY TABLE said (id int, word text)")
cursor.executemany("INSERT INTO said VALUES (%s, %s)", [(number, f"word {number}") for number in range(3)])
connection.commit()
cursor.execute("SELECT * FROM said WHERE id > %s ORDER BY id", (0,))
print(cursor.fetchall())
for number in range(3):
    cursor.execute("SELECT word FROM said WHERE id = %s", (number,))
    print(cursor.fetchone())
try:
    cursor.execute("SELECT 1 / 0")
except pg8000.Error as error:
    print(type(error).__name__)
connection.rollback()
cursor.execute("SAVEPOINT one")
cursor.execute("ROLLBACK TO one")
connection.commit()
connection.close()
