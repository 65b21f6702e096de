#!/usr/bin/env python3
"""The databases of crates/wm_test_outside/data, which SQLite itself makes, by Python's sqlite3:

    python3 bench/stores.py crates/wm_test_outside/data
"""
import os
import sqlite3
import sys

TABLE = """CREATE TABLE wmrow (tab INTEGER NOT NULL, k TEXT NOT NULL, body TEXT NOT NULL, PRIMARY KEY (tab, k)) STRICT"""

DATABASES = {
    # the table as SQLite itself keeps its text
    "made.db": [],
    # numbers that are no table's
    "great.db": ["INSERT INTO wmrow VALUES (255, 'A', 'x'), (256, 'A', 'x')"],
    "negative.db": ["INSERT INTO wmrow VALUES (255, 'A', 'x'), (-1, 'A', 'x')"],
    # a body and a key that are no texts
    "body.db": ["INSERT INTO wmrow VALUES (1, 'A', CAST(x'780a' AS TEXT)), (1, 'B', 'y')"],
    "key.db": ["INSERT INTO wmrow VALUES (1, CAST(x'411f' AS TEXT), 'x')"],
    # an index that refuses a second row of a body
    "index.db": ["INSERT INTO wmrow VALUES (1, 'A', 'x')", "CREATE UNIQUE INDEX one ON wmrow (body)"],
}

for name, statements in DATABASES.items():
    path = os.path.join(sys.argv[1], name)
    if os.path.exists(path):
        os.remove(path)
    database = sqlite3.connect(path, isolation_level=None)
    for statement in ["PRAGMA page_size = 512", TABLE, *statements]:
        database.execute(statement)
    database.close()
