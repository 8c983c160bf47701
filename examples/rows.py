"""Prints the rows of a database of `hnc`: key, version and body, in the order of keys.

Usage: python3 examples/rows.py FILE
"""
import sqlite3
import sys

database = sqlite3.connect(f"file:{sys.argv[1]}?mode=ro", uri=True)
for row in database.execute("SELECT key, version, body FROM objects ORDER BY key"):
    print(*row, sep="|")
