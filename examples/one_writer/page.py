"""The resource: a page in an SQLite file, which is written by whoever holds the lock.

It keeps the highest fence that it has seen, and refuses a write with a lower one. That is one statement, so nothing
comes between.
"""
import sqlite3
from contextlib import closing


def make(path):
    """A page that nobody has written."""
    with closing(sqlite3.connect(path)) as page, page:
        page.execute("CREATE TABLE page (fence INTEGER, text TEXT)")
        page.execute("INSERT INTO page VALUES (0, '')")


def write(path, fence, text):
    """Writes the page. Whether it was written, and not refused."""
    with closing(sqlite3.connect(path)) as page, page:
        return page.execute("UPDATE page SET fence = ?, text = ? WHERE fence <= ?", (fence, text, fence)).rowcount == 1


def read(path):
    """The highest fence that the page has seen, and what was written with it."""
    with closing(sqlite3.connect(path)) as page:
        return page.execute("SELECT fence, text FROM page").fetchone()
