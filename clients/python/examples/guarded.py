#!/usr/bin/env python3
"""Writes a page that one writer at a time may write, guarded by the numbers of its locks. Start it in two terminals, and stop the first
one (ctrl-Z): the second goes on once the server has let the first one's connection go; wake the first up, and the page refuses it.

usage: guarded.py SOCKET PAGE NAME [TIMES]

The server is one that stays: cluster_main serve --stay --listen unix:SOCKET --nodes a,b --idle 5
"""

import pathlib
import sqlite3
import sys
import time

sys.path.insert(0, str(pathlib.Path(__file__).resolve().parents[1]))

import yaltzumin


class Page:
    """A text in a file of SQLite, and the greatest number by which it was written."""

    def __init__(self, path: str) -> None:
        self._base = sqlite3.connect(path)
        with self._base:
            self._base.execute("CREATE TABLE IF NOT EXISTS page (id INTEGER PRIMARY KEY CHECK (id = 1), text TEXT, fence INTEGER)")
            self._base.execute("INSERT OR IGNORE INTO page VALUES (1, '', 0)")

    def write(self, text: str, number: int) -> bool:
        """Writes a text, unless it was written by a greater number; whether it did."""
        with self._base:
            return self._base.execute("UPDATE page SET text = ?, fence = ? WHERE fence <= ?", (text, number, number)).rowcount == 1


def main(place: str, path: str, name: str, times: int = 1_000_000) -> None:
    page = Page(path)
    with yaltzumin.connect(place) as server:
        with server.lock("page", server.spawn(), name) as number:
            for time_of in range(times):
                if not page.write(f"{name} {time_of}", number):
                    print(f"{name} is too late", flush=True)
                    return
                print(f"{name} has written", flush=True)
                # so the server knows that it lives, and it that it has the lock
                server.status()
                time.sleep(1)


if __name__ == "__main__":
    main(sys.argv[1], sys.argv[2], sys.argv[3], *map(int, sys.argv[4:]))
