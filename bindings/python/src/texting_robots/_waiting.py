"""Requests that wait on disk for sites whose robots.txt files can't be fetched now."""

from __future__ import annotations

import io
import logging
import os
import pickle
import sqlite3
import stat
import sys
import time
from typing import Any, Final

from scrapy.http import Request
from scrapy.utils.request import request_from_dict

logger = logging.getLogger(__name__)

_TABLE: Final = """CREATE TABLE IF NOT EXISTS requests
    (row INTEGER PRIMARY KEY, address TEXT, until REAL, is_given INTEGER, request BLOB)"""
_MOST_FILES: Final = 100  # of the same spider, each in a process of its own
_BATCH: Final = 500


class _Plain(pickle.Unpickler):
    """Reads dicts, lists, texts, numbers and so on, and nothing for which code would be run."""

    def find_class(self, module: str, name: str) -> Any:
        raise pickle.UnpicklingError(f"{module}.{name}")


def _packed(request: Any, spider: Any) -> bytes | None:
    """A request as bytes, if it consists of plain values, and of methods of the spider."""
    try:
        packed = pickle.dumps(request.to_dict(spider=spider), 4)
        _Plain(io.BytesIO(packed)).load()
        return packed
    except Exception:  # of any object in it
        return None


class WaitingRequests:
    """Requests by the addresses of the files that they wait for: in a file that no other process has open and no other user can read, or
    without a path in a temporary one. It takes over those of processes that have ended. A row stays until its request comes to be made."""

    def __init__(self, path: str, spider: Any) -> None:
        self._path, self._spider, self._row = path, spider, 0
        self._connection = self._opened()
        self._execute("UPDATE requests SET is_given = 0")
        if self._path:
            self._take_over(path)

    @property
    def is_kept(self) -> bool:
        """Whether there is a file for the next start."""
        return bool(self._path)

    def put(self, address: str, until: float, request: Any) -> bool:
        """Writes a request, and says whether that was possible."""
        packed = _packed(request, self._spider)
        return packed is not None and self._insert(address, until, packed)

    def take(self, row: int) -> bool:
        """Removes a row, as its request is being made. False if another copy of the request was before it."""
        done = self._execute("DELETE FROM requests WHERE row = ?", (row,))
        return done is None or done.rowcount > 0

    def first(self, address: str) -> Any:
        """One of the requests that wait for this file, or another one to its site if that can't be read."""
        rows = self._execute("SELECT request FROM requests WHERE address = ? LIMIT 1", (address,))
        found = rows.fetchone() if rows else None
        return (found and self._request(found[0])) or Request(address)

    def give(self, address: str, until: float) -> list[tuple[int, float, Any]]:
        """Some of the requests that wait for this file, and do so until this time at the latest, with their rows and times; None for one that
        can't be read."""
        rows = self._execute(
            "SELECT row, until, request FROM requests WHERE address = ? AND NOT is_given AND until <= ? ORDER BY row LIMIT ?", (address, until, _BATCH)
        )
        found = rows.fetchall() if rows else []
        for row, _, _ in found:
            self._execute("UPDATE requests SET is_given = 1 WHERE row = ?", (row,))
        return [(row, its_until, self._request(packed)) for row, its_until, packed in found]

    def counts(self) -> dict[str, int]:
        """How many requests wait for each file."""
        rows = self._execute("SELECT address, count(*) FROM requests WHERE NOT is_given GROUP BY address")
        return dict(rows.fetchall()) if rows else {}

    def renew(self, until: float | None) -> int:
        """Requests of an earlier start wait until this time, or if there is none only those stay whose time isn't over. Returns how many
        don't."""
        if until is not None:
            self._execute("UPDATE requests SET until = ?", (until,))
        done = self._execute("DELETE FROM requests WHERE until < ?", (time.time(),))
        return done.rowcount if done else 0

    def close(self) -> int:
        """Closes the file, or removes one in which no request is left. Returns how many are."""
        rows = self._execute("SELECT count(*) FROM requests")
        left: int = rows.fetchone()[0] if rows else 0
        self._connection.close()
        if self._path and not left:
            os.unlink(self._path)
        return left

    def _insert(self, address: str, until: float, packed: bytes) -> bool:
        self._row = max(self._row + 1, time.time_ns() // 1000)  # which no row had before
        return self._execute("INSERT INTO requests VALUES (?, ?, ?, 0, ?)", (self._row, address, until, packed)) is not None

    def _take_over(self, path: str) -> None:
        """Moves here what is in the spider's files that no process has open."""
        for other in _paths(path):
            if other == self._path or not os.path.exists(other):
                continue
            try:
                connection = _exclusive(other)
            except (OSError, sqlite3.Error):
                continue
            try:
                rows = connection.execute("SELECT address, until, request FROM requests ORDER BY row")
                is_done = bool(self._execute("BEGIN")) and all(self._insert(*row) for row in rows) and bool(self._execute("COMMIT"))
            except sqlite3.Error:
                is_done = False
            connection.close()
            if is_done:
                os.unlink(other)
            elif self._connection.in_transaction:
                self._execute("ROLLBACK")

    def _request(self, packed: bytes) -> Any:
        """The request, or None if the spider has no such method any more."""
        try:
            values = _Plain(io.BytesIO(packed)).load()
            _check_class(values.get("_class", ""), self._spider)
            return request_from_dict(values, spider=self._spider)
        except Exception as error:
            logger.warning("a request that waits on disk can't be read: %s", error, extra={"spider": self._spider})
            return None

    def _execute(self, statement: str, values: tuple[object, ...] = ()) -> sqlite3.Cursor | None:
        try:
            return self._connection.execute(statement, values)
        except sqlite3.Error as error:
            logger.warning("requests can't wait on disk: %s", error, extra={"spider": self._spider})
            return None

    def _opened(self) -> sqlite3.Connection:
        """The first of the spider's files that no process has open, or a temporary one."""
        for path in _paths(self._path) if self._path else ():
            try:
                connection = _exclusive(path)
            except (OSError, sqlite3.Error) as error:
                if not isinstance(error, sqlite3.OperationalError):
                    logger.warning("%s isn't used for requests that wait: %s", path, error, extra={"spider": self._spider})
                continue
            self._path = path
            return connection
        self._path = ""
        return _exclusive("")


def _check_class(path: str, spider: Any) -> None:
    """Raises ImportError where the class of a request is in a module that would have to be imported, and isn't the spider's or Scrapy's."""
    module = path.rpartition(".")[0]
    if path and module not in sys.modules and module.partition(".")[0] not in ("scrapy", type(spider).__module__.partition(".")[0]):
        raise ImportError(f"the class {path} is in a module that isn't imported")


def _paths(path: str) -> list[str]:
    """Those of a spider's files."""
    return [path, *(f"{path}.{number}" for number in range(2, _MOST_FILES + 1))]


def _exclusive(path: str) -> sqlite3.Connection:
    """A file that nobody else has open, or can read or write; without a path a temporary one."""
    if path:
        try:
            os.close(os.open(path, os.O_RDWR | os.O_CREAT | os.O_EXCL, 0o600))
        except FileExistsError:
            pass  # and isn't opened here: to close it would end a lock that this process has
        found = os.lstat(path)
        if not stat.S_ISREG(found.st_mode) or found.st_uid != os.geteuid() or found.st_mode & 0o077:
            raise PermissionError("others than this user could read or write it")
    connection = sqlite3.connect(path, timeout=0, isolation_level=None, check_same_thread=False)
    try:
        connection.execute("PRAGMA locking_mode = EXCLUSIVE")
        connection.execute("PRAGMA journal_mode = WAL")
        connection.execute("PRAGMA synchronous = NORMAL")
        connection.execute("BEGIN EXCLUSIVE")
        connection.execute(_TABLE)
        connection.execute("CREATE INDEX IF NOT EXISTS by_address ON requests (address, is_given)")
        connection.execute("COMMIT")
    except sqlite3.Error:
        connection.close()
        raise
    return connection
