"""Files of sites in a sqlite3 database, which the processes of a machine share: each file is fetched by one of them, and by none again after
another start."""

from __future__ import annotations

import logging
import math
import os
import re
import sqlite3
import time
from typing import Any, Final, NamedTuple, Union
from weakref import WeakSet

logger = logging.getLogger(__name__)

Path = Union[str, "os.PathLike[str]"]
LOCK_SECONDS: Final = 0.2
"""For so long a lock of another program is waited for."""

_KEPT: Final = 30 * 86_400  # seconds after it was asked for last, for a file whose server may fail
_FORMAT: Final = 2
_MOST_PENDING: Final = 100
_MOST_KEPT: Final = 10_000  # while another program has a lock
_START: Final = 10.0  # for so many seconds a start or an end waits for others
_PAUSE: Final = 1.0  # seconds between two tries to write what is pending
_SITES: Final = """CREATE TABLE IF NOT EXISTS sites (address TEXT PRIMARY KEY, state INTEGER, expires REAL, refresh REAL,
    failing_since REAL, failures INTEGER, was_reached INTEGER, source TEXT, etag TEXT, packed BLOB) WITHOUT ROWID"""
_LEASES: Final = "CREATE TABLE IF NOT EXISTS leases (address TEXT PRIMARY KEY, until REAL, owner INTEGER) WITHOUT ROWID"
_TAKE_OVER: Final = """INSERT INTO sites SELECT address, state, expires, refresh,
    CASE WHEN is_failing OR state = 3 THEN min(expires, refresh) ELSE 0.0 END, is_failing OR state = 3, 1, source, etag, packed FROM format_1"""
_CLAIM: Final = """INSERT INTO leases VALUES (?1, ?2, ?3)
    ON CONFLICT (address) DO UPDATE SET until = ?2, owner = ?3 WHERE owner = ?3 OR until <= ?4"""


_PROCESS: Final = 32  # the bits of an owner below those of its process
_CAN_NOT: Final = re.compile("unable to open|readonly|permission", re.I)


class Record(NamedTuple):
    """What is kept of a site: see `texting_robots.cache.KnownSite`."""

    address: str
    state: int
    expires: float
    refresh: float
    failing_since: float
    failures: int
    was_reached: bool
    source: str
    etag: str
    packed: bytes


class Disk:
    """A database of sites. One that fails later on, as on a full disk, is a warning, and what it can't keep is fetched again. While another
    program has a lock, what there is to write is kept in memory."""

    def __init__(self, path: Path, now: float) -> None:
        """Opens or makes the database. A file that is no such database is put aside with a warning; one that can't be opened, as in a missing
        folder, raises sqlite3.OperationalError."""
        self._path = os.fspath(path)
        self._pending: dict[str, Record] = {}
        self._due = math.inf  # when what is pending is to be written, and
        self._locked_until = 0.0  # until when no lock is waited for, or 0.0: both by the clock that can't be set
        self._connection: sqlite3.Connection | None = None
        self._is_used = True
        self._open(now)
        _OPEN.add(self)

    def get(self, address: str) -> Record | None:
        """What was kept of the site with this address."""
        pending = self._pending.get(address)
        rows = [] if pending else self._tried("SELECT * FROM sites WHERE address = ?", (address,))
        return Record(*rows[0]) if rows else pending

    def put(self, record: Record, is_last: bool) -> None:
        """Keeps a site in place of what was kept of it, and ends the lease for its request. It is written with others, at once if it is the
        last one for now."""
        if not self._is_used:
            return
        if len(self._pending) >= _MOST_KEPT:
            del self._pending[next(iter(self._pending))]
        self._pending[record.address] = record
        self._due = min(self._due, time.monotonic() + _PAUSE)
        if is_last or len(self._pending) >= _MOST_PENDING:
            self.write()

    def write_if_due(self) -> None:
        """Writes what has been pending for long enough."""
        if self._due <= time.monotonic():
            self.write()

    def write(self, *more: tuple[str, tuple[object, ...]]) -> int:
        """Writes what is pending, and runs these statements, in one transaction. Returns how many rows the last statement changed, or -1 if it
        couldn't be run."""
        connection = self._ready()
        if not connection:
            return -1
        try:
            connection.execute("BEGIN IMMEDIATE")
            if self._pending:
                connection.executemany("INSERT OR REPLACE INTO sites VALUES (?, ?, ?, ?, ?, ?, ?, ?, ?, ?)", self._pending.values())
                ends = [(address, self._owner) for address in self._pending]
                connection.executemany("DELETE FROM leases WHERE address = ? AND owner = ?", ends)
            changed = 0
            for statement, values in more:
                changed = connection.execute(statement, values).rowcount
            connection.execute("COMMIT")
        except sqlite3.Error as error:
            self._failed(error)
            return -1
        self._pending.clear()
        self._due = math.inf
        return changed

    def claim(self, address: str, now: float, until: float) -> bool:
        """Whether this process may make the request for a site's file: until this time, or its end, no other one does. Where that can't be
        found out, it may."""
        if self.write((_CLAIM, (address, until, self._owner, now))) != 0:
            return True
        rows = self._tried("SELECT owner FROM leases WHERE address = ?", (address,))
        if not rows or _is_running(rows[0][0] >> _PROCESS):
            return False
        return self.write(("UPDATE leases SET until = ?, owner = ? WHERE address = ? AND owner = ?", (until, self._owner, address, *rows[0]))) != 0

    def release(self, address: str) -> None:
        """Ends the lease for a request that isn't made."""
        self._tried("DELETE FROM leases WHERE address = ? AND owner = ?", (address, self._owner))

    def close(self) -> None:
        """Writes what is pending, ends all leases and closes the database, in which nothing is kept from now on."""
        self._locked_until = 0.0
        self._tried(f"PRAGMA busy_timeout = {_START * 1000:.0f}", ())
        self.write(("DELETE FROM leases WHERE owner = ?", (self._owner,)))
        self.pause()
        self._is_used = False

    def pause(self) -> None:
        """Closes the database until it is used again, here or in a child: a connection must not be open during a fork, nor lead to another."""
        if self._connection:
            self._connection.close()
        self._connection = None

    def _open(self, now: float) -> None:
        self._process = os.getpid()
        self._owner = self._process << _PROCESS | int.from_bytes(os.urandom(4), "big")
        try:
            self._connection = _patient_connection(self._path, now)
        except sqlite3.DatabaseError as error:
            if _is_locked(error):
                logger.warning("the database of robots.txt files isn't used, as another program has it: %s", error)
                self._is_used = False
                return
            if isinstance(error, sqlite3.OperationalError) and _CAN_NOT.search(str(error)):
                raise
            aside = f"{self._path}.damaged"
            logger.warning("the database of robots.txt files is begun anew, and the old file is now %s: %s", aside, error)
            for end in ("-wal", "-shm", ""):
                if os.path.exists(self._path + end):
                    os.replace(self._path + end, aside + end)
            self._connection = _patient_connection(self._path, now)

    def _connected(self) -> sqlite3.Connection | None:
        if self._connection is None and self._is_used:
            try:
                if self._process != os.getpid():
                    self._pending.clear()  # the parent's
                    self._open(0)
                else:
                    self._connection = _patient_connection(self._path, 0)
            except sqlite3.Error as error:
                self._end(error)
        return self._connection

    def _ready(self) -> sqlite3.Connection | None:
        """The connection, which waits for a lock at most once in a second."""
        connection = self._connected()
        if connection and self._locked_until:
            is_over = self._locked_until <= time.monotonic()
            self._locked_until = 0.0 if is_over else self._locked_until
            connection.execute(f"PRAGMA busy_timeout = {LOCK_SECONDS * 1000 if is_over else 0:.0f}")
        return connection

    def _tried(self, statement: str, values: tuple[object, ...]) -> list[Any]:
        """The rows that a statement gives, or none if it fails."""
        connection = self._ready()
        if not connection:
            return []
        try:
            return connection.execute(statement, values).fetchall()
        except sqlite3.Error as error:
            self._failed(error)
            return []

    def _failed(self, error: sqlite3.Error) -> None:
        assert self._connection
        if _is_locked(error):
            self._due = time.monotonic() + _PAUSE
            self._locked_until = self._locked_until or self._due
            if self._connection.in_transaction:
                self._connection.execute("ROLLBACK")
            return
        self._end(error)

    def _end(self, error: sqlite3.Error) -> None:
        logger.warning("the database of robots.txt files fails, and is used no more: %s", error)
        self.pause()
        self._is_used = False


_OPEN: Final[WeakSet[Disk]] = WeakSet()


def _pause_all() -> None:
    for disk in list(_OPEN):
        disk.pause()


os.register_at_fork(before=_pause_all)


def _is_running(process: int) -> bool:
    """Whether there is a process with this number. One in another container isn't found, which costs a request."""
    try:
        os.kill(process, 0)
    except ProcessLookupError:
        return False
    except OSError:
        pass  # of another user
    return True


def _is_locked(error: sqlite3.Error) -> bool:
    return isinstance(error, sqlite3.OperationalError) and ("locked" in str(error) or "busy" in str(error))


def _patient_connection(path: str, now: float) -> sqlite3.Connection:
    """The database, as soon as no other process that starts, too, has it: sqlite waits for some locks and not for others."""
    end = time.monotonic() + _START
    while True:
        try:
            return _connection(path, now)
        except sqlite3.OperationalError as error:
            if not _is_locked(error) or time.monotonic() > end:
                raise
        time.sleep(_START / 500)


def _connection(path: str, now: float) -> sqlite3.Connection:
    """Opens or makes the database, and takes over what is in one of the format before. It may be used from any thread."""
    connection = sqlite3.connect(path, timeout=_START, isolation_level=None, check_same_thread=False)
    try:
        (found,) = connection.execute("PRAGMA user_version").fetchone()
        if found not in (0, 1, _FORMAT):
            raise sqlite3.DatabaseError(f"its format is {found} in place of {_FORMAT}")
        connection.execute("PRAGMA journal_mode = WAL")
        connection.execute("PRAGMA synchronous = OFF")  # the loss of a file costs a request
        connection.execute("BEGIN IMMEDIATE")
        (found,) = connection.execute("PRAGMA user_version").fetchone()
        if found == 1:
            connection.execute("ALTER TABLE sites RENAME TO format_1")
        connection.execute(_SITES)
        connection.execute(_LEASES)
        if found == 1:
            connection.execute(_TAKE_OVER)
            connection.execute("DROP TABLE format_1")
        connection.execute(f"PRAGMA user_version = {_FORMAT}")
        connection.execute("DELETE FROM sites WHERE max(expires, refresh) < ?", (now - _KEPT,))
        connection.execute("DELETE FROM leases WHERE until < ?", (now,))
        connection.execute("COMMIT")
        connection.execute(f"PRAGMA busy_timeout = {LOCK_SECONDS * 1000:.0f}")
    except sqlite3.Error:
        connection.close()
        raise
    return connection
