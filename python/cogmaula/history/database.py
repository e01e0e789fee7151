"""The database of a history: SQLite, which needs nothing, or PostgreSQL by psycopg."""

from __future__ import annotations

import json
import sqlite3
import time
from collections.abc import Callable, Iterable, Iterator, Sequence
from importlib.resources import files
from pathlib import Path
from typing import Any, Protocol
from urllib.parse import urlsplit

from ..errors import NoPackage
from ..live.node.node_errors import BadSettings, LiveError
from .rows import NodeLost, Row, SiteDown, Told

# The version of the tables.
VERSION = 1


class DatabaseLost(LiveError, OSError):
    """The database does not take rows now. What was not put is put again after a new connection."""


class BadRow(LiveError):
    """The database does not take a row for what it says, now or later. Of the rows that were put none is kept."""


class Database(Protocol):
    """Where rows are kept. All calls may come from any thread, one at a time.

    demand: the expression of what the bid of a row of `bids` takes at the step `told.step`, in watts
    """

    demand: str

    def open(self) -> None:
        """Connects, and makes the tables that are missing unless it only reads.

        Raises DatabaseLost, and BadSettings if the tables are of another version.
        """

    def put(self, rows: Iterable[Told]) -> None:
        """Keeps rows, all or none, and leaves a row whose key is there as it is. Raises DatabaseLost, and BadRow."""

    def read(self, query: str, values: Sequence[Any] = ()) -> list[tuple[Any, ...]]:
        """The rows of a query, in which ? stands for a value. Raises DatabaseLost."""

    def close(self) -> None:
        """Ends the connection."""


def open_database(url: str, *, is_reader: bool = False) -> Database:
    """The database of a URL such as sqlite:///market.db or postgresql://user@host/name, with its tables.

    is_reader: it makes no tables and writes nothing, so that a login which may read alone is enough

    Raises as `open` does.
    """
    kind = urlsplit(url).scheme
    if kind == "sqlite":
        found: Database = SqliteDatabase(url.removeprefix("sqlite:///"), is_reader=is_reader)
    elif kind in ("postgresql", "postgres"):
        found = PostgresDatabase(url, is_reader=is_reader)
    else:
        raise BadSettings(f"the database is {url!r}: give sqlite:///FILE or postgresql://USER@HOST/NAME")
    found.open()
    return found


def schema_text() -> str:
    """The statements that make the tables, for both kinds."""
    return files("cogmaula.history").joinpath("schema.sql").read_text()


def _statements() -> list[str]:
    lines = [line for line in schema_text().splitlines() if not line.startswith("--")]
    return [statement for statement in "\n".join(lines).split(";") if statement.strip()]


# Whether a node has told a state of a run.
_IS_KNOWN = "SELECT 1 FROM states WHERE node = {0} AND run = {0} LIMIT 1"
# The rows of the nodes whose process is down: each as its newest, except for when, what and why.
_DOWN = """
INSERT INTO states (node, run, at, state, sort, parent, child, floor, ceiling, alarm, silent, why, session)
SELECT node, run, {0}, 'down', sort, parent, child, floor, ceiling, alarm, silent, {0}, session FROM states AS told
WHERE run = {0} AND state = 'up' AND at = (SELECT max(at) FROM states WHERE node = told.node AND run = told.run) ON CONFLICT DO NOTHING
"""


def _downs(rows: Iterable[Told], sign: str) -> Iterator[tuple[str, tuple[Any, ...]]]:
    """A statement, and its values, for each process that is down. It reads the states, so it comes behind the rows that tell them."""
    for row in rows:
        if isinstance(row, SiteDown | NodeLost):
            down = row.down if isinstance(row, NodeLost) else row
            yield _DOWN.format(sign), (time.time() if down.at is None else down.at, down.why, down.run)


def _unknown(rows: Iterable[Told], sign: str, read: Callable[[str, tuple[Any, ...]], Any]) -> list[Told]:
    """The rows of last wills of nodes of whose run no state is there."""
    lost = [row for row in rows if isinstance(row, NodeLost)]
    return [row.row(time.time()) for row in lost if not read(_IS_KNOWN.format(sign), (row.will.values["node"], row.will.values["run"])).fetchall()]


# Bids whose number had another one before: a row of values, and a row of `told`.
_REBID = """
INSERT INTO rebids (session, parent, child, number, at, demands) SELECT {0}, {0}, {0}, {0}, {0}, {0}
WHERE EXISTS (SELECT 1 FROM bids WHERE session = {0} AND parent = {0} AND child = {0} AND number = {0} AND demands IS NOT {0})
ON CONFLICT DO NOTHING
"""
_REBIDS = """
INSERT INTO rebids (session, parent, child, number, at, demands)
SELECT told.session, told.parent, told.child, told.number, told.at, told.demands
FROM json_populate_recordset(NULL::rebids, %s::json) AS told JOIN bids ON bids.session = told.session AND bids.parent = told.parent
    AND bids.child = told.child AND bids.number = told.number AND bids.demands IS DISTINCT FROM told.demands
ON CONFLICT DO NOTHING
"""


def _bids(rows: Iterable[Told]) -> list[dict[str, Any]]:
    """The values of the bids among rows."""
    return [row.values for row in rows if isinstance(row, Row) and row.table == "bids"]


def _alike(rows: Iterable[Told]) -> Iterator[tuple[str, str, list[dict[str, Any]]]]:
    """The rows of each table with the same columns: the table, the names of the columns, and the values in their order."""
    found: dict[tuple[str, ...], list[dict[str, Any]]] = {}
    for row in rows:
        if isinstance(row, Row):
            found.setdefault((row.table, *row.values), []).append(row.values)
    for (table, *names), values in found.items():
        yield table, ", ".join(names), values


def _require_version(found: list[tuple[Any, ...]]) -> None:
    if found != [(VERSION,)]:
        raise BadSettings(f"the tables are of version {found}, and this program writes version {VERSION}: give another database")


class SqliteDatabase:
    """A file of SQLite. A reader may read it while it is written."""

    demand = "json_extract(bids.demands, '$[' || told.step || ']')"

    def __init__(self, path: str, *, is_reader: bool = False) -> None:
        """Takes the file, and whether it is only read."""
        self._path = path
        self._is_reader = is_reader
        self._connection: sqlite3.Connection | None = None

    def open(self) -> None:
        """See Database."""
        self.close()
        try:
            connection = self._connected()
            if self._is_reader:
                self._connection = connection
                _require_version(self.read("SELECT version FROM history"))
                return
            # A killed process loses nothing; a machine that loses power may lose its last seconds.
            connection.execute("PRAGMA journal_mode = WAL")
            connection.execute("PRAGMA synchronous = NORMAL")
            connection.execute("BEGIN IMMEDIATE")
            for statement in _statements():
                connection.execute(statement)
            if not connection.execute("SELECT version FROM history").fetchall():
                connection.execute("INSERT INTO history VALUES (?)", (VERSION,))
            connection.execute("COMMIT")
        except sqlite3.Error as error:
            raise DatabaseLost(f"{self._path}: {error}") from None
        self._connection = connection
        _require_version(self.read("SELECT version FROM history"))

    def _connected(self) -> sqlite3.Connection:
        """A new connection. A file that is only read has to be there. Raises sqlite3.Error."""
        name = Path(self._path).absolute().as_uri() + "?mode=ro" if self._is_reader else self._path
        return sqlite3.connect(name, timeout=30, isolation_level=None, check_same_thread=False, uri=self._is_reader)

    def put(self, rows: Iterable[Told]) -> None:
        """See Database."""
        connection, told = self._required(), list(rows)
        try:
            connection.execute("BEGIN IMMEDIATE")
            try:
                self._insert(connection, told)
                for bid in _bids(told):
                    key = tuple(bid[name] for name in ("session", "parent", "child", "number"))
                    connection.execute(_REBID.format("?"), (*key, bid["at"], bid["demands"], *key, bid["demands"]))
                self._insert(connection, _unknown(told, "?", connection.execute))
                for statement, parameters in _downs(told, "?"):
                    connection.execute(statement, parameters)
                connection.execute("COMMIT")
            except BaseException:
                connection.execute("ROLLBACK")
                raise
        except (sqlite3.DataError, sqlite3.IntegrityError, sqlite3.InterfaceError, OverflowError, ValueError) as error:
            raise BadRow(f"the database does not take it: {error}") from None
        except sqlite3.Error as error:
            raise DatabaseLost(f"{self._path}: {error}") from None

    @staticmethod
    def _insert(connection: sqlite3.Connection, rows: Iterable[Told]) -> None:
        for table, names, values in _alike(rows):
            signs = ", ".join("?" * len(values[0]))
            connection.executemany(f"INSERT INTO {table} ({names}) VALUES ({signs}) ON CONFLICT DO NOTHING", [tuple(them.values()) for them in values])

    def read(self, query: str, values: Sequence[Any] = ()) -> list[tuple[Any, ...]]:
        """See Database."""
        try:
            return self._required().execute(query, tuple(values)).fetchall()
        except sqlite3.Error as error:
            raise DatabaseLost(f"{self._path}: {error}") from None

    def _required(self) -> sqlite3.Connection:
        if self._connection is None:
            raise DatabaseLost(f"{self._path} is not open")
        return self._connection

    def close(self) -> None:
        """See Database."""
        connection, self._connection = self._connection, None
        if connection is not None:
            connection.close()


class PostgresDatabase:
    """A database of PostgreSQL."""

    demand = "CAST(CAST(bids.demands AS json) ->> CAST(told.step AS integer) AS bigint)"

    def __init__(self, url: str, *, is_reader: bool = False) -> None:
        """Takes its URL, and whether it is only read. A password is in ~/.pgpass or PGPASSWORD rather than in the URL.

        Raises NoPackage if psycopg is missing.
        """
        try:
            import psycopg
        except ImportError:
            raise NoPackage("a history in PostgreSQL needs the package psycopg (Debian: python3-psycopg)") from None
        self._psycopg = psycopg
        self._url = url
        self._is_reader = is_reader
        self._connection: Any = None

    def open(self) -> None:
        """See Database."""
        self.close()
        try:
            self._connection = self._psycopg.connect(self._url, autocommit=True, connect_timeout=10)
            if self._is_reader:
                self._connection.execute("SET default_transaction_read_only = on")
            else:
                self._make_tables()
        except self._psycopg.Error as error:
            raise self._lost(error) from None
        _require_version(self.read("SELECT version FROM history"))

    def _make_tables(self) -> None:
        # A killed process loses nothing; a server that crashes may lose its last second.
        self._connection.execute("SET synchronous_commit = off")
        with self._connection.transaction():
            # One process alone makes tables.
            self._connection.execute("SELECT pg_advisory_xact_lock(62)")
            for statement in _statements():
                self._connection.execute(statement)
            if not self._connection.execute("SELECT version FROM history").fetchall():
                self._connection.execute("INSERT INTO history VALUES (%s)", (VERSION,))

    def put(self, rows: Iterable[Told]) -> None:
        """See Database."""
        told = list(rows)
        try:
            with self._required().transaction():
                self._insert(told)
                if bids := _bids(told):
                    self._connection.execute(_REBIDS, [json.dumps(bids)])
                self._insert(_unknown(told, "%s", self._connection.execute))
                for statement, parameters in _downs(told, "%s"):
                    self._connection.execute(statement, parameters)
        except (self._psycopg.DataError, self._psycopg.IntegrityError, ValueError) as error:
            raise BadRow(f"the database does not take it: {' '.join(str(error).split())}") from None
        except self._psycopg.Error as error:
            raise self._lost(error) from None

    def _insert(self, rows: Iterable[Told]) -> None:
        for table, names, values in _alike(rows):
            # A statement for all rows at once, which the server reads by the types of the table. One for each takes nineteen times as long.
            found = f"SELECT {names} FROM json_populate_recordset(NULL::{table}, %s::json)"
            self._connection.execute(f"INSERT INTO {table} ({names}) {found} ON CONFLICT DO NOTHING", [json.dumps(values)])

    def read(self, query: str, values: Sequence[Any] = ()) -> list[tuple[Any, ...]]:
        """See Database."""
        try:
            found = self._required().execute(query.replace("%", "%%").replace("?", "%s"), tuple(values)).fetchall()
        except self._psycopg.Error as error:
            raise self._lost(error) from None
        return [tuple(row) for row in found]

    def _required(self) -> Any:
        if self._connection is None:
            raise DatabaseLost(f"{urlsplit(self._url).path} is not open")
        return self._connection

    def _lost(self, error: Exception) -> DatabaseLost:
        told = urlsplit(self._url)
        # The server says it in several lines, and a journal has one for each fault.
        return DatabaseLost(f"{told.hostname or 'PostgreSQL'}{told.path}: {' '.join(str(error).split()).rstrip('.')}")

    def close(self) -> None:
        """See Database."""
        connection, self._connection = self._connection, None
        if connection is not None:
            connection.close()
