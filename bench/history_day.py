"""Measures the page of a day of a live market's history: 1,000 devices below 20 relays that clear each 15 seconds.

    /usr/bin/python3 bench/history_day.py sqlite|postgresql [DEVICES [SECONDS]]

It makes the rows of a whole day by a seed, as the broker's messages would, and has the keeper's database take them in, a clearing in each
transaction. It prints the rows and bytes of the database, how long that took, and how long each query of the report takes. Nine devices in
ten have measured powers each minute. PostgreSQL is a server of its own, as Debian 12 sets one up, in a temporary folder; it needs root.
"""

from __future__ import annotations

import contextlib
import json
import logging
import os
import random
import shutil
import socket
import subprocess
import sys
import tempfile
import time
from collections.abc import Iterator
from datetime import UTC, datetime
from pathlib import Path

TOP = Path(__file__).resolve().parents[1]
sys.path.insert(0, str(TOP / "python"))

from cogmaula.history import Database, Row, open_database  # noqa: E402
from cogmaula.report.history_day import history_page  # noqa: E402

DAY = datetime(2026, 12, 1, tzinfo=UTC)
BEGIN, SECONDS_OF_DAY, RELAYS, SESSION = int(DAY.timestamp()), 86_400, 20, "0123456789abcdef"
MEASURED_EACH, STEPS = 60, 40
POSTGRES = Path("/usr/lib/postgresql/15/bin")


def state(node: str, sort: str, parent: str | None, child: int | None) -> Row:
    """The state of a node that came up before the day."""
    place = {"sort": sort, "parent": parent, "child": child, "floor": None, "ceiling": 100_000 if sort == "relay" else None}
    told = {"alarm": "", "why": "", "session": SESSION}
    return Row("states", {"node": node, "run": "0", "at": BEGIN - 60.0, "state": "up", **place, **told})


def rows_at(devices: int, clearing: int, at: float, bids: dict[int, tuple[int, int]], chance: random.Random) -> list[Row]:
    """The rows of one clearing. `bids` has the number of each device's newest bid, and its watts at step 0: one in ten bids anew."""
    found, price = [], chance.randrange(20, 40)
    common = {"step": price, "price": price, "at": at}
    for relay in range(RELAYS):
        key = {"session": SESSION, "parent": "auctioneer", "child": relay + 1, "clearing": clearing, "number": 2 * clearing}
        found.append(Row("prices", {**key, **common}))
    for device in range(devices):
        key = {"session": SESSION, "parent": f"relay{device % RELAYS}", "child": device // RELAYS + 1, "clearing": clearing}
        if device not in bids or chance.random() < 0.1:
            bids[device] = 2 * clearing, chance.randrange(-3_000, 5_000)
            demands = json.dumps([bids[device][1] - 10 * step for step in range(STEPS)])
            told = {"number": 2 * clearing, "at": at, "demands": demands}
            found.append(Row("bids", {"session": SESSION, "parent": key["parent"], "child": key["child"], **told}))
        number, power = bids[device][0], bids[device][1] - 10 * price
        found.append(Row("prices", {**key, **common, "number": number}))
        own = {"session": SESSION, "device": f"device{device}", "clearing": clearing, "number": number}
        found.append(Row("setpoints", {**own, **common, "power": power}))
        if device % 10 and int(at) % MEASURED_EACH == 0:
            found.append(Row("measured", {"device": f"device{device}", "at": at, "power": power}))
    return found


@contextlib.contextmanager
def sqlite_in(folder: Path) -> Iterator[str]:
    """The URL of a file of SQLite."""
    yield f"sqlite:///{folder}/market.db"


@contextlib.contextmanager
def postgres_in(folder: Path) -> Iterator[str]:
    """The URL of an empty database of a server of PostgreSQL at loopback."""
    with socket.create_server(("127.0.0.1", 0)) as free:
        port = free.getsockname()[1]
    shutil.chown(folder, "postgres")

    def run(*words: object) -> None:
        subprocess.run(["runuser", "-u", "postgres", "--", *map(str, words)], check=True, stdout=subprocess.DEVNULL, cwd="/")

    run(POSTGRES / "initdb", "-D", folder / "data", "--auth=trust")
    more = f"-c listen_addresses=127.0.0.1 -p {port} -c unix_socket_directories={folder}"
    run(POSTGRES / "pg_ctl", "-D", folder / "data", "-w", "-o", more, "-l", folder / "log", "start")
    try:
        yield f"postgresql://postgres@127.0.0.1:{port}/postgres"
    finally:
        run(POSTGRES / "pg_ctl", "-D", folder / "data", "-w", "-m", "fast", "stop")


KINDS = {"sqlite": sqlite_in, "postgresql": postgres_in}


def size_of(database: Database, kind: str, folder: Path) -> int:
    """The bytes of the database with its indexes."""
    if kind == "postgresql":
        return int(database.read("SELECT pg_database_size(current_database())")[0][0])
    return sum(path.stat().st_size for path in folder.iterdir())


class Took:
    """The time since it was made, of the clock and of this process's processor, in words."""

    def __init__(self) -> None:
        self._begun, self._used = time.perf_counter(), time.process_time()

    def __str__(self) -> str:
        took, used = time.perf_counter() - self._begun, time.process_time() - self._used
        return f"{took:.1f} s, {used:.1f} s of a processor without the server's, at a load of {os.getloadavg()[0]:.1f}"


def make_day(database: Database, devices: int, each: int) -> int:
    """Has the database take in a day, and gives its number of rows."""
    chance = random.Random(1)
    begin = [Row("sessions", {"session": SESSION, "begun": BEGIN - 60.0, "least": 0, "greatest": 99, "steps": 100})]
    begin.append(state("auctioneer", "auctioneer", None, None))
    begin += [state(f"relay{relay}", "relay", "auctioneer", relay + 1) for relay in range(RELAYS)]
    begin += [state(f"device{number}", "device", f"relay{number % RELAYS}", number // RELAYS + 1) for number in range(devices)]
    database.put(begin)
    many, bids = len(begin), dict[int, tuple[int, int]]()
    for clearing, after in enumerate(range(-each, SECONDS_OF_DAY, each)):
        told = rows_at(devices, clearing + 1, float(BEGIN + after), bids, chance)
        many += len(told)
        database.put(told)
    return many


def measure(kind: str, devices: int, each: int, folder: Path) -> None:
    """Makes the day, and measures its page."""
    with KINDS[kind](folder) as url:
        database, took = open_database(url), Took()
        many = make_day(database, devices, each)
        print(f"{many:,} rows are in after {took}", flush=True)
        print(f"the database has {size_of(database, kind, folder) / 1e6:,.0f} MB", flush=True)
        database.close()
        reader, took = open_database(url, is_reader=True), Took()
        text = history_page(reader, DAY)
        print(f"the page has {len(text):,} bytes after {took}", flush=True)
        reader.close()


def main() -> int:
    """Measures what the words ask for."""
    words = sys.argv[1:]
    if not words or words[0] not in KINDS or len(words) > 3 or not all(word.isdigit() for word in words[1:]):
        print(__doc__, file=sys.stderr)
        return 2
    devices, each = (int(word) for word in (*words[1:], *("1000", "15")[len(words) - 1 :]))
    logging.basicConfig(level=logging.DEBUG, format="%(message)s")
    logging.getLogger("matplotlib").setLevel(logging.WARNING)
    with tempfile.TemporaryDirectory(prefix="history-day.") as folder:
        measure(words[0], devices, each, Path(folder))
    return 0


if __name__ == "__main__":
    sys.exit(main())
