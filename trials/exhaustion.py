"""Tries to exhaust the broker of a market that `cogmaula market init` made, with its front and limits and without.

    /usr/bin/python3 -m trials.exhaustion

Three hundred connections from six addresses of this machine say nothing, and a member logs in meanwhile. Then a member
subscribes 2,172 times to topics of 30 kB. It needs mosquitto, haproxy, openssl and paho, and no root.
"""

from __future__ import annotations

import socket
import subprocess
import sys
import tempfile
import time
from pathlib import Path

TOP = Path(__file__).resolve().parents[1]
sys.path[:0] = [str(TOP / "python"), str(TOP / "python" / "tests"), str(TOP / "python" / "tests" / "live")]

from brokers import MOSQUITTO  # noqa: E402
from fronted import FrontedMarket, has_ended  # noqa: E402
from made import MadeMarket  # noqa: E402

SILENT, SUBSCRIPTIONS, LENGTH = 300, 2_172, 30_000
# The lines that stand for a broker without subscriptions of its own file.
PLUGIN = ("plugin ", "plugin_opt_config_file ")


class OpenMarket(MadeMarket):
    """A market whose broker takes any subscription, as before there was a front."""

    def __enter__(self) -> OpenMarket:
        path = self.out / "broker" / "mosquitto.conf"
        lines = [line for line in path.read_text().splitlines() if not line.startswith(PLUGIN)]
        path.write_text("\n".join(lines) + "\n")
        super().__enter__()
        return self


def memory_of(process: subprocess.Popen[bytes]) -> int:
    """The memory of a process, in MiB."""
    for line in Path(f"/proc/{process.pid}/status").read_text().splitlines():
        if line.startswith("VmRSS"):
            return int(line.split()[1]) // 1024
    return 0


def hold(port: int) -> list[socket.socket]:
    """Connections that say nothing, from six addresses."""
    found = []
    for number in range(SILENT):
        one = socket.socket()
        one.bind((f"127.0.0.{2 + number % 6}", 0))
        one.settimeout(5)
        one.connect(("127.0.0.1", port))
        found.append(one)
    return found


def silence(made: MadeMarket) -> str:
    """What a member sees while others are silent."""
    held = hold(made.port)
    begun = time.monotonic()
    try:
        made.client("house")
        found = f"a member is in after {time.monotonic() - begun:.2f} s"
    except (OSError, AssertionError) as error:
        found = f"a member is kept out: {type(error).__name__} after {time.monotonic() - begun:.0f} s"
    while time.monotonic() < begun + 15 and not all(has_ended(one) for one in held):
        time.sleep(0.1)
    left = sum(not has_ended(one) for one in held)
    for one in held:
        one.close()
    return f"{found}; {left} of {SILENT} silent ones are there after {time.monotonic() - begun:.0f} s"


def subscriptions(made: MadeMarket) -> str:
    """What the broker and the auctioneer bear of a member's subscriptions."""
    auctioneer, member = made.client("auctioneer"), made.client("store")
    before, answered = memory_of(made.process), []
    member.on_subscribe = lambda _client, _data, _mid, granted, *_: answered.append(granted[0])
    for number in range(SUBSCRIPTIONS):
        member.subscribe(f"market/{number:06}{'x' * LENGTH}", 1)
    end = time.monotonic() + 60
    while len(answered) < SUBSCRIPTIONS and time.monotonic() < end and not member.ends:
        time.sleep(0.1)
    auctioneer.publish("market/basis", b"x" * 20_000, 1)
    time.sleep(2)
    granted = sum(code != 128 for code in answered)
    words = f"{granted} of {SUBSCRIPTIONS} granted, memory {before} to {memory_of(made.process)} MiB"
    return f"{words}, the auctioneer was disconnected {len(auctioneer.ends)} times"


def main() -> int:
    """Runs both attacks on both brokers."""
    if MOSQUITTO is None:
        print("mosquitto is not installed: apt-get install mosquitto haproxy", file=sys.stderr)
        return 1
    with tempfile.TemporaryDirectory() as folder:
        for name, make in (("without", lambda: OpenMarket(Path(folder), max_connections=256)), ("with", FrontedMarket)):
            with make() as made:
                print(f"{name} the front and limits: {silence(made)}", flush=True)
        for name, kind in (("without", OpenMarket), ("with", MadeMarket)):
            with kind(Path(folder, name)) as made:
                print(f"{name} the front and limits: {subscriptions(made)}", flush=True)
    return 0


if __name__ == "__main__":
    sys.exit(main())
