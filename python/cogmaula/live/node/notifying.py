"""What a process tells systemd: that it works, and again and again that its loop turns. Without systemd it tells nothing."""

from __future__ import annotations

import socket
import time
from collections.abc import Mapping

# How often within the time of the watchdog it is told that all is well.
BEATS = 4


class Notifier:
    """The socket of `Type=notify` and `WatchdogSec=`, by the environment of the process."""

    def __init__(self, environment: Mapping[str, str]) -> None:
        """Takes the environment, with NOTIFY_SOCKET and WATCHDOG_USEC if systemd wants to be told."""
        address = environment.get("NOTIFY_SOCKET", "")
        # A leading @ stands for a name that no file has.
        self._address = f"\0{address[1:]}" if address.startswith("@") else address
        microseconds = environment.get("WATCHDOG_USEC", "")
        self._gap = int(microseconds) / 1e6 / BEATS if microseconds.isdigit() else None
        self._next = 0.0
        self._is_ready = False

    def turns(self) -> None:
        """Tells that the loop has turned. To be called at each turn, of which the first makes the process ready."""
        now = time.monotonic()
        if not self._is_ready:
            self._is_ready = True
            self._tell("READY=1")
        if self._gap is not None and now >= self._next:
            self._next = now + self._gap
            self._tell("WATCHDOG=1")

    def stops(self) -> None:
        """Tells that the process ends."""
        self._tell("STOPPING=1")

    def _tell(self, text: str) -> None:
        if not self._address:
            return
        try:
            with socket.socket(socket.AF_UNIX, socket.SOCK_DGRAM | socket.SOCK_CLOEXEC | socket.SOCK_NONBLOCK) as one:
                one.sendto(text.encode(), self._address)
        except OSError:
            # Systemd is busy or away: the next turn tells it again.
            self._next = 0.0
