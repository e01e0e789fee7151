#!/usr/bin/env python3
"""Simulates one device below the auctioneer whose bids move the price at each clearing. live_scale.py starts it.

    live_mover.py SETTINGS

SETTINGS and the lines at standard input are those of live_devices.py, and one more:

    moving 1      the device bids anew at each price that it gets, until `moving 0`

At `first` it bids once. Each of its bids takes more power than all others could give at a step below, and gives more than they could take
from that step on: so the market clears there. The step is by turns two below the middle and two above.
"""

import json
import sys
import time

from live_devices import Devices

# The greatest demand of a bid in watts, and by how many steps from the middle its price moves.
GREATEST, AWAY = 1_000_000_000, 2


class Mover(Devices):
    """A device that bids as soon as the one before is answered."""

    def __init__(self, told):
        super().__init__(told)
        self._moves = self._is_due = False
        self._away = AWAY

    def do(self, line):
        """See Devices."""
        word, _, given = line.partition(" ")
        if word == "first":
            self._is_due = True
            return None
        if word == "moving":
            self._moves = self._is_due = given == "1"
            return None
        return super().do(line)

    def _drawn(self):
        self._away = -self._away
        return self._steps // 2 + self._away, GREATEST, -GREATEST

    def _bid_all_due(self):
        if self._is_due and self._session:
            self._is_due = False
            self._bid(0, time.monotonic(), self._properties())

    def _take(self, device, number, index, step, now):
        super()._take(device, number, index, step, now)
        self._is_due = self._moves


if __name__ == "__main__":
    Mover(json.loads(sys.argv[1])).work()
