"""How much of what a site produces stays there, and how much of what it consumes is its own: tick by tick, through its batteries.

Over a tick production goes to consumption first, then into the batteries, and what is left is sold. What lacks is given by the batteries
first, and bought. What batteries take beyond that is bought, and what they give beyond it is sold. A battery gives of each sort in
proportion to what all of them hold of it. So energy that is bought, stored and sold again is in neither share.
"""

from __future__ import annotations

from dataclasses import dataclass
from typing import Any

import numpy

from ..cluster import Cluster
from ..held import Held
from ..nodes import Manual
from .stores import WATT_HOUR, Stores


@dataclass(frozen=True)
class OwnShares:
    """The two shares, from 0 to 1; None if nothing was produced or consumed, or if it cannot be known."""

    self_consumption: float | None
    self_sufficiency: float | None


def own_shares(cluster: Cluster, held: Held, stores: Stores, connection: str | None) -> OwnShares:
    """The shares of a run.

    Of a manual device nobody knows what it is: without a connection it may be the supplier, and one that takes and gives may be a
    battery, as may any other model. Then both shares are None.
    """
    own = [at for at, device in enumerate(cluster.devices) if device.kind not in ("battery", "objective") and device.name != connection]
    if not all(_is_known(device, held.powers[:, at], connection) for at, device in enumerate(cluster.devices)):
        return OwnShares(None, None)
    powers = held.powers[:, own]
    consumed, produced = (numpy.maximum(sign * powers, 0).sum(axis=1) for sign in (1, -1))
    stored = held.powers[:, list(stores.columns)].sum(axis=1)
    sold, bought = _away(produced - consumed, stored, held.minutes, stores)
    whole = [float((side * held.minutes).sum()) for side in (produced, consumed)]
    return OwnShares(_kept(whole[0], sold), _kept(whole[1], bought))


def _is_known(device: Any, powers: Any, connection: str | None) -> bool:
    """Whether what a device does may be told from its powers."""
    if device.kind in ("battery", "objective") or device.name == connection:
        return True
    if isinstance(device, Manual) and connection is None:
        return False
    return not (bool((powers > 0).any()) and bool((powers < 0).any()))


def _kept(whole: float, away: float) -> float | None:
    """The share of an energy that stayed."""
    return None if not whole else min(1.0, max(0.0, 1 - away / whole))


def _away(surplus: Any, stored: Any, minutes: Any, stores: Stores) -> tuple[float, float]:
    """What was sold of the production, and bought for the consumption, in watts times minutes, also by way of the batteries.

    surplus: what is produced beyond what is consumed over each tick, in watts
    stored:  what the batteries take together, in watts
    """
    before, after = (WATT_HOUR * side.sum(axis=1) for side in (stores.before, stores.after))
    # What the batteries hold of this run's production, and of what was bought in it; the rest was there at the begin.
    sold = bought = own = foreign = 0.0
    for over, into, length, begin, end in zip(
        surplus.tolist(), stored.tolist(), minutes.tolist(), before.tolist(), after.tolist(), strict=True
    ):
        extra, lack = max(over, 0) * length, max(-over, 0) * length
        if into > 0:
            # What does not fit is lost, of both sorts alike.
            taken, fits = into * length, min(1.0, max(0.0, end - begin) / (into * length))
            from_own = min(extra, taken)
            own, foreign = own + from_own * fits, foreign + (taken - from_own) * fits
            sold, bought = sold + extra - from_own, bought + lack
            continue
        given = -into * length
        share_own, share_foreign = (min(1.0, held / begin) if begin else 0.0 for held in (own, foreign))
        used = min(lack, given)
        sold += extra + (given - used) * share_own
        bought += lack - used + used * share_foreign
        left = min(1.0, end / begin) if begin else 0.0
        own, foreign = own * left, foreign * left
    return sold, bought

