"""The account of each device over a span of a history: energies and amounts as whole numbers, by the power that the market set.

Times are milliseconds since 1970 in UTC, powers watts, prices price units. An energy is in watts times milliseconds, and an amount in
price units times watts times milliseconds, so no sum is rounded.
"""

from __future__ import annotations

from collections.abc import Iterable
from dataclasses import dataclass, field
from typing import Literal, NamedTuple

# A measured power holds until the next one, and at most for so many milliseconds: 15 minutes.
MEASURED_HOLDS = 900_000
# The milliseconds of a slot, of which a course has the energy of each device: a quarter of an hour.
SLOT = 900_000

Kind = Literal["set", "fallback", "back", "lapse", "measured"]


class Event(NamedTuple):
    """Something that changes what a device takes, or its price.

    kind:  `set` by a price that answers a bid; `fallback`, while the market is silent, and `back`, its end; `lapse` if the device leaves or
           is let go; `measured`
    power: watts; None of a set power if the bid that the price answers is not known, and of a lapse and an end
    price: of a set power, None for all others
    """

    at: int
    device: str
    kind: Kind
    power: int | None
    price: int | None


@dataclass
class Account:
    """What a device took, gave and paid.

    taken, given: energies, both 0 or above
    amount:       above 0 if the device pays
    unpriced:     the energy that was taken or given before the device was told a price, which the amount leaves out
    measured_for, set_for: for how many milliseconds its measured and its set power counted
    claimed:      the energy of its fallbacks, by the device's word alone, which is in none of the others
    unknown_for:  for how many milliseconds a price answered a bid that the history does not have: nothing counted
    """

    taken: int = 0
    given: int = 0
    amount: int = 0
    unpriced: int = 0
    measured_for: int = 0
    set_for: int = 0
    claimed: int = 0
    unknown_for: int = 0

    @property
    def basis(self) -> str:
        """By which power the device is billed, in words."""
        if not self.set_for:
            return "measured" if self.measured_for else "nothing known"
        if not self.measured_for:
            return "set"
        # Neither may round to 0 or to 100.
        share = min(max(round(100 * self.measured_for / (self.measured_for + self.set_for)), 1), 99)
        return f"measured {share} %, set {100 - share} %"

    @property
    def is_measured(self) -> bool:
        """Whether all that is known of its power was measured."""
        return bool(self.measured_for) and not self.set_for


@dataclass(frozen=True)
class SlotSums:
    """The sums of all devices over a slot, in the units of an account."""

    taken: int
    given: int
    amount: int


@dataclass
class _Device:
    """A device on its way through the events: what holds since `since`."""

    since: int
    set_power: int | None = None
    is_unknown: bool = False
    fallback: int | None = None
    price: int | None = None
    measured: int | None = None
    measured_until: int = 0
    account: Account = field(default_factory=Account)
    # What was taken and given, and the amount, at the begin of the slot.
    before: tuple[int, int, int] = (0, 0, 0)
    net: list[int] = field(default_factory=list)

    def take(self, event: Event) -> None:
        """Notes an event, after the account went up to it."""
        match event.kind:
            case "measured":
                self.measured, self.measured_until = event.power, event.at + MEASURED_HOLDS
            case "lapse":
                self.set_power, self.is_unknown = None, False
            case "fallback":
                self.fallback = event.power
            case "back":
                self.fallback = None
            case "set":
                self.set_power, self.is_unknown, self.fallback = event.power, event.power is None, None
                self.price = self.price if event.price is None else event.price

    def go_to(self, now: int) -> None:
        """Lets the account go on to this moment."""
        if self.measured is not None and self.since < self.measured_until:
            until = min(now, self.measured_until)
            self.account.measured_for += until - self.since
            self._add(self.measured, until - self.since)
            self.since = until
        if self.since < now:
            self._add_told(now - self.since)
            self.since = now

    def _add_told(self, time: int) -> None:
        if self.fallback is not None:
            self.account.claimed += abs(self.fallback) * time
        elif self.set_power is not None:
            self.account.set_for += time
            self._add(self.set_power, time)
        elif self.is_unknown:
            self.account.unknown_for += time

    def _add(self, power: int, time: int) -> None:
        energy, account = power * time, self.account
        if energy > 0:
            account.taken += energy
        else:
            account.given -= energy
        if self.price is None:
            account.unpriced += abs(energy)
        else:
            account.amount += energy * self.price

    def end_slot(self) -> SlotSums:
        """What the slot that ends now added to the account."""
        account, (taken, given, amount) = self.account, self.before
        self.before = account.taken, account.given, account.amount
        found = SlotSums(account.taken - taken, account.given - given, account.amount - amount)
        self.net.append(found.taken - found.given)
        return found


class Accounts:
    """The accounts of all devices, from a moment on. Events come in the order of time."""

    def __init__(self, begin: int) -> None:
        """Takes the begin of the span."""
        self._now = begin
        self._devices: dict[str, _Device] = {}
        # The sums of each slot that has ended, and how many have.
        self.sums: list[SlotSums] = []

    def begin_with(self, events: Iterable[Event]) -> None:
        """Takes what holds at the begin: events before it."""
        for event in events:
            self._device(event.device).take(event)

    def slot(self, events: Iterable[Event], end: int) -> None:
        """Takes the events of the next slot, which ends at this moment."""
        devices = self._devices
        for event in events:
            device = devices.get(event.device) or self._device(event.device)
            device.go_to(event.at)
            device.take(event)
        parts = []
        for device in devices.values():
            device.go_to(end)
            parts.append(device.end_slot())
        self.sums.append(SlotSums(sum(part.taken for part in parts), sum(part.given for part in parts), sum(part.amount for part in parts)))
        self._now = end

    def _device(self, name: str) -> _Device:
        found = self._devices.get(name)
        if found is None:
            found = self._devices[name] = _Device(self._now, net=[0] * len(self.sums))
        return found

    @property
    def by_device(self) -> dict[str, Account]:
        """The account of each device, by name."""
        return {name: self._devices[name].account for name in sorted(self._devices)}

    @property
    def energies(self) -> dict[str, list[int]]:
        """What each device took less what it gave in each slot, by name."""
        return {name: self._devices[name].net for name in sorted(self._devices)}
