"""A small network on three machines, by the rules of docs/NETWORK.md: a device, a relay above it, and the auctioneer.

Each call is one event. It gives what was sent and the moves of the market that the event stands for, and it raises an error if
the rules do not allow the event. A message that is not newer than the one held is dropped: then nothing is taken."""

from dataclasses import dataclass, field

WINDOW = 8


class NotAllowed(ValueError):
    """An event that the rules of the network do not allow."""


@dataclass(frozen=True)
class Price:
    """A price on its way down: the index of its clearing, and the number of the bid that it answers."""

    index: int
    number: int


def require(allowed: bool, why: str) -> None:
    """Refuses an event that may not happen."""
    if not allowed:
        raise NotAllowed(why)


@dataclass
class Network:
    """What the three nodes hold. The device is d, the relay c; the auctioneer has no name in a move."""

    bids: int = 0
    # The relay: the newest number that it heard of the device, its own last number, its records, the device's number in the
    # newest one, and the number answered and the index of the price that it took last.
    heard: int = 0
    last: int = 0
    records: dict[int, int] = field(default_factory=dict)
    newest: int = 0
    answered: int = 0
    relay_index: int = 0
    # The auctioneer: the newest number that it heard of the relay, and of each clearing the number in it.
    heard_of_relay: int = 0
    clearings: list[int] = field(default_factory=list)
    device_index: int = 0
    # What the journal has of them, which no restart lowers: the numbers learnt, and the price passed to the relay last.
    learnt: int = 0
    learnt_of_relay: int = 0
    passed: int = 0

    def bid(self) -> tuple[int, list[str]]:
        """The device makes its next bid and sends it."""
        self.bids += 1
        return self.bids, [f"change d {self.bids}"]

    def relay_takes(self, number: int) -> bool:
        """The relay takes a bid of the device, if it is newer than the one that it holds."""
        require(1 <= number <= self.bids, "a bid that was never sent")
        newer = number > self.heard
        self.heard = max(self.heard, number)
        return newer

    def relay_sends(self) -> tuple[int, list[str]]:
        """The relay sends what it holds under its next number. Just before, the market learns what goes into its record."""
        require(self.heard != self.newest, "nothing is new")
        require(self.heard >= self.newest, "a guard follows a restart")
        require(self.last - self.answered < WINDOW, "the window is full")
        moves = [f"learn c d {self.heard}"] if self.heard > self.learnt else []
        self.learnt = self.newest = self.heard
        self.last += 1
        self.records[self.last] = self.heard
        return self.last, [*moves, f"publish c {self.last}"]

    def auctioneer_takes(self, number: int) -> bool:
        """The auctioneer takes a bid of the relay, if it is newer than the one that it holds."""
        require(1 <= number <= self.last, "a bid that was never sent")
        newer = number > self.heard_of_relay
        self.heard_of_relay = max(self.heard_of_relay, number)
        return newer

    def clear(self) -> tuple[Price, list[str]]:
        """The auctioneer clears what it holds, and sends the price."""
        require(self.heard_of_relay != (self.clearings[-1] if self.clearings else 0), "nothing is new")
        self.clearings.append(self.heard_of_relay)
        moves = [f"learn auctioneer c {self.heard_of_relay}"] if self.heard_of_relay > self.learnt_of_relay else []
        self.learnt_of_relay = self.heard_of_relay
        return Price(len(self.clearings), self.heard_of_relay), [*moves, f"clear {len(self.clearings)}"]

    def relay_passes(self, price: Price) -> tuple[Price | None, list[str]]:
        """The relay takes a price and passes it on by its record of the number. The market passes the skipped ones before."""
        was_sent = price.index <= len(self.clearings) and self.clearings[price.index - 1] == price.number
        require(was_sent, "a price that was never sent")
        if price.index <= self.relay_index:
            return None, []
        moves = [f"pass c {number}" for number in range(self.passed + 1, price.index + 1)]
        self.relay_index, self.answered, self.passed = price.index, price.number, max(self.passed, price.index)
        require(price.number in self.records, "the record is gone")
        return Price(price.index, self.records[price.number]), moves

    def device_takes(self, price: Price) -> list[str]:
        """The device takes a price, if it is newer than the one that it holds."""
        if price.index <= self.device_index:
            return []
        self.device_index = price.index
        return [f"pass d {price.index}"]

    def restart_relay(self) -> None:
        """The relay comes back with what it stored: its last number, the number of the device in it, and its newest price."""
        self.heard = 0
        self.records = {}
