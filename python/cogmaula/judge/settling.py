"""The moves behind a recording that settle its market, since a trace ends with a settled phase. They are of nobody's recording.

The rule is plain. Bids go up, from the lowest relay to the auctioneer: each parent learns all, and publishes or clears.
Clearings come down: each relay is passed all that is due. This goes on until nothing moves. Then each device is passed the last
clearing that addresses it.
"""

from __future__ import annotations

from collections.abc import Mapping

from ..program_limits import WINDOW
from .event_script import Script
from .journal import Journal


def settle(journal: Journal, script: Script, prices: Mapping[str, int]) -> None:
    """Adds moves to a journal until nothing can move, and the close of its phase.

    prices: for each device the price that the program's report has for it at the end of the phase, in price units
    """
    relays = [parent for parent in journal.parents if parent not in script.devices]
    before = -1
    while before < len(journal.lines):
        before = len(journal.lines)
        _go_up(journal, relays)
        for name in relays:
            journal.pass_due(name, journal.came_to(journal.parents[name]))
    for name in script.devices:
        _pass_last(journal, script, name, prices[name])
    journal.close()


def _go_up(journal: Journal, relays: list[str]) -> None:
    """Lets each parent learn all that its children made, and publish or clear it, from below."""
    for parent in [*reversed(relays), journal.root]:
        for child in journal.children.get(parent, []):
            journal.learn(child, journal.counts[child])
        if journal.has_news(parent) and (parent == journal.root or _has_room(journal, parent)):
            journal.publish(parent)


def _has_room(journal: Journal, name: str) -> bool:
    """Whether the window of a relay is not full."""
    index = journal.passed[name]
    answered = journal.number_in(name, index) if index else 0
    return journal.counts[name] - answered < WINDOW


def _pass_last(journal: Journal, script: Script, name: str, price: int) -> None:
    """Passes a device the last clearing that has it as a member, if it was not passed it."""
    device = script.devices[name]
    for index in range(journal.came_to(journal.parents[name]), journal.passed[name], -1):
        number = journal.number_in(name, index)
        if device.members[number]:
            journal.pass_to_device(name, index, (price, number) if device.holds(number) else None)
            return
