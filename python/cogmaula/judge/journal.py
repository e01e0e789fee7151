"""The moves of a market in their order, as lines of a trace, and what the next ones go by: numbers, records and prices passed.

No rule of the market is tested here, and no bid or price worked out. `market check` does that.
"""

from __future__ import annotations

from collections.abc import Mapping

from ..nodes import AUCTIONEER


class Journal:
    """The moves so far. Nodes have the names of their recordings; the lines have `auctioneer` for the root.

    counts:  of each node its newest number; of the root the index of its last clearing
    learnt:  of each node the number that its parent learnt last
    passed:  of each node the index of the clearing that was passed to it last
    records: of each parent and number the numbers of its children in it, from number 0 on, which has none
    """

    def __init__(self, parents: Mapping[str, str], root: str) -> None:
        """Takes the parent of each node below the root, each parent before its children."""
        self.parents, self.root = dict(parents), root
        self.children: dict[str, list[str]] = {root: []}
        for name, parent in self.parents.items():
            self.children.setdefault(parent, []).append(name)
        self.counts = dict.fromkeys([root, *self.parents], 0)
        self.learnt = dict.fromkeys(self.parents, 0)
        self.passed = dict.fromkeys(self.parents, 0)
        self.records: dict[str, list[dict[str, int]]] = {name: [{}] for name in self.counts}
        self.lines: list[str] = []

    def change(self, name: str) -> None:
        """A device makes its next change."""
        self.counts[name] += 1
        self.lines.append(f"change {name} {self.counts[name]}")

    def learn(self, name: str, number: int) -> None:
        """The parent of a node learns a number of it, if that is greater than the one learnt last."""
        if number > self.learnt[name]:
            self.learnt[name] = number
            self.lines.append(f"learn {self._told(self.parents[name])} {name} {number}")

    def publish(self, name: str) -> None:
        """A relay publishes what it learnt under its next number. The root clears."""
        self.counts[name] += 1
        self.records[name].append(self._known(name))
        self.lines.append(f"clear {self.counts[name]}" if name == self.root else f"publish {name} {self.counts[name]}")

    def pass_due(self, name: str, index: int) -> None:
        """Each clearing up to this index that addresses a relay is passed to it, if it was not."""
        for passed in range(self.passed[name] + 1, index + 1):
            if self.number_in(name, passed):
                self.passed[name] = passed
                self.lines.append(f"pass {name} {passed}")

    def pass_to_device(self, name: str, index: int, held: tuple[int, int] | None) -> None:
        """A device is passed a clearing. `held` is the price that it holds then and the change that this names, or None."""
        self.passed[name] = index
        self.lines.append(f"pass {name} {index} " + ("none" if held is None else f"price {held[0]} bid {held[1]}"))

    def close(self) -> None:
        """The only phase ends."""
        self.lines.append("close 1")

    # Looking.

    def number_in(self, name: str, index: int) -> int:
        """The number of a node that a clearing contains, 0 if it contains none."""
        parent = self.parents[name]
        number = index if parent == self.root else self.number_in(parent, index)
        return self.records[parent][number].get(name, 0)

    def has_news(self, name: str) -> bool:
        """Whether a parent learnt something since it published or cleared last."""
        return self._known(name) != self.records[name][-1]

    def came_to(self, name: str) -> int:
        """The index of the last clearing that came to a parent."""
        return self.counts[name] if name == self.root else self.passed[name]

    def _known(self, name: str) -> dict[str, int]:
        return {child: self.learnt[child] for child in self.children.get(name, []) if self.learnt[child]}

    def _told(self, name: str) -> str:
        return AUCTIONEER if name == self.root else name
