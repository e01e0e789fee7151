"""What `explain` finds: where a file is wrong, and in words why. The parts that the explanations of all codes share."""

from __future__ import annotations

from collections.abc import Iterable
from dataclasses import dataclass
from difflib import get_close_matches

from ..errors import Place, Refused
from .located import Value

# How much of the file a message shows.
SHOWN = 60
ONE_OF = {
    "phase": ("events", "tick"),
    "event": ("join", "leave", "state"),
    "state": ("value", "demand", "points"),
    "manual": ("demand", "points"),
}


@dataclass(frozen=True)
class Finding:
    """What is wrong with a text, and where.

    at:      the character, from 0
    path:    the member as a path into the file, such as nodes[1].power, which counts from 0
    fault:   what is wrong, as a sentence without its full stop
    allowed: what may be written there
    written: what is written there
    likely:  what the writer likely meant, or None
    """

    at: int
    path: str
    fault: str
    allowed: str
    written: str
    likely: str | None = None


@dataclass(frozen=True)
class Node:
    """A node of the file: its number from 1, its value, and its members if they are of the right shape."""

    number: int
    value: Value
    name: str
    kind: str
    parent: str

    @property
    def words(self) -> str:
        """The node in words."""
        return f'node {self.number} "{self.name}"'


class File:
    """A cluster file that was refused: its text, its value, and the refusal."""

    def __init__(self, text: str, document: Value, refused: Refused) -> None:
        self.text = text
        self.document = document
        self.refused = refused
        self.place = refused.place

    def shown(self, value: Value) -> str:
        """A value as it is written, shortened."""
        return shortened(self.text[value.at : value.end])

    def items(self, name: str) -> list[Value]:
        """The items of a list of the document, or none if it is of another shape."""
        found = self.document.members.get(name)
        return found.value.items if found else []

    def nodes(self) -> list[Node]:
        """The nodes of the file, as far as they are objects."""
        return [node_of(number, value) for number, value in enumerate(self.items("nodes"), 1)]

    def node(self) -> Node:
        """The node at the place of the refusal."""
        return self.nodes()[self.place.numbers[0] - 1]

    def events(self, phase: int) -> list[Value]:
        """The events of a phase, which counts from 1."""
        found = self.items("phases")[phase - 1].members.get("events")
        return found.value.items if found else []

    def value(self) -> Value:
        """The value at the place of the refusal."""
        match self.place:
            case Place("basis"):
                return self.document.members["basis"].value
            case Place("node", (number,)):
                return self.items("nodes")[number - 1]
            case Place("phase", (number,)):
                return self.items("phases")[number - 1]
            case Place("event", (phase, number)):
                return self.events(phase)[number - 1]
            case _:
                return self.document

    def words(self) -> str:
        """The place of the refusal in words."""
        match self.place:
            case Place("node"):
                node = self.node()
                return node.words if node.name else f"node {node.number}"
            case Place("event", (phase, number)):
                return f"event {number} of phase {phase}"
            case _:
                return str(self.place) if self.place.numbers else f"the {self.place.what}"

    def path_to(self, *members: str | int) -> str:
        """The path of a member below the place of the refusal."""
        path = self.place.path
        for member in members:
            path += f"[{member}]" if isinstance(member, int) else f".{member}" if path else member
        return path


def node_of(number: int, value: Value) -> Node:
    """A node of the file. What it lacks, or has in another shape, is an empty text."""

    def text(name: str) -> str:
        found = value.members.get(name)
        return str(found.value.value) if found and found.value.what == "text" else ""

    kind = text("kind")
    parent = "auctioneer" if kind == "objective" else text("parent")
    return Node(number, value, text("name"), kind, parent)


def shortened(text: str) -> str:
    """A text in one line, with its middle left out if it is long."""
    line = " ".join(text.split())
    return line if len(line) <= SHOWN else f"{line[: SHOWN - 20]} .. {line[-16:]}"


def listed(names: Iterable[str], last: str = "and") -> str:
    """Names in words: a, b and c."""
    them = list(names)
    return f"{', '.join(them[:-1])} {last} {them[-1]}" if len(them) > 1 else "".join(them)


def number(value: int) -> str:
    """A number with its thousands apart."""
    return f"{value:,}"


def close(word: str, names: Iterable[str]) -> str | None:
    """The name that was likely meant by a word, or None."""
    known = {name.lower(): name for name in names}
    found = get_close_matches(word.lower(), list(known), n=1, cutoff=0.6)
    return known[found[0]] if found else None
