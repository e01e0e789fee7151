"""The place of each agent in the market: its child number, in the session in which it has it. It is kept in the agent's folder.

A child number belongs to the agent that bid under it, until the market begins a new session. So a place is kept before the
agent's node starts, also of an agent that is barred later.
"""

from __future__ import annotations

import json
import os
from collections.abc import Mapping
from dataclasses import dataclass
from pathlib import Path

from ..live.node.node_errors import BadMessage, BadSettings, BadStore
from ..live.messages.messages import object_of
from .tokens import Entries

FILE = "place"


@dataclass(frozen=True)
class Place:
    """A child number at the auctioneer, 1 to 256, and the id of the session."""

    child: int
    session: str


def keep_place(folder: Path, place: Place) -> None:
    """Writes the place of an agent into its folder, safely. Raises OSError."""
    folder.mkdir(mode=0o700, parents=True, exist_ok=True)
    fresh = folder / f"{FILE}.fresh"
    with open(fresh, "w") as file:
        file.write(json.dumps({"child": place.child, "session": place.session}) + "\n")
        file.flush()
        os.fsync(file.fileno())
    os.replace(fresh, folder / FILE)
    for path in (folder, folder.parent):
        opened = os.open(path, os.O_RDONLY | os.O_DIRECTORY)
        try:
            os.fsync(opened)
        finally:
            os.close(opened)


def places_in(folder: Path, session: str) -> dict[str, Place]:
    """The places of this session, by agent, of a folder that has a folder of each agent. Raises BadStore and OSError."""
    found = {path.parent.name: _read(path) for path in sorted(folder.glob(f"*/{FILE}"))}
    return {agent: place for agent, place in found.items() if place.session == session}


def require_places(entries: Entries, places: Mapping[str, Place]) -> None:
    """Raises BadSettings if an agent is to have another child number than in this session, or that of another agent."""
    holders = {place.child: agent for agent, place in places.items()}
    for entry in entries.values():
        place = places.get(entry.agent)
        if place is not None and place.child != entry.child:
            raise BadSettings(f"{entry.agent} is child {place.child} in this session, and not {entry.child}: give that number")
        holder = holders.get(entry.child, entry.agent)
        if holder != entry.agent:
            raise BadSettings(
                f"child {entry.child} is {holder}'s in this session, and not {entry.agent}'s: give another number, or begin a "
                "new session by --new-session"
            )


def _read(path: Path) -> Place:
    try:
        told = object_of(path.read_bytes(), "the place")
    except BadMessage:
        told = {}
    child, session = told.get("child"), told.get("session")
    if type(child) is not int or not isinstance(session, str):
        raise BadStore(f'{path} is damaged: write {{"child": CHILD, "session": SESSION}} there, or begin a new session')
    return Place(child, session)
