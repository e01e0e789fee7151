"""Many devices as a few groups with names: those of one kind below one parent, whose powers are added up."""

from __future__ import annotations

from typing import Any

from ..cluster import Cluster

# More devices than these are shown as groups.
MOST_NAMED = 60


def rows_of(cluster: Cluster, powers: Any, columns: list[int]) -> dict[str, Any]:
    """The powers that a figure shows, by name: of each of these devices, or of groups if they are many.

    powers: watts, a row for each interval and a column for each device
    """
    devices = cluster.devices
    if len(columns) <= MOST_NAMED:
        return {devices[at].name: powers[:, at] for at in columns}
    keys = {at: (devices[at].above, words_of(devices[at].kind)) for at in columns}
    if len(set(keys.values())) > MOST_NAMED:
        keys = {at: ("", kind) for at, (_, kind) in keys.items()}
    members: dict[tuple[str, str], list[int]] = {}
    for at, key in keys.items():
        members.setdefault(key, []).append(at)
    return {
        f"{above}{': ' if above else ''}{kind} ({len(them)})": powers[:, them].sum(axis=1)
        for (above, kind), them in members.items()
    }


def words_of(kind: str) -> str:
    """A kind of node in words."""
    return kind.replace("_", " ")
