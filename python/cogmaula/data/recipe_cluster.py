"""The cluster file that a recipe makes of its tables."""

from __future__ import annotations

from collections.abc import Iterator, Mapping, Sequence
from dataclasses import dataclass
from datetime import date, datetime
from difflib import get_close_matches
from pathlib import Path
from typing import Any

from ..cluster import Basis, Cluster
from ..errors import Unreadable
from ..members import Points, whole
from ..moments import later, moment_of
from ..nodes import Battery, Load, Manual, Node, Solar
from ..phases import Event, Events, Phase, State, Tick
from ..cluster_reader import node_of
from .faults import RecipeFault, TableFault
from .looks import Look, looks_of
from .recipe import Recipe, Table, read_recipe
from .suppliers import Supplier, connection_supplier, price_supplier
from .tables import Measured, read_table

# The word of a battery in a recipe that makes several of it.
SLICES = "slices"


@dataclass(frozen=True)
class Made:
    """What a recipe makes.

    cluster:    the cluster
    start:      when its first interval begins
    connection: the name of the device that is the connection to the supplier, or None
    told:       a line for each thing that was filled in, rounded or left out
    looks:      what each column looks like
    columns:    of each device of a column, which are the last nodes of the cluster, its table and its column in words
    """

    cluster: Cluster
    start: datetime
    connection: str | None
    told: tuple[str, ...]
    looks: tuple[Look, ...]
    columns: tuple[str, ...]


def from_csv(path: str | Path, begin: date | None = None, end: date | None = None) -> tuple[Cluster, datetime]:
    """The cluster that the recipe at `path` makes of its tables' rows from `begin` on and before `end`, and when it begins.

    A date is its midnight. Times without an offset are in the recipe's time zone, or else in the offset of the tables.

    Raises RecipeFault or TableFault, each with the place; Unreadable if a node of the recipe has other members than its kind; OSError
    if a file cannot be read. The limits of the market are not tried here: `Cluster.check` asks the program.
    """
    made = made_by(path, begin, end)
    return made.cluster, made.start


def made_by(path: str | Path, begin: date | None = None, end: date | None = None) -> Made:
    """What the recipe at `path` makes. Arguments and errors are those of `from_csv`."""
    recipe = read_recipe(path)
    return made_of(recipe, [(table, measured(recipe, table, begin, end)) for table in recipe.tables])


def measured(recipe: Recipe, table: Table, begin: date | None, end: date | None) -> Measured:
    """What a table measured over the ticks from `begin` on and before `end`."""
    found = read_table(table, recipe.minutes, recipe.timezone, recipe.missing)
    for column in table.parents or {}:
        if column not in found.columns:
            likely = get_close_matches(column.casefold(), [column.casefold() for column in found.columns], 1)
            meant = next((column for column in found.columns if [column.casefold()] == likely), None)
            told = f": is {meant!r} meant?" if meant else f": it has {', '.join(found.columns[:8])}"
            raise RecipeFault(f"{recipe.path}: {table.file.name}: parents names {column!r}, which is no column{told}")
    begin, end = (None if text is None else comparable(moment_of(text, found.times[0]), recipe, found.times[0]) for text in (begin, end))
    cut = found.between(begin, end)
    return cut if recipe.tick == recipe.minutes else cut.resampled(table.file.name, recipe.minutes, recipe.tick)


def comparable(moment: datetime, recipe: Recipe, first: datetime) -> datetime:
    """A moment that can be compared with the times of a table whose first one is given."""
    if first.tzinfo is None:
        if moment.tzinfo is not None:
            raise RecipeFault(f"{moment.isoformat()} has an offset, and the times of the tables have none: write it without, or a timezone into the recipe")
        return moment
    return moment if moment.tzinfo is not None else moment.replace(tzinfo=recipe.timezone or first.tzinfo)


def first_time(tables: Sequence[tuple[Table, Measured]]) -> datetime:
    """When the first interval begins; all tables have to have the same intervals."""
    if not tables:
        raise RecipeFault("the recipe has no table: write [[table]] with a file and a kind")
    first = tables[0][1].times
    if not first:
        raise TableFault(f"{tables[0][0].file}: no row lies between the times that were asked for")
    for table, data in tables[1:]:
        if data.times != first:
            told = f"{table.file}: its rows go from {span_of(data)}, and those of {tables[0][0].file} from {span_of(tables[0][1])}"
            raise TableFault(f"{told}: cut them to the same span")
    return first[0]


def span_of(data: Measured) -> str:
    """The first and the last time of a table, in words."""
    return f"{data.times[0].isoformat()} to {data.times[-1].isoformat()}" if data.times else "nowhere to nowhere"


def made_of(recipe: Recipe, tables: Sequence[tuple[Table, Measured]], before: Sequence[Node] = ()) -> Made:
    """What a recipe makes of what its tables measured, with these nodes before its own.

    The nodes come first, then the suppliers, then a device for each column. All devices join at first. Each row is then a
    tick, with the changes of the loads, the solar panels and the suppliers in a phase before it. What stays the same has no change.
    """
    first = first_time(tables)
    series = [(table, name, powers) for table, data in tables for name, powers in zip(data.columns, data.powers)]
    nodes = [*before, *(node for at, told in enumerate(recipe.nodes) for node in nodes_of(f"nodes[{at}]", told))]
    basis = basis_of(recipe.basis)
    suppliers, told = suppliers_of(recipe, basis, tables[0][1].times, power_of(nodes, [points[2] for points in series]))
    told = [line for _, data in tables for line in data.told] + told
    devices: list[Node] = [Manual(supplier.name, parent=supplier.parent, points=supplier.points[0]) for supplier in suppliers]
    for table, name, powers in series:
        kind = Load if table.kind == "load" else Solar
        devices.append(kind(table.name_of(name), parent=table.parent_of(name), start=powers[0]))
    nodes += devices
    version = 2 if any(node.kind == "limited" for node in nodes) else 1
    cluster = Cluster(basis, nodes, version=version)
    phases = phases_of(recipe.tick, suppliers, {table.name_of(name): powers for table, name, powers in series})
    cluster = cluster.with_phases(cluster.join_all(), *phases)
    start = later(first.astimezone(recipe.timezone), 0) if recipe.timezone else first
    looks = looks_of(tables, recipe.tick)
    columns = tuple(f"{table.file.name}: column {name}" for table, name, _ in series)
    return Made(cluster, start, connection_of(recipe), tuple(told), tuple(looks), columns)


def cluster_of(recipe: Recipe, tables: Sequence[tuple[Table, Measured]]) -> Cluster:
    """The cluster of a recipe and what its tables measured. Raises what `made_of` raises."""
    return made_of(recipe, tables).cluster


def basis_of(told: Mapping[str, Any]) -> Basis:
    """The basis of a recipe. Raises RecipeFault."""
    if set(told) != {"min", "max", "steps"}:
        raise RecipeFault("[basis] has other words than min, max and steps")
    try:
        return Basis(**{word: whole(f"basis: {word}", value) for word, value in told.items()})
    except TypeError as fault:
        raise RecipeFault(str(fault)) from None


def nodes_of(place: str, told: Mapping[str, Any]) -> list[Node]:
    """The nodes that a node of a recipe makes: itself, or the slices of a battery."""
    node = node_of(place, {word: value for word, value in told.items() if word != SLICES})
    if SLICES not in told:
        return [node]
    try:
        if not isinstance(node, Battery):
            raise ValueError("only a battery has slices")
        return list(Battery(**{word: value for word, value in node.members().items() if word != "kind"}).sliced(whole("slices", told[SLICES])))
    except (TypeError, ValueError) as fault:
        raise Unreadable(place, str(fault)) from None


def power_of(nodes: Sequence[Node], series: Sequence[Sequence[int]]) -> int:
    """A whole number of kilowatts, in watts, that is more than all these take or deliver at once: the power of a supplier."""
    most = sum(max(powers) for powers in series)
    for node in nodes:
        watts = [value for word, value in node.members().items() if word in ("charge", "discharge", "power", "start") and isinstance(value, int)]
        if isinstance(node, Manual):
            watts += [*(node.demand or ()), *(pair[1] for pair in node.points or ())]
        most += max((abs(value) for value in watts), default=0)
    return (most // 1000 + 1) * 1000


def suppliers_of(recipe: Recipe, basis: Basis, times: Sequence[datetime], power: int) -> tuple[list[Supplier], list[str]]:
    """The suppliers of a recipe, and the lines that tell how their prices were rounded."""
    found = [price_supplier(recipe, price, basis, times, power) for price in recipe.prices]
    if recipe.connection is not None:
        found.insert(0, connection_supplier(recipe, recipe.connection, basis, times, power))
    return [supplied[0] for supplied in found], [line for supplied in found for line in supplied[1]]


def connection_of(recipe: Recipe) -> str | None:
    """The name of the device that is the connection: that of [connection], or the device of the only [[price]]."""
    if recipe.connection is not None:
        return recipe.connection.name
    return recipe.prices[0].device if len(recipe.prices) == 1 else None


def phases_of(minutes: int, suppliers: Sequence[Supplier], series: Mapping[str, Sequence[int]]) -> Iterator[Phase]:
    """The phases behind the joins: each row is a tick behind the changes that it brings."""
    yield Tick(minutes)
    bids: dict[str, tuple[Points, ...]] = {supplier.name: supplier.points for supplier in suppliers}
    for row in range(1, len(next(iter(series.values())))):
        changed: list[Event] = [State(name, points=column[row]) for name, column in bids.items() if column[row] != column[row - 1]]
        changed += [State(name, column[row]) for name, column in series.items() if column[row] != column[row - 1]]
        if changed:
            yield Events(changed)
        yield Tick(minutes)


