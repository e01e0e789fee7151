"""Whether every place that repeats a limit of the market, a kind of node, a refusal or an exit status has it as its home has it.

The limits are the constants of the sources, and the kinds are those that the reader of cluster files names, with the members
that it asks for. The places are those of the checklists of CONTRIBUTING.md: the schema, the manual page, the oracle, what makes
inputs, the pictures, the pages. checks/lint/facts.py writes those that can be made. Prints a line for each place that lacks a limit or a kind, or has another number or another
member, and ends with 'N passed, M failed'.
"""

import json
import re
import sys
from collections.abc import Callable, Iterator
from dataclasses import dataclass, fields
from functools import cache
from importlib import import_module
from types import ModuleType
from typing import Any

from checks import TOP
from checks import SCHEMA
from checks.lint import facts
from checks.lint.facts import Kind, Unreadable, kinds, limits, text_of, ticking

MANUAL = "packaging/help/market.1"
PAGE = "docs/CLUSTER_FILE.md"
RELAY = "docs/RELAY.md"
CLASSES = "docs/PYTHON.md"
AUCTION = "checks/oracle/auction.py"
NAMES = "python/cogmaula/__init__.py"
NODES = "python/cogmaula/nodes.py"
STATES = "python/cogmaula/states.py"
VILLAGE = "examples/village.json"

# Limits that pages write as a word.
WORDS = {6: "six", 7: "seven", 8: "eight", 9: "nine", 10: "ten", 12: "twelve", 16: "sixteen"}

HEATED = ("freezer", "heat_pump", "cogeneration")


@cache
def schema() -> dict[str, Any]:
    return json.loads(text_of(SCHEMA))


@cache
def module(path: str) -> ModuleType:
    """A module of ours, by its file."""
    return import_module(path.removeprefix("python/").removesuffix(".py").replace("/", "."))


# Places of a limit.


@dataclass(frozen=True)
class Bound:
    """A number of the schema at a path of members. `node KIND` stands for each form of that kind, `node` for that of every kind
    that has the member behind it."""

    path: str
    of: Callable[[int], int] = lambda number: number

    def findings(self, limit: str, number: int) -> Iterator[str]:
        found = list(self.numbers())
        if not found:
            yield f"{SCHEMA} has no {self.path}, which repeats {limit}"
        for value in found:
            if value != self.of(number):
                yield f"{SCHEMA} has {value} at {self.path}, and by {limit} it is {self.of(number)}"

    def numbers(self) -> Iterator[Any]:
        first, *rest = self.path.split("/")
        if not first.startswith("node"):
            yield from below(schema(), [first, *rest])
            return
        for kind, form in forms():
            if first in ("node", f"node {kind}") and rest[0] in form["properties"]:
                yield from below(form["properties"], rest)


def below(value: Any, path: list[str]) -> Iterator[Any]:
    """What stands at a path of members and places, if it is there."""
    for part in path:
        if isinstance(value, list):
            value = value[int(part)]
        elif part in value:
            value = value[part]
        else:
            return
    yield value


def forms() -> Iterator[tuple[str, dict[str, Any]]]:
    """Each form of a node in the schema, with its kind."""
    for form in schema()["$defs"].values():
        kind = form.get("properties", {}).get("kind", {})
        if "const" in kind:
            yield kind["const"], form


@dataclass(frozen=True)
class Said:
    """A sentence or a row of a page that has the number, or its word, and matches these words."""

    path: str
    words: str

    def findings(self, limit: str, number: int) -> Iterator[str]:
        digits = rf"(?<![\d,.])({number:,}|{number})(?![\d]|,\d)"
        written = re.compile(rf"{digits}|\b{WORDS[number]}\b" if number in WORDS else digits)
        said = [sentence for sentence in sentences(self.path) if re.search(self.words, sentence)]
        if not any(written.search(sentence) for sentence in said):
            yield f"{self.path} does not say {number:,} where it speaks of /{self.words}/, and {limit} is {number:,}"


@cache
def sentences(path: str) -> list[str]:
    """The sentences and the rows of tables of a page, each in one line."""
    text = re.sub(r"(?m)^\.[A-Z]{1,2} ?", "", text_of(path)).replace("`", "")
    blocks = re.split(r"\n\s*\n|\n(?=\||- |\d+\. )", text)
    return [re.sub(r"\s+", " ", sentence) for block in blocks for sentence in re.split(r"(?<=[.;:])\s", block)]


Place = Bound | Said
BASIS = "$defs/basis/properties"
DEMAND = "$defs/demand/items"
POINT = "$defs/points/items/prefixItems"


def negative(number: int) -> int:
    return -number


def both(path: str) -> list[Place]:
    """A number of the schema that lies between the limit's negative and the limit."""
    return [Bound(f"{path}/minimum", negative), Bound(f"{path}/maximum")]


# The places of each limit that no script writes, besides the specs/ of its crate, which contracts compare.
LIMITS: dict[str, list[Place]] = {
    "LEAST_STEPS": [Bound(f"{BASIS}/steps/minimum"), Bound("$defs/demand/minItems"), Said(PAGE, "steps")],
    "MOST_STEPS": [Bound(f"{BASIS}/steps/maximum"), Bound("$defs/demand/maxItems"), Said(PAGE, "steps")],
    "MOST_NODES": [Bound("properties/nodes/maxItems"), Said(PAGE, "nodes"), Said("docs/SERVE.md", "child")],
    "MOST_DEPTH": [Said(PAGE, "concentrators")],
    "WINDOW_SIZE": [
        Said("docs/PROTOCOL.md", "numbers"), Said(RELAY, "numbers or more are unanswered"), Said(RELAY, "offers are unanswered"),
        Said(RELAY, r"up to \w+ unanswered"), Said("docs/LIVE.md", "offers are unanswered"),
    ],
    "PRICE_LIMIT": [*both(f"{BASIS}/min"), *both(f"{BASIS}/max"), *both(f"{POINT}/0"), Said(PAGE, "min below max")],
    "DEMAND_LIMIT": [*both(DEMAND), *both(f"{POINT}/1"), Said(PAGE, "demand"), Said("docs/SERVE.md", "demand")],
    "SUM_LIMIT": [Bound("node limited/floor/minimum", negative), Bound("node limited/ceiling/maximum"), Said(PAGE, "floor.*ceiling")],
    "MOST_PHASES": [Bound("properties/phases/maxItems"), Said(PAGE, "phases")],
    "MOST_EVENTS": [Bound("$defs/events/properties/events/maxItems"), Said(PAGE, "events")],
    "MOST_CHANGES": [Said(PAGE, "changes")],
    "TEMPERATURE_LIMIT": [
        *(bound for member in ("low", "high") for bound in both(f"node/{member}")), *(bound for kind in HEATED for bound in both(f"node {kind}/start")),
        Said(PAGE, "low, high"),
    ],
    "CHANGE_LIMIT": [*(Bound(f"node/{member}/maximum") for member in ("warm", "cool", "loss", "gain")), Said(PAGE, "warm, cool, loss")],
    "POWER_LIMIT": [
        *(Bound(f"node/{member}/maximum") for member in ("power", "charge", "discharge")),
        *(Bound(f"node {kind}/start/maximum") for kind in ("solar", "load")), *both("node objective/start"),
        Said(PAGE, "power, charge, discharge"), Said(PAGE, "start of an objective"),
    ],
    "CAPACITY_LIMIT": [Bound("node battery/capacity/maximum"), Bound("node battery/start/maximum"), Said(PAGE, "capacity")],
    "SPREAD_LIMIT": [Bound("node battery/spread/maximum"), Said(PAGE, "spread is 0 to")],
    "MINUTES_LIMIT": [Bound("$defs/tick/properties/tick/maximum"), Said(PAGE, "minutes")],
    "MAX_POINTS": [Bound("$defs/points/maxItems"), Said(PAGE, "points")],
    "MOST_POINTS": [Said(RELAY, "points")],
    "MAX_NAME_BYTES": [Said(PAGE, "[Nn]ame.*bytes")],
    "FILE_LIMIT": [Said(MANUAL, "bytes"), Said(PAGE, "bytes")],
    "INPUT_RUN": [],
    "INPUT_ASK": [Said(PAGE, "ask.*bytes")],
    "INPUT_CHECK": [Said(PAGE, "check.*bytes")],
    "MOST_TARGETS": [Said(MANUAL, "target"), Said(PAGE, "target")],
    "STREAM_LIMIT": [],
    "MAX_SIZE": [Said(MANUAL, "devices"), Said(PAGE, "devices|SIZE")],
}


def wrong_limits() -> Iterator[tuple[str, list[str]]]:
    """What is wrong with each limit."""
    known = limits()
    for name in sorted(known.keys() - LIMITS.keys()):
        yield name, [f"{known[name][1]} has the limit {name}, of which checks/lint/places.py knows no place"]
    for name, places in LIMITS.items():
        if name not in known:
            yield name, [f"no source has the limit {name}, of which checks/lint/places.py knows places"]
            continue
        number, path = known[name]
        yield name, [finding for place in places for finding in place.findings(f"{name} of {path}", number)]


# Kinds of node.


def listed(members: frozenset[str]) -> str:
    return ", ".join(sorted(members)) or "none"


def differ(path: str, kind: Kind, found: list[frozenset[str]]) -> Iterator[str]:
    """What is wrong if a place does not have a kind, or has it with other members."""
    if not found:
        yield f"{path} has no kind {kind.word}"
    elif set(found) != set(kind.forms):
        have, due = (" or ".join(sorted(map(listed, form))) for form in (found, kind.forms))
        yield f"{path} has the members {have} of the kind {kind.word}, and the code has {due}"


def kind_places(kind: Kind, ticks: bool) -> Iterator[str]:
    """What is wrong with a kind."""
    common = {"name", "kind", "parent"}
    yield from differ(SCHEMA, kind, [frozenset(form["properties"]) - common for word, form in forms() if word == kind.word])

    yield from package_places(kind, ticks)
    if kind.is_device and not re.search(rf'"{kind.word}"', text_of(AUCTION)):
        yield f"{AUCTION} has no kind {kind.word}"
    if kind.is_device and f'"{kind.word}"' not in text_of(VILLAGE):
        yield f"{VILLAGE} has no device of the kind {kind.word}"
    yield from page_places(kind, ticks)


def package_places(kind: Kind, ticks: bool) -> Iterator[str]:
    """What the Python package has otherwise of a kind: its members, whether it is a device, and whether it changes at a tick."""
    known = module(NODES).KINDS.get(kind.word)
    if known is None:
        yield f"{NODES} has no kind {kind.word}"
        return
    members = {field.name for field in fields(known)} - {"name", "parent"}
    # Of the members of a kind with several forms one is chosen.
    yield from differ(NODES, kind, [frozenset({member}) for member in members] if len(kind.forms) > 1 else [frozenset(members)])
    if (known.is_device, known.ticks) != (kind.is_device, ticks):
        yield f"{NODES} has another word than the code on whether {kind.word} is a device, and whether it changes at a tick"
    if ticks and f"case {known.__name__}():" not in text_of(STATES):
        yield f"{STATES} has no tick of {kind.word}"
    if f'"{known.__name__}"' not in text_of(NAMES):
        yield f"{NAMES} does not give the class {known.__name__} of the kind {kind.word}"
    if f"`{known.__name__}`" not in text_of(CLASSES):
        yield f"{CLASSES} has no class {known.__name__} of the kind {kind.word}"


def page_places(kind: Kind, ticks: bool) -> Iterator[str]:
    """What the page of the cluster file lacks of a kind: a row with its members, its bid, its tick."""
    rows = [re.split(r" ?(?<!\\)\| ?", line)[1:-1] for line in text_of(PAGE).splitlines() if line.startswith(f"| `{kind.word}`")]
    titles = {title for title in ("Nodes", "Bids by formula", "Ticks by formula") if f"| `{kind.word}`" in section(PAGE, title)}
    due = {"Nodes"} | ({"Bids by formula"} if kind.is_device else set()) | ({"Ticks by formula"} if ticks else set())
    for title in sorted(due - titles):
        yield f"{PAGE} has no row of the kind {kind.word} under {title}"
    if "Nodes" in titles:
        said = set(re.findall(r"`(\w+)`", rows[0][1]))
        others = {word for word in said if word in {other.word for other in kinds()}}
        for other in kinds():
            if other.word in others:
                said |= set().union(*other.forms)
        if said - others - {"parent"} != set().union(*kind.forms):
            have, due = listed(frozenset(said - others)), listed(frozenset().union(*kind.forms))
            yield f"{PAGE} has the members {have} of the kind {kind.word}, and the code has {due}"


def section(path: str, title: str) -> str:
    """The text below a heading of a page."""
    parts = re.split(r"(?m)^#+ (.*)$", text_of(path))
    return dict(zip(parts[1::2], parts[2::2])).get(title, "")


def wrong_kinds() -> Iterator[tuple[str, list[str]]]:
    """What is wrong with each kind, and kinds that a place has and the code has not."""
    known, tick = kinds(), ticking()
    for kind in known:
        yield kind.word, list(kind_places(kind, kind.variant in tick))
    words = {kind.word for kind in known}
    for path, others in (
        (SCHEMA, {word for word, _ in forms()}),
        (NODES, set(module(NODES).KINDS)),
    ):
        yield path, [f"{path} has the kind {word}, which the code has not" for word in sorted(others - words)]


# Frames.

KIND = re.compile(r"^(?:pub\(crate\) )?const (\w+): u8 = (\d+);", re.M)
ROW = re.compile(r"^\| (\w+) \| (\d+)(?: \+ `n`)? \|", re.M)
CLASS = re.compile(r"^class (\w+)\(.*\n(?:(?!class ).*\n)*?    KIND = (\d+)$", re.M)


def wrong_frames() -> Iterator[tuple[str, list[str]]]:
    """The first bytes of frames that a page or the package has otherwise than the code."""
    text = text_of("crates/pm_frames/src/kinds.rt") + text_of("crates/pm_wire/src/bid_frames.rt")
    known = {name.title().replace("_", ""): int(number) for name, number in KIND.findall(text)}
    tables = {page: {name: int(number) for name, number in ROW.findall(text_of(page))} for page in (RELAY, "docs/SERVE.md")}
    # Those that only answers have: the two pages have the same.
    shared = tables[RELAY] | {name: number for name, number in known.items()}
    found = {}
    for path in sorted((TOP / "python" / "cogmaula" / "live").glob("*.py")):
        found |= {name: int(number) for name, number in CLASS.findall(path.read_text())}
    for name, number in known.items():
        wrong = [f"{RELAY} has no frame {name} of the kind {number}"] if tables[RELAY].get(name) != number else []
        wrong += [f"python/cogmaula/live has no frame {name} of the kind {number}"] if found.get(name, number) != number else []
        yield name, wrong
    for name, number in tables["docs/SERVE.md"].items():
        # A Price of `serve` is another frame than that of a node.
        if name in shared and name != "Price":
            yield name, [] if shared[name] == number else [f"docs/SERVE.md has the frame {name} of the kind {number}, and it is {shared[name]}"]


def main() -> int:
    """Writes what can be made, or compares all."""
    if sys.argv[1:] == ["write"]:
        facts.write()
        return 0
    if sys.argv[1:]:
        print("usage: checks/run places [write]", file=sys.stderr)
        return 2
    passed, failed = 0, 0
    try:
        for _, findings in [*facts.wrong(), *wrong_limits(), *wrong_kinds(), *wrong_frames()]:
            for finding in findings:
                print(finding)
            failed += len(findings)
            passed += not findings
    except Unreadable as error:
        print(error)
        failed += 1
    print(f"{passed} passed, {failed} failed")
    return 1 if failed else 0


if __name__ == "__main__":
    sys.exit(main())
