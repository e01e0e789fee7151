"""Any single change of a valid recording is found, or leaves a recording that is by itself a run.

Which of the two it is, `is_run` works out by rules of its own: services are those of checks/oracle/nodes.py, which were written
from docs/RELAY.md, and the order is looked for by going round the nodes until nothing moves. These changes leave a run:

- an `end` that is not there; a `stored` behind which nothing is written before the next start
- the last frames out of a life that nobody took, since a life may end before they are handled
- a frame in that changes no answer of its life, and was sent
- two neighbours that change places, of which neither answers or lets send the other
"""

from __future__ import annotations

import json
import shutil
import tempfile
from collections import Counter
from pathlib import Path

import pytest
from hypothesis import HealthCheck, given, settings
from hypothesis import strategies as some
from markets import PLACES, STEPS
from recorded import Lines

from checks.oracle import frames
from checks.oracle.nodes import RESUME, RESUME_GONE, node_of
from cogmaula.judge import judge, replay
from cogmaula.live.messages.frames import Hello

PARENTS = {name: parent for name, (_, parent, _) in PLACES.items()}
CHILDREN = {(parent, child): name for name, (_, parent, child) in PLACES.items()}
BIDS, PRICES, EXPIRE, LIMITS = {2, 3}, {23, 7}, 19, 20
RELAYS = {(parent, child) for _, (sort, parent, child) in PLACES.items() if sort == "relay"}


def lives_of(told):
    """The lives of a node, each a list of its lines. None if a line is outside a life."""
    lives, has_ended = [], True
    for line in told:
        if line["what"] == "start":
            lives.append([])
        elif has_ended:
            return None
        has_ended = line["what"] == "end"
        lives[-1].append(line)
    return lives


def answers_as_recorded(life):
    """Whether the model of the service answers a life's frames in by its frames out, so far as these go."""
    start = life[0]
    service = node_of(start["arguments"])
    if service is None:
        return False
    stream, due = frames.Stream(service), b""
    due += stream.feed(Hello(start["min"], start["max"], start["steps"]).to_bytes() + bytes.fromhex(start["resume"] or ""))
    for line in life[1:]:
        if line["what"] == "in":
            data = bytes.fromhex(line["frame"])
            if data[0] in (1, RESUME, RESUME_GONE):
                return False
            due += stream.feed(data)
            if stream.is_bad or stream.kept:
                return False
        elif line["what"] == "out":
            data = bytes.fromhex(line["frame"])
            if not due.startswith(data):
                return False
            due = due[len(data) :]
    return not stream.is_bad


def exact(data):
    """A Resume without the price that it has, and that price."""
    if not data:
        return b"", b""
    if len(data) == 1039:
        return data, b""
    end = 13 if len(data) == 1065 else 9
    return data[:5] + data[end:], data[5:end]


def is_new_bid(stored, waits, data):
    """Whether a frame is the Bid of the new number of a relay's Resume, which is stored with it. Both are given by their bytes."""
    return len(waits) == 1065 and stored[1:5] < waits[1:5] == data[3:7] and data[0] == 2


def comes_back_with_newest(lives):
    """Whether each start comes back with what was stored last, or written since; and nothing is written before it is stored.

    What differs from the stored in the price alone need not be stored. A relay's new Bid is stored with its Resume."""
    stored, waits, prices = b"", None, {b"", bytes(4), bytes(8)}
    for life in lives:
        begin = bytes.fromhex(life[0]["resume"] or "")
        if exact(begin)[0] not in [exact(resume)[0] for resume in (stored, waits) if resume is not None] or exact(begin)[1] not in prices:
            return False
        stored, waits, has_bid = begin, None, False
        for line in life[1:]:
            if line["what"] == "out":
                data = bytes.fromhex(line["frame"])
                if waits is not None and not has_bid and is_new_bid(stored, waits, data):
                    has_bid = True
                    continue
                if waits is not None and exact(waits)[0] != exact(stored)[0]:
                    return False
                waits = None
                if data[0] in (RESUME, RESUME_GONE):
                    waits, has_bid = data, False
                    prices.add(exact(data)[1])
            elif line["what"] == "stored":
                if waits is None:
                    return False
                stored, waits = waits, None
    return True


def lets_devices_go_alone(name, lives):
    """Whether no relay is let go."""
    fed = (bytes.fromhex(line["frame"]) for life in lives for line in life if line["what"] == "in")
    return not any(frame[0] == EXPIRE and (name, int.from_bytes(frame[1:3], "big")) in RELAYS for frame in fed)


def gives_a_number_once(lives):
    """Whether limits of one number are the same."""
    fed = [bytes.fromhex(line["frame"]) for life in lives for line in life if line["what"] == "in"]
    given = {(frame[1:5], frame[5:]) for frame in fed if frame[0] == LIMITS}
    return len({number for number, _ in given}) == len(given)


def sender_of(name, data):
    if data[0] in BIDS:
        return CHILDREN.get((name, int.from_bytes(data[1:3], "big")))
    return PARENTS[name] if data[0] in PRICES else None


def has_an_order(told):
    """Whether all lines have an order in which each frame is sent before it is taken."""
    at, sent, moved = dict.fromkeys(told, 0), {name: set() for name in told}, True
    # Of each node the Resume that is stored, the one that waits, and the Bid that is sent once that is stored.
    kept = {name: [b"", b"", None] for name in told}
    while moved:
        moved = False
        for name, them in told.items():
            while at[name] < len(them):
                line = them[at[name]]
                stored, waits, held = kept[name]
                if line["what"] == "start":
                    begin = bytes.fromhex(line["resume"] or "")
                    sent[name] |= {held} if held is not None and begin[1:5] == waits[1:5] else set()
                    kept[name] = [begin, b"", None]
                elif line["what"] == "stored":
                    sent[name] |= set() if held is None else {held}
                    kept[name] = [waits, b"", None]
                elif line["what"] == "out":
                    data = bytes.fromhex(line["frame"])
                    if data[0] == RESUME:
                        kept[name] = [stored, data, None]
                    if is_new_bid(stored, waits, data):
                        kept[name][2] = line["frame"]
                    else:
                        sent[name].add(line["frame"])
                elif line["what"] == "in":
                    sender = sender_of(name, bytes.fromhex(line["frame"]))
                    if sender is not None and line["frame"] not in sent[sender]:
                        break
                at[name] += 1
                moved = True
    return all(at[name] == len(them) for name, them in told.items())


def is_run(lines):
    """Whether recordings are those of a run, by the rules of this file."""
    told = {name: [] for name in PLACES}
    for file in sorted(lines.files):
        told[file.split(".")[0]] += [json.loads(line) for line in lines.files[file]]
    for name, them in told.items():
        lives = lives_of(them)
        if lives is None or not all(answers_as_recorded(life) for life in lives) or not comes_back_with_newest(lives):
            return False
        if not lets_devices_go_alone(name, lives) or not gives_a_number_once(lives):
            return False
    return has_an_order(told)


@some.composite
def changes(draw, lines):
    """A change of one line: what is done, and a call that does it."""
    file = draw(some.sampled_from(sorted(lines.files)))
    them = lines.files[file]
    at = draw(some.integers(0, len(them) - 1))
    what = draw(some.sampled_from(["drop", "exchange", "double", "move", "alter", "turn"]))
    told = json.loads(them[at])
    if what == "drop":
        return f"drop {told['what']}", lambda: them.pop(at)
    if what in ("exchange", "move"):
        other = min(at + 1, len(them) - 1) if what == "exchange" else draw(some.integers(0, len(them) - 1))
        return f"{what} {told['what']}", lambda: them.insert(other, them.pop(at))
    if what == "double":
        return f"double {told['what']}", lambda: them.insert(at, them[at])
    if what == "turn" and told["what"] in ("in", "out"):
        told["what"] = "out" if told["what"] == "in" else "in"
        return f"turn {told['what']}", lambda: them.__setitem__(at, json.dumps(told).encode())
    member = "frame" if told["what"] in ("in", "out") else "resume"
    if not told.get(member):
        return f"drop {told['what']}", lambda: them.pop(at)
    data = bytearray.fromhex(told[member])
    # The first fields of a frame have its kind, its numbers and its step.
    place = draw(some.integers(0, min(len(data), 20) - 1))
    data[place] ^= draw(some.sampled_from([1, 2, 4, 255]))
    told[member] = data.hex()
    return f"alter {told['what']}", lambda: them.__setitem__(at, json.dumps(told).encode())


SEEN = Counter()


@pytest.fixture
def quick(monkeypatch):
    """Asks soon by the end of the input whether a service has an answer, and is patient if it has."""
    monkeypatch.setattr(replay, "PATIENCE", (0.05, 2.0, 60.0))


def lets_a_stranger_go(lines):
    """Whether a child is let go that has no recording."""
    let_go = {(file.split(".")[0], lines.frame(file, at).child) for name in PLACES for file, at in lines.of(name, "in", "Expire")}
    return not let_go <= CHILDREN.keys()


def require_as_worked_out(lines, live):
    """Judges lines, and compares."""
    with tempfile.TemporaryDirectory() as folder:
        lines.folder = Path(folder)
        verdict = judge(lines.write(), live)
    due = "valid" if is_run(lines) else "invalid"
    if due == "valid" and lets_a_stranger_go(lines):
        due = "incomplete"
    assert verdict.verdict == due, verdict
    return due


@settings(max_examples=60, deadline=None, suppress_health_check=[HealthCheck.function_scoped_fixture, HealthCheck.too_slow])
@given(data=some.data())
def test_any_single_change_is_found_or_leaves_a_run(recorded, live, quick, data):
    lines = Lines(recorded)
    what, change = data.draw(changes(lines))
    change()
    SEEN[what, require_as_worked_out(lines, live)] += 1


def places_of(lines, holds):
    return [(file, at) for file, them in lines.files.items() for at in range(len(them)) if holds(file, at)]


def test_the_changes_that_leave_a_run(recorded, live, quick, tmp_path):
    """Each of them by hand: they are valid, and `is_run` says so."""
    whole = Lines(recorded)
    assert require_as_worked_out(whole, live) == "valid"
    cases = {
        "an end": [(file, at) for file, at in places_of(whole, lambda *place: whole.told(*place)["what"] == "end")],
        "a stored before a start": places_of(
            whole, lambda file, at: whole.told(file, at)["what"] == "stored" and is_last_word(whole, file, at)
        ),
        "a frame out at the end that nobody takes": places_of(
            whole,
            lambda file, at: whole.told(file, at)["what"] == "out" and is_last_word(whole, file, at)
            and type(whole.frame(file, at)).__name__ in ("Old", "NotChanged", "Dropped", "Setpoint"),
        ),
        "a frame in at the end": places_of(
            whole, lambda file, at: whole.told(file, at)["what"] == "in" and is_last_word(whole, file, at)
        ),
    }  # fmt: skip
    seen = Counter()
    for what, places in cases.items():
        for file, at in places:
            lines = Lines(shutil.copytree(recorded, tmp_path / f"{what} {file} {at}")).drop(file, at)
            assert require_as_worked_out(lines, live) == "valid", (what, file, at)
            seen[what] += 1
    assert seen["an end"] > 4 and seen["a stored before a start"] + seen["a frame in at the end"] > 2, seen


def is_last_word(lines, file, at):
    """Whether nothing is done behind a line in its life. Lives of these recordings do not go on in another file."""
    behind = [lines.told(file, number)["what"] for number in range(at + 1, len(lines.files[file]))]
    return not behind or behind[0] in ("end", "start")
