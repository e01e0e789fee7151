"""Decides whether a trace is a legal and complete run of its cluster file, whoever wrote it, and names the bad line.

    (wc -c < FILE; cat FILE; cat TRACE) | python3 -m checks.oracle.judge

Standard input is an envelope: a line with the number of bytes of the cluster file, the file, and the trace. It prints
`valid moves M`, or `invalid line N` with status 1, or with status 5 the refusal of the envelope or of the file.

The trace is judged by docs/PROTOCOL.md on whole cuts: what a node published is kept for good as the numbers of all devices
below it, and there is no record, running sum, message or window. Reports and prices are those of auction.py, refusals
those of scene.py. Nothing here knows the program.
"""

import re
import sys

from checks.facts import DONE as VALID
from checks.facts import FILE_LIMIT, INPUT_CHECK, INVALID, REFUSED, TOO_LONG, WINDOW_SIZE
from checks.oracle.auction import CONCENTRATORS, TICKING, after_tick, bid_of, ends_of, lines_of, parts_at, part_of, prices_of, state_of
from checks.oracle.scene import Refused, scene_of

ROOT = "auctioneer"
# The numbers of a concentrator that may lie above the one that the last price passed to it names.
WINDOW = WINDOW_SIZE
INPUT_LIMIT = INPUT_CHECK
NUMBER = rb"(0|[1-9][0-9]{0,18})"
NAME = rb"([A-Za-z][A-Za-z0-9_-]*)"
# The lines of moves, each with what it names; what a device holds after a price stands behind a `pass`.
FORMS = [
    ("change", re.compile(rb"change %b %b" % (NAME, NUMBER))),
    ("learn", re.compile(rb"learn %b %b %b" % (NAME, NAME, NUMBER))),
    ("publish", re.compile(rb"publish %b %b" % (NAME, NUMBER))),
    ("clear", re.compile(rb"clear %b" % NUMBER)),
    ("pass", re.compile(rb"pass %b %b(?: .*)?" % (NAME, NUMBER))),
    ("close", re.compile(rb"close %b" % NUMBER)),
]


class Device:
    """The planned changes of a device: for each number its state, its membership and the number of its last join."""

    def __init__(self, node, start):
        self.node = node
        self.states, self.member, self.joins = [start], [False], [0]

    def change(self, state, member, joins_now=False):
        self.joins.append(len(self.states) if joins_now else self.joins[-1])
        self.states.append(state)
        self.member.append(member)


class Plan:
    """A cluster file: its tree, the changes of its devices, its report, and the price of any cut."""

    def __init__(self, file):
        self.file = file
        self.prices, self.groups, ends = prices_of(file), part_of(file), ends_of(file)
        self.report = [line.encode() for line in lines_of(file, ends)]
        self.parent = {node["name"]: node.get("parent", ROOT) for node in file["nodes"]}
        self.children = {ROOT: []} | {node["name"]: [] for node in file["nodes"] if node["kind"] in CONCENTRATORS}
        for name, parent in self.parent.items():
            self.children[parent].append(name)
        self.devices = {
            node["name"]: Device(node, state_of(node, self.prices)) for node in file["nodes"] if node["kind"] not in CONCENTRATORS
        }
        self.leaves = {name: self.leaves_of(name) for name in [*self.parent, ROOT]}
        self.ends = [dict.fromkeys(self.devices, 0)] + [end.numbers for end in ends]
        for phase in range(len(ends)):
            self.add_phase(file["phases"][phase], ends[phase - 1].powers if phase else {})
        self.found = {}

    def leaves_of(self, name):
        """The devices at a node or below it, in the file's order."""
        def stands_below(device):
            while device not in (name, ROOT):
                device = self.parent[device]
            return device == name

        return [device for device in self.devices if stands_below(device)]

    def add_phase(self, phase, powers):
        """Lists the changes of a phase; the powers are those at the end of the phase before."""
        for event in phase.get("events", []):
            device = self.devices[next(event[word] for word in ("join", "leave", "state") if word in event)]
            if "state" in event:
                device.change(state_of(event, self.prices), True)
            else:
                device.change(device.states[-1], "join" in event, "join" in event)
        if "tick" in phase:
            for name, device in self.devices.items():
                if device.node["kind"] in TICKING and device.member[-1]:
                    device.change(after_tick(device.node, device.states[-1], powers[name], phase["tick"]), True)

    def step_of(self, cut, name):
        """The step that a device takes if the market clears a cut: that of its part of the cluster."""
        numbers = tuple(cut.values())
        if numbers not in self.found:
            members = {name: device for name, device in self.devices.items() if device.member[cut[name]]}
            bids = {name: bid_of(device.node, device.states[cut[name]], len(self.prices)) for name, device in members.items()}
            self.found[numbers] = {part: found.step for part, found in parts_at(self.file, self.groups, bids).items()}
        return self.found[numbers][self.groups[name]]


class Market:
    """The market of cuts after some moves. A cut gives numbers to devices; `published` has for each concentrator and for the
    auctioneer, whose numbers are the indices of its clearings, the list of its cuts, with all zeros as number 0."""

    def __init__(self, plan):
        self.plan = plan
        self.counts = dict.fromkeys(plan.devices, 0)
        self.closed = 0
        self.published = {name: [dict.fromkeys(plan.leaves[name], 0)] for name in plan.children}
        self.learnt = dict.fromkeys(plan.parent, 0)
        self.passed = {name: [] for name in plan.parent}

    def is_complete(self):
        return self.closed == len(self.plan.ends) - 1

    def newest(self, name):
        return self.counts[name] if name in self.counts else len(self.published[name]) - 1

    def part(self, name, number):
        """What a number of a node stands for, as a cut on the devices at it or below it."""
        return {name: number} if name in self.counts else self.published[name][number]

    def known(self, name):
        """What a concentrator or the auctioneer knows: of each child the part of the number that it learnt from it."""
        cut = {}
        for child in self.plan.children[name]:
            cut.update(self.part(child, self.learnt[child]))
        return {leaf: cut[leaf] for leaf in self.plan.leaves[name]}

    def number_in(self, name, cut):
        """The number of a node that a cut contains."""
        here = {leaf: cut[leaf] for leaf in self.plan.leaves[name]}
        if name in self.counts:
            return here[name]
        return next((number for number in range(self.newest(name), 0, -1) if self.published[name][number] == here), 0)

    def last(self, name):
        """The index of the clearing that was passed to a node last, 0 if there was none."""
        return self.passed[name][-1] if self.passed[name] else 0

    def addresses(self, index, name):
        cut = self.published[ROOT][index]
        if name in self.counts:
            return self.plan.devices[name].member[cut[name]]
        return any(cut[leaf] for leaf in self.plan.leaves[name])

    def open_changes(self, name):
        """How many changes of a device belong to the phases up to the open one."""
        return self.counts[name] if self.is_complete() else self.plan.ends[self.closed + 1][name]

    def may_change(self, name, number):
        return name in self.counts and number == self.counts[name] + 1 <= self.open_changes(name)

    def may_learn(self, parent, name, number):
        return self.plan.parent.get(name) == parent and self.learnt[name] < number <= self.newest(name)

    def may_publish(self, name, number):
        if name == ROOT or name not in self.published or number != self.newest(name) + 1:
            return False
        answered = self.number_in(name, self.published[ROOT][self.last(name)])
        return self.newest(name) - answered < WINDOW and self.known(name) != self.published[name][-1]

    def may_clear(self, number):
        return number == self.newest(ROOT) + 1 and self.known(ROOT) != self.published[ROOT][-1]

    def came_to_parent(self, name, index):
        parent = self.plan.parent[name]
        return 1 <= index <= self.newest(ROOT) if parent == ROOT else index in self.passed[parent]

    def may_pass(self, name, index):
        if name not in self.passed or index <= self.last(name):
            return False
        return self.came_to_parent(name, index) and self.addresses(index, name)

    def may_close(self, phase):
        return not self.is_complete() and phase == self.closed + 1 and self.counts == self.plan.ends[phase] and self.is_idle()

    def node_moves(self):
        """Each Learn, Publish, Clear and Pass that is legal."""
        for name, parent in self.plan.parent.items():
            yield from (("learn", parent, name, number) for number in range(self.learnt[name] + 1, self.newest(name) + 1))
            yield from (("pass", name, index) for index in range(self.last(name) + 1, self.newest(ROOT) + 1) if self.may_pass(name, index))
            if name in self.published and self.may_publish(name, self.newest(name) + 1):
                yield "publish", name, self.newest(name) + 1
        if self.may_clear(self.newest(ROOT) + 1):
            yield "clear", self.newest(ROOT) + 1

    def is_idle(self):
        return next(self.node_moves(), None) is None

    def is_legal(self, move):
        return getattr(self, f"may_{move[0]}")(*move[1:])

    def make(self, move):
        """Makes a legal move."""
        word, number = move[0], move[-1]
        if word == "change":
            self.counts[move[1]] = number
        elif word == "learn":
            self.learnt[move[2]] = number
        elif word in ("publish", "clear"):
            name = move[1] if word == "publish" else ROOT
            self.published[name].append(self.known(name))
        elif word == "pass":
            self.passed[move[1]].append(number)
        else:
            self.closed = number

    def held(self, name):
        """The price and the number that a device holds, or None."""
        device, count, index = self.plan.devices[name], self.counts[name], self.last(name)
        cut = self.published[ROOT][index]
        if index == 0 or not device.member[count] or cut[name] < device.joins[count]:
            return None
        return self.plan.prices[self.plan.step_of(cut, name)], cut[name]

    def line_of(self, move):
        """The line of the move made last."""
        line = " ".join(map(str, move))
        if move[0] == "pass" and move[1] in self.counts:
            held = self.held(move[1])
            line += " none" if held is None else f" price {held[0]} bid {held[1]}"
        return line.encode()


def move_of(line):
    """The move that a line names, or None."""
    for word, form in FORMS:
        found = form.fullmatch(line)
        if found:
            return (word, *(int(word) if word[:1].isdigit() else word.decode() for word in found.groups()))
    return None


def judged(plan, trace):
    """The number of moves of a trace and None; or None and the number of its bad line."""
    *lines, rest = trace.split(b"\n")
    at = 0
    for due in plan.report:
        if at == len(lines) or lines[at] != due:
            return None, at + 1
        at += 1
    market, first = Market(plan), at
    while not market.is_complete():
        move = move_of(lines[at]) if at < len(lines) else None
        if move is None or not market.is_legal(move):
            return None, at + 1
        market.make(move)
        if lines[at] != market.line_of(move):
            return None, at + 1
        at += 1
    moves = at - first
    if at == len(lines) or lines[at] != b"moves %d" % moves:
        return None, at + 1
    if at + 1 < len(lines) or rest:
        return None, at + 2
    return moves, None


def opened(text):
    """The cluster file and the rest of an envelope, or None."""
    header, end, body = text.partition(b"\n")
    if not end or not re.fullmatch(NUMBER, header):
        return None
    size = int(header)
    if size > FILE_LIMIT or size > len(body):
        return None
    return body[:size], body[size:]


def plan_of(text):
    """The plan of a cluster file that is not refused."""
    return Plan(scene_of(text))


def verdict(plan, trace):
    """The status and the line due for a trace."""
    moves, bad = judged(plan, trace)
    return (VALID, f"valid moves {moves}\n") if bad is None else (INVALID, f"invalid line {bad}\n")


def answer(text):
    """The status and the line due for an input."""
    if len(text) > INPUT_LIMIT:
        return TOO_LONG, f"too long, more than {INPUT_LIMIT} bytes\n"
    parts = opened(text)
    if parts is None:
        return REFUSED, "refused 23 document\n"
    try:
        return verdict(plan_of(parts[0]), parts[1])
    except Refused as line:
        return REFUSED, f"{line}\n"


def main():
    status, line = answer(sys.stdin.buffer.read(INPUT_LIMIT + 1))
    sys.stdout.write(line)
    return status


if __name__ == "__main__":
    sys.exit(main())
