"""Clusters that hypothesis draws: trees, devices of all kinds, and scripts that the program takes."""

from __future__ import annotations

from hypothesis import strategies as st

from cogmaula import (
    Basis,
    Battery,
    Cluster,
    Cogeneration,
    Concentrator,
    Events,
    Freezer,
    HeatPump,
    Join,
    Leave,
    Limited,
    Load,
    Manual,
    Objective,
    Solar,
    State,
    Tick,
)

POWERS = st.integers(0, 3000)
RATES = st.integers(0, 400)
WARMTHS = st.integers(-300, 300)


@st.composite
def bases(draw):
    """The prices of a market, with few steps so that bids change often."""
    steps = draw(st.integers(2, 12))
    least = draw(st.integers(-50, 50))
    return Basis(least, least + (steps - 1) * draw(st.integers(1, 9)), steps)


@st.composite
def bids(draw, basis):
    """The bid of a manual device, by its demand or by its points."""
    if draw(st.booleans()):
        demand = draw(st.lists(st.integers(-2000, 2000), min_size=basis.steps, max_size=basis.steps))
        return {"demand": sorted(demand, reverse=True)}
    count = draw(st.integers(1, 4))
    prices = sorted(draw(st.lists(st.integers(basis.min, basis.max), min_size=count, max_size=count)))
    powers = sorted(draw(st.lists(st.integers(-2000, 2000), min_size=count, max_size=count)), reverse=True)
    return {"points": list(zip(prices, powers))}


@st.composite
def devices(draw, name, parents, basis):
    """A device of any kind."""
    kind = draw(st.sampled_from([Freezer, HeatPump, Cogeneration, Battery, Solar, Load, Objective, Manual]))
    if kind is Objective:
        return Objective(name, start=draw(st.integers(-3000, 3000)))
    parent = draw(st.sampled_from(parents))
    if kind is Manual:
        return Manual(name, parent=parent, **draw(bids(basis)))
    if kind in (Solar, Load):
        return kind(name, parent=parent, start=draw(POWERS))
    if kind is Battery:
        capacity = draw(st.integers(1, 4000))
        return Battery(
            name,
            parent=parent,
            capacity=capacity,
            charge=draw(POWERS),
            discharge=draw(POWERS),
            spread=draw(st.integers(0, 3)),
            start=draw(st.integers(0, capacity)),
        )
    low = draw(WARMTHS)
    rates = ("warm", "cool") if kind is Freezer else ("loss", "gain")
    return kind(
        name,
        parent=parent,
        low=low,
        high=low + draw(st.integers(1, 400)),
        power=draw(POWERS),
        start=draw(st.one_of(WARMTHS, st.sampled_from([-1_000_000, 1_000_000]))),
        **{name: draw(RATES) for name in rates},
    )


@st.composite
def trees(draw, basis):
    """Concentrators, of which some limit what is below them, and devices below them."""
    nodes, parents, limited = [], ["auctioneer"], set()
    for at in range(draw(st.integers(0, 3))):
        parent = draw(st.sampled_from(parents))
        name = f"c{at}"
        if parent in limited or draw(st.booleans()):
            nodes.append(Concentrator(name, parent=parent))
            if parent in limited:
                limited.add(name)
        else:
            nodes.append(Limited(name, parent=parent, floor=-draw(POWERS), ceiling=draw(POWERS)))
            limited.add(name)
        parents.append(name)
    for at in range(draw(st.integers(1, 6))):
        nodes.append(draw(devices(f"d{at}", parents, basis)))
    return nodes


def state_of(draw, node, basis):
    """A new state that fits the device."""
    if isinstance(node, Manual):
        return State(node.name, **draw(bids(basis)))
    if isinstance(node, Battery):
        return State(node.name, draw(st.integers(0, node.capacity)))
    return State(node.name, draw(POWERS if isinstance(node, Solar | Load) else WARMTHS))


@st.composite
def scripts(draw, nodes, basis, members, most=6):
    """Phases that the program takes, from these members on. Brings the members up to date."""
    found = []
    all_devices = [node for node in nodes if node.is_device]
    # Most scripts begin with all devices, so that much is going on.
    if not members and draw(st.integers(0, 3)):
        found.append(Events([Join(device.name) for device in all_devices]))
        members.update(device.name for device in all_devices)
    for _ in range(draw(st.integers(0, most))):
        if draw(st.booleans()):
            found.append(Tick(draw(st.integers(1, 200))))
            continue
        events = []
        for node in draw(st.lists(st.sampled_from(all_devices), max_size=5)):
            if node.name not in members:
                events.append(Join(node.name))
                members.add(node.name)
            elif draw(st.booleans()):
                events.append(state_of(draw, node, basis))
            else:
                events.append(Leave(node.name))
                members.discard(node.name)
        found.append(Events(events))
    return found


@st.composite
def clusters(draw, most=6):
    """A cluster that the program takes."""
    basis = draw(bases())
    nodes = draw(trees(basis))
    return Cluster(basis, nodes, draw(scripts(nodes, basis, set(), most)))


@st.composite
def days(draw, count=2, most=5):
    """A cluster without a script, and the scripts of days that follow each other."""
    basis = draw(bases())
    nodes = draw(trees(basis))
    members: set[str] = set()
    return Cluster(basis, nodes), [draw(scripts(nodes, basis, members, most)) for _ in range(count)]
