"""What flows through the relays of a network by each clearing: the powers that devices were set to, beside what was announced."""

from checks.drive.carriers import require
from checks.oracle.cuts import DEVICE, RELAY


def compare_flows(network):
    """Looks of each clearing whether what its devices were set to is what each relay announced, if all were told."""
    for index in range(1, network.cuts.newest.get(0, 0) + 1):
        told, flows, silent, unsaid = network.cuts.told(index), {}, set(), set()
        for place in reversed(network.tree.places):
            at = place.at
            if place.kind == DEVICE and at in told:
                given = network.sites[at].given
                add_flow(flows, silent, place.parent, given.get(index), index not in given)
            elif place.kind == RELAY and at in told:
                if not network.cuts.can_say(at, index):
                    unsaid.add(at)
                compare_flow(network, place, told[at], flows.get(at, 0), at in silent or at in unsaid)
                add_flow(flows, silent, place.parent, flows.get(at, 0), at in silent)
                unsaid |= {place.parent} if at in unsaid else set()
        if 0 not in silent and 0 not in unsaid:
            compare_total(network, index, flows.get(0, 0))


def compare_total(network, index, flow):
    """Compares what all devices together take by a clearing with the auctioneer's sum. It is at most 0 but at the last step."""
    step = network.cuts.step_of(index)
    due = network.cuts.sum_of(network.cuts.meant[0, index])[step]
    is_balanced = flow <= 0 or step == network.tree.steps - 1
    require(flow == due and is_balanced, f"by clearing {index} all devices together take {flow} watts at step {step}, and due are {due}")


def add_flow(flows, silent, parent, power, is_silent):
    flows[parent] = flows.get(parent, 0) + (power or 0)
    if is_silent:
        silent.add(parent)


def compare_flow(network, place, told, flow, is_unknown):
    """Compares what flows through a relay by a clearing with what it announced at the step that it was told."""
    number, step = told
    if is_unknown:
        return
    due = network.announced[place.at, number][step]
    require(flow == due, f"{flow} watts flow through {place} by its bid {number}, and it announced {due} at step {step}")
    floor, ceiling = network.cuts.limits_of(place.at, network.cuts.meant[place.at, number])
    is_kept = floor <= flow <= ceiling or not network.cuts.keeps(place.at, number)
    require(is_kept, f"{flow} watts flow through {place} by its bid {number}, and its limits are {floor} and {ceiling}")
    network.flows += 1
