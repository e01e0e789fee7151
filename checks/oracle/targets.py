"""What `ask` has to write for a cluster file and targets, worked out from the bids by the formulas of docs/CLUSTER_FILE.md."""

import json

from checks.oracle.auction import clearing_step, ends_of, prices_of


def last_total(file):
    """The total at each step at the end of the last phase, with which nobody is a member if there is no phase."""
    ends = ends_of(file)
    return ends[-1].parts[None].sums if ends else [0] * file["basis"]["steps"]


def curve_lines(total, prices):
    """A line for each step that has targets, with the least and the greatest of them."""
    for step, price in enumerate(prices):
        least = "low" if step == len(prices) - 1 else total[step]
        most = "high" if step == 0 else total[step - 1] - 1
        if step in (0, len(prices) - 1) or least <= most:
            yield f"curve step {step} price {price} from {least} to {most}"


def answers_of(file, targets):
    """The text that `ask` has to give for a cluster file and these targets."""
    scene = json.loads(file)
    total, prices = last_total(scene), prices_of(scene)
    lines = list(curve_lines(total, prices))
    for target in targets:
        rest = [demand - target for demand in total]
        step = clearing_step(rest)
        lines.append(f"target {target} price {prices[step]} step {step} total {rest[step]}")
    return "\n".join([*lines, ""])


def envelope(file, rest):
    """An input that begins with a cluster file, as bytes."""
    body = file.encode()
    return b"%d\n" % len(body) + body + rest.encode()
