"""Whether cluster.schema.json agrees with the program, and names a slip as a user made it.

- Each file that has a plan passes the schema. Each file that is refused for its shape or for a number in it fails it, except those
  of BEYOND. The files are those of examples/ and checks/cases, and those of checks/make/members.py.
- A member with a slip in its name gives two findings, for each kind of node: one that the member is missing, and one that the
  misspelt one is unexpected.
- By the standard, 2500.0 is a whole number. So a validator that follows it passes such a file, which the program refuses. The
  check counts only numbers without a point and an exponent as whole, and looks that nothing else parts the two.
"""

import json
import re
import sys

from checks import SCHEMA, TOP
from checks.make import members
from checks.make.cases import edited_members, examples, stored_cases

# The codes that are no matter of a schema: no reading at all, and what names and places have to do with each other.
NOT_OF_SHAPE = {1, 8, 9, 10, 14, 15, 16, 22}
# Refused files that pass, since a schema cannot tell why: two members that have to fit each other, numbers that must not
# rise, and -0, which is 0 once it is read.
BEYOND = {
    "order/falling_price_before_rising_demand",
    "order/length_before_rising_demand",
    "refusals/06_basis",
    "refusals/06_min_is_max",
    "refusals/13_parameter",
    "refusals/17_long_bid",
    "refusals/17_rising_bid",
    "refusals/17_rising_bid_in_an_event",
    "refusals/17_short_bid",
    "refusals/18_falling_price",
    "refusals/18_price_outside_the_basis",
    "refusals/18_rising_demand",
    "refusals/18_rising_points_in_an_event",
    "refusals/19_number_for_a_manual_device",
    "refusals/19_points_for_a_load",
    "refusals/19_start_above_the_capacity",
    "refusals/19_value_above_the_capacity",
    "shape/number_is_minus_zero",
}


def validators():
    """The schema's validator by the standard, and the one for which a number with a point or an exponent is not whole."""
    from jsonschema import Draft202012Validator
    from jsonschema.validators import extend

    schema = json.loads((TOP / SCHEMA).read_text())
    Draft202012Validator.check_schema(schema)

    def is_whole(_, value):
        return isinstance(value, int) and not isinstance(value, bool)

    types = Draft202012Validator.TYPE_CHECKER.redefine("integer", is_whole)
    return Draft202012Validator(schema), extend(Draft202012Validator, type_checker=types)(schema)


def files():
    """The name and the text of each cluster file that is run, and the code with which it is refused, or None."""
    for case in [*examples(), *stored_cases(), *edited_members()]:
        if case.arguments not in (["run"], ["trace"]) or not (isinstance(case.stdin, bytes) or case.stdin.is_file()):
            continue
        found = re.match(rb"refused (\d+) ", case.stdout)
        code = int(found[1]) if found else None
        if code not in NOT_OF_SHAPE:
            text = case.stdin if isinstance(case.stdin, bytes) else case.stdin.read_bytes()
            yield case.name, json.loads(text), code


def why_wrong(check, name, file, code):
    """What is wrong with the schema's answer on a file, or None."""
    fault = next(check.iter_errors(file), None)
    passes = code is None or name in BEYOND
    if passes and fault is not None:
        return f"fails: {fault.message[:200]}"
    return "passes" if not passes and fault is None else None


def slips():
    """The name of a slip, a file with it, and the two findings that are due: of each member of each kind of node."""
    nodes = [(kind, {word: value for word, (value, _, _) in limits.items()}) for kind, limits in members.KINDS.items()]
    for kind, more in [*nodes, *(("manual", bid) for bid in members.BIDS)]:
        node = members.node_of(kind, more)
        for name in node:
            # Without `kind` no other member can be judged.
            slip = name[1] + name[0] + name[2:]
            missing, unknown = f"'{name}' is a required property", f"'{slip}' was unexpected"
            wrong = {slip if member == name else member: value for member, value in node.items()}
            # Without `demand` and `points` the form is that of points.
            missing = missing.replace("'demand'", "'points'")
            yield f"{kind} with {slip}", members.with_node(wrong), {missing} if name == "kind" else {missing, unknown}
    right = members.with_node(members.node_of("load", {"start": 10}))
    state, lacks_state, lacks_value = {"state": "node1", "value": 1}, "'state' is a required property", "'value' is a required property"
    yield "phases with phsaes", {**without(right, "phases"), "phsaes": []}, {"'phases' is a required property", "'phsaes' was unexpected"}
    yield "a basis with setps", {**right, "basis": {"min": 0, "max": 9, "setps": 10}}, {"'steps' is a required property", "'setps' was unexpected"}
    yield "a tick with tcik", {**right, "phases": [{"tcik": 15}]}, {"'tick' is a required property", "'tcik' was unexpected"}
    # Without any of the words that tell the form of an event, the form is that of a state with a value.
    yield "a join with jion", members.with_event({"jion": "node1"}), {lacks_state, lacks_value, "'jion' was unexpected"}
    yield "a value with vlaue", members.with_event({**without(state, "value"), "vlaue": 1}), {lacks_value, "'vlaue' was unexpected"}
    yield "a join and a tick", {**right, "phases": [{"events": [], "tick": 15}]}, {"'tick' was unexpected"}


def without(value, name):
    """The object without a member."""
    return {member: value[member] for member in value if member != name}


def findings_of(check, file):
    """What the validator says of a file: each message, shortened to the member of which it speaks."""
    messages = [error.message for error in check.iter_errors(file)]
    return {re.sub(r"^Additional properties are not allowed \((.*)\)$", r"\1", message) for message in messages}


def points():
    """The name of each number of each kind, and a file in which it has a point."""
    for kind, limits in members.KINDS.items():
        node = members.node_of(kind, {name: value for name, (value, _, _) in limits.items()})
        for name in limits:
            yield f"{kind} with a point in {name}", members.with_node({**node, name: float(node[name])})


def results():
    """The name of each trial, and what is wrong, or None."""
    standard, check = validators()
    for name, file, code in files():
        yield name, why_wrong(check, name, file, code)
    for name, file, due in slips():
        found = findings_of(check, file)
        yield name, None if found == due else f"the schema says {sorted(found)}, and due is {sorted(due)}"
    for name, file in points():
        said = [next(checker.iter_errors(file), None) is None for checker in (standard, check)]
        yield name, None if said == [True, False] else "passes by the text, or fails by the standard: say so in docs/CLUSTER_FILE.md"


def main():
    try:
        import jsonschema  # noqa: F401
    except ImportError:
        print("skipped: Python's jsonschema is not installed; on Debian: apt-get install python3-jsonschema")
        print("0 passed, 0 failed")
        return 0
    passed, failed = 0, 0
    for name, why in results():
        if why is None:
            passed += 1
        else:
            failed += 1
            print(f"{name}: {why}")
    print(f"{passed} passed, {failed} failed")
    return 1 if failed else 0


if __name__ == "__main__":
    sys.exit(main())
