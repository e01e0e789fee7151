"""Changes of texts: of their bytes, of the members of a cluster file, of the lines of a trace."""

import copy
import json

# Numbers about which a limit of the cluster file, of a machine word or of a float lies.
NUMBERS = [
    0, 1, -1, 2, 6, 59, 60, 64, 65, 99, 100, 255, 256, 999, 1000, 1001, 1440, 1441, 4096,
    1_000_000, 1_000_001, -1_000_000, -1_000_001,
    1_000_000_000, 1_000_000_001, -1_000_000_000, -1_000_000_001, 256_000_000_000, 256_000_000_001, -256_000_000_000,
    2**31 - 1, 2**31, -(2**31), 2**32 - 1, 2**32, 2**63 - 1, 2**63, -(2**63), -(2**63) - 1, 2**64 - 1, 2**64,
]
WORDS = [b"-0", b"1.0", b"1e3", b"1e400", b"-1", b"null", b"true", b'""', b'"auctioneer"', b"[]", b"{}", b"[[0,0]]"]
WORDS += [b"{", b"]", b'"', b"\\u0000", b"\\ud800"]
NAMES = ["load1", "c1", "auctioneer", "", "x" * 32, "x" * 33, "é", "a b"]
NAMES += ["start", "kind", "events", "tick", "join", "leave", "state"]


def flipped(text, chance):
    """Some bits are turned."""
    text = bytearray(text)
    for _ in range(chance.randint(1, 3)):
        if text:
            text[chance.randrange(len(text))] ^= 1 << chance.randrange(8)
    return bytes(text)


def piece_of(text, chance, most=40):
    """A place of a text, and a place behind it."""
    start = chance.randint(0, len(text))
    return start, min(len(text), start + chance.randint(0, most))


def cut(text, chance):
    return text[: chance.randint(0, len(text))]


def without_piece(text, chance):
    start, end = piece_of(text, chance)
    return text[:start] + text[end:]


def doubled_piece(text, chance):
    start, end = piece_of(text, chance)
    return text[:end] + text[start:]


def spliced(text, chance, others):
    """The front of one text and the back of another."""
    other = chance.choice(others)
    return text[: chance.randint(0, len(text))] + other[chance.randint(0, len(other)) :]


def new_word(text, chance):
    at = chance.randint(0, len(text))
    return text[:at] + chance.choice(WORDS) + text[at + chance.randint(0, 2) :]


def new_number(text, chance):
    """One of the numbers of a text is another."""
    places = [index for index in range(len(text)) if 48 <= text[index] <= 57 and not 48 <= text[index - 1] <= 57]
    if not places:
        return text
    start = end = chance.choice(places)
    while end < len(text) and 48 <= text[end] <= 57:
        end += 1
    number = chance.choice([*NUMBERS, int(text[start : min(end, start + 18)]) + chance.choice([-1, 1])])
    return text[:start] + b"%d" % number + text[end:]


BYTE_WISE = [flipped, cut, without_piece, doubled_piece, new_word, new_number, new_number, new_number]


def objects_of(value):
    """All objects and lists of a JSON value."""
    if isinstance(value, (dict, list)):
        yield value
        for member in value.values() if isinstance(value, dict) else value:
            yield from objects_of(member)


def places_of(value):
    return list(value) if isinstance(value, dict) else list(range(len(value)))


def other_value(chance, file):
    """A value from nowhere, or from another place of the file."""
    if chance.random() < 0.5:
        one = chance.choice(list(objects_of(file)))
        return copy.deepcopy(one[chance.choice(places_of(one))]) if one else {}
    return chance.choice([chance.choice(NUMBERS), chance.choice(NAMES), [], {}, None, True, 1.5, [1, 0], [[0, 1], [1, 0]]])


def names_in(file):
    named = [node["name"] for node in objects_of(file) if isinstance(node, dict) and "name" in node]
    return [name for name in named if isinstance(name, str)]


def edit(file, chance):
    """One change of the members of one object, or of the elements of one list."""
    where = [object_ for object_ in objects_of(file) if object_]
    if not where:
        return
    one = chance.choice(where)
    place = chance.choice(places_of(one))
    what = chance.randrange(6)
    if what == 0:
        del one[place]
    elif what == 1:
        one[place] = other_value(chance, file)
    elif what == 2:
        other = chance.choice(where)
        there = chance.choice(places_of(other))
        one[place], other[there] = copy.deepcopy(other[there]), copy.deepcopy(one[place])
    elif what == 3 and isinstance(one, dict):
        one[chance.choice(NAMES)] = one.pop(place)
    elif what == 3:
        one.insert(place, copy.deepcopy(one[place]))
    elif isinstance(one[place], int):
        one[place] = chance.choice([*NUMBERS, one[place] + 1, one[place] - 1])
    elif isinstance(one[place], str):
        one[place] = chance.choice([*NAMES, *names_in(file)])
    elif isinstance(one[place], list):
        chance.shuffle(one[place])


def add_limited(file, chance):
    """A limited concentrator is put under a concentrator, and a later node under it."""
    nodes, file["version"] = file["nodes"], 2
    above = [at for at, node in enumerate(nodes) if node["kind"] in ("concentrator", "limited")]
    at = chance.choice([-1, *above])
    name, parent = f"limit{chance.randint(1, 99)}", "auctioneer" if at < 0 else nodes[at]["name"]
    limits = {"floor": chance.choice([0, -100, -2_000]), "ceiling": chance.choice([0, 100, 2_000])}
    nodes.insert(at + 1, {"name": name, "kind": "limited", "parent": parent} | limits)
    chance.choice(nodes[at + 2 :] or nodes)["parent"] = name


def likely_edit(file, chance):
    """One change after which a file often still has a plan: of a number, of the script, of the prices, or of the tree."""
    nodes, phases, basis = file["nodes"], file["phases"], file["basis"]
    what = chance.randrange(7)
    if what == 0 and nodes:
        node = chance.choice(nodes)
        name = chance.choice([member for member in node if isinstance(node[member], int)] or ["start"])
        node[name] = chance.choice([0, 1, node.get(name, 0) + chance.randint(-300, 300), chance.randint(-3_000, 3_000)])
    elif what == 1:
        phases.insert(chance.randint(0, len(phases)), {"tick": chance.choice([1, 7, 15, 59, 60, 61, 1440])})
    elif what == 2 and phases and nodes:
        event = {chance.choice(["join", "leave", "state"]): chance.choice(nodes)["name"]}
        if "state" in event:
            event["value"] = chance.randint(0, 2_500)
        phases.insert(chance.randint(1, len(phases)), {"events": [event]})
    elif what == 3:
        by = chance.choice([-1, 1, -1_000, 10**6, -(10**9), 10**9 - basis["max"]])
        basis["min"], basis["max"] = basis["min"] + by, basis["max"] + by
    elif what == 4 and nodes:
        other = chance.choice(nodes)["name"]
        chance.choice(nodes)[chance.choice(["parent", "parent", "name"])] = chance.choice(["auctioneer", other])
    elif what == 5:
        add_limited(file, chance)
    elif phases:
        events = chance.choice(phases).get("events", [])
        if events:
            events.insert(chance.randint(0, len(events)), events.pop())


def edited(text, chance):
    """A file with some changes of its members."""
    try:
        file = json.loads(text)
    except (RecursionError, ValueError):
        return text
    for _ in range(chance.choice([1, 1, 1, 2, 4])):
        try:
            chance.choice([edit, likely_edit, likely_edit, likely_edit])(file, chance)
        except (AttributeError, LookupError, TypeError):
            # What an earlier change took away is missing.
            edit(file, chance)
    return json.dumps(file, ensure_ascii=chance.random() < 0.9, separators=(",", ":")).encode(errors="surrogatepass")


def mutated(text, chance, others, structured=True):
    """A text with some changes; a cluster file mostly by its members."""
    for _ in range(chance.choice([1, 1, 1, 1, 2, 5])):
        if structured and chance.random() < 0.75:
            text = edited(text, chance)
        elif chance.random() < 0.1:
            text = spliced(text, chance, others)
        else:
            text = chance.choice(BYTE_WISE)(text, chance)
    return text


def exchanged_lines(text, chance):
    """Two neighbouring lines of a trace change places, or one goes."""
    lines = text.splitlines(True)
    if len(lines) > 2:
        at = chance.randrange(len(lines) - 1)
        lines[at : at + 2] = chance.choice([[lines[at + 1], lines[at]], [lines[at]], [lines[at], *lines[at : at + 2]]])
    return b"".join(lines)
