"""What each code of a refusal means and what to do about it, in the words of `market help CODE`, and the rule that it breaks.

Made of script/refusals.toml by `checks/run places write`.
"""

# By code: the meaning and the remedy. The program's script prints the same words.
WORDS = {
    1: ("the input is not UTF-8 or not JSON", "fix the JSON, for instance where the file was cut"),
    2: ("a value has the wrong type", "write whole numbers without a point, names in quotes, lists in brackets"),
    3: ("a member is missing", "add it; an empty list will do for nodes, phases and events"),
    4: ("a member is not known", "take it out, or look for a slip in its name"),
    5: ("the version is neither 1 nor 2", "write 1, or 2 if there are limited nodes"),
    6: ("min, max and steps of the basis do not fit", "choose 2 to 1000 steps, min below max, and max - min divisible by steps - 1"),
    7: ("a name has a wrong form", "begin with a letter; use letters, digits, _ and -, at most 32"),
    8: ("two nodes have the same name", "give one of them another name"),
    9: ("the parent is not known, is no concentrator, or comes later", "name auctioneer or an earlier concentrator"),
    10: ("more than 6 concentrators on a path", "make the tree flatter"),
    11: ("more than 256 nodes", "split the cluster"),
    12: ("the kind is not known", "use a kind that the pages list; limited needs version 2"),
    13: ("a parameter or the minutes of a tick are outside the limits", "keep its limits, such as low below high"),
    14: ("no device has the name", "name a device; concentrators take no events"),
    15: ("the device is joined already", "take the second join out"),
    16: ("the device is not joined", "let it join first"),
    17: ("the demands are too few or too many, rise, or are too large", "give one for each step, none above the one before"),
    18: ("the points are too many, out of order or outside the limits", "give 1 to 64, sorted by price, with demands that never rise"),
    19: ("the state does not fit the kind of device", "keep its limits, such as a battery's capacity"),
    20: ("too many phases, events or changes", "split the script: 1,000 phases, 4,096 events in one, 20,000 changes"),
    22: ("a limited node is below a limited one", "take one of the two limits out"),
    23: ("the input of check or ask does not begin with the file's length", "write the length in bytes and a line feed before the file"),
    24: ("a frame is bad; a Fault tells its offset", "fix the stream from that byte on"),
    25: ("ask: a line behind the file is no target", "give whole numbers of watts, one a line, at most 100,000"),
}

# What each code refuses, as a rule.
RULES = {
    1: "a cluster file is one JSON value in UTF-8",
    2: "each member has the type of its row",
    3: "each object has exactly the members of its row",
    4: "each object has exactly the members of its row",
    5: "the version is 1 or 2",
    6: "the prices lie at equal whole distances from min to max",
    7: "a name is an ASCII letter, then letters, digits, _ and -",
    8: "no two nodes have the same name",
    9: "a parent is the auctioneer or an earlier concentrator",
    10: "at most 6 concentrators are on a path",
    11: "a file has at most 256 nodes",
    12: "a kind is one of the table; limited needs version 2",
    13: "each number lies within its limits",
    14: "an event names a device",
    15: "only a device that is no member joins",
    16: "only a member leaves or gets a state",
    17: "demand has one number for each step, none above the one before, each within its limits",
    18: "points are pairs, with prices that never fall and lie within the basis, and powers that never rise",
    19: "a state fits the kind of its device",
    20: "phases, their events and the changes of a run have limits",
    22: "no limited node is below a limited one",
    23: "an envelope is the number of a file's bytes, a line feed, the file, and the rest",
    24: "a stream is a Hello, and then frames with the numbers that the market takes",
    25: "a target is a whole number of watts in a line of its own",
}
