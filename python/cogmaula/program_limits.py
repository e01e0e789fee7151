"""The limits of the program that its schema cannot say. The program checks them; here they size parts and word messages.

Made of the constants of crates/*/src by `checks/run places write`.
"""

# A temperature, on either side of 0.
MOST_TEMPERATURE = 1_000_000
# Nodes of a cluster, and children of a node across machines.
MOST_NODES = 256
# Bytes of a name.
MOST_NAME_BYTES = 32
# Concentrators on a path to the auctioneer.
MOST_DEPTH = 6
# Events of a phase.
MOST_EVENTS = 4_096
# Changes of a run.
MOST_CHANGES = 20_000
# Bytes of a cluster file, and of the input of `run`, `trace`, `bill` and `free`.
MOST_BYTES = 4_194_304
# Targets of `ask`.
MOST_TARGETS = 100_000
# A demand of a device in watts, on either side of 0.
MOST_TARGET = 1_000_000_000
# Unanswered numbers of a concentrator, and offers of a device.
WINDOW = 8
