"""The limits of the market, the exit statuses and the kinds of node, for what makes inputs and for the judges.

Made of the constants of crates/*/src by `checks/run places write`.
"""

# Limits: the names are those of the code, and INPUT_.. is the most bytes of the input of a command.
CAPACITY_LIMIT = 1_000_000_000
CHANGE_LIMIT = 1_000_000
DEMAND_LIMIT = 1_000_000_000
FILE_LIMIT = 4_194_304
INPUT_ASK = 8_388_608
INPUT_CHECK = 536_870_912
INPUT_RUN = 4_194_304
LEAST_STEPS = 2
MAX_NAME_BYTES = 32
MAX_POINTS = 64
MAX_SIZE = 200
MINUTES_LIMIT = 1_440
MOST_CHANGES = 20_000
MOST_DEPTH = 6
MOST_EVENTS = 4_096
MOST_NODES = 256
MOST_PHASES = 1_000
MOST_POINTS = 64
MOST_STEPS = 1_000
MOST_TARGETS = 100_000
POWER_LIMIT = 1_000_000_000
PRICE_LIMIT = 1_000_000_000
SPREAD_LIMIT = 1_000
STREAM_LIMIT = 1_073_741_824
SUM_LIMIT = 256_000_000_000
TEMPERATURE_LIMIT = 1_000_000
WINDOW_SIZE = 8

# Exit statuses.
DONE = 0
INVALID = 1
USAGE = 2
READ_FAULT = 3
TOO_LONG = 4
REFUSED = 5
WRITE_FAULT = 6
NO_MEMORY = 7

# Kinds of node: those that are no device, and those that change at a tick.
CONCENTRATORS = ("concentrator", "limited")
TICKING = ("freezer", "heat_pump", "cogeneration", "battery")
