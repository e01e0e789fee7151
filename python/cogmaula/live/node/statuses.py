"""What each exit status of the program `live` says of a service, for its node.

Made of script/statuses.toml by `checks/run places write`.
"""

STATUSES = {
    0: "its input ended",
    2: "it does not take its arguments: is it the program live of this version?",
    3: "a read of its input failed",
    4: "it has read all that it takes, 1,073,741,824 bytes",
    5: "it refused a frame",
    6: "a write of its output failed",
    7: "it lacked memory: raise its limit or end other programs",
    8: "the system gave it an argument that is no text",
}
