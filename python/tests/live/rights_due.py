"""The rights of each login of the example's market, by hand from docs/LIVE.md, and the trial of each that is given and of each that is not."""

from __future__ import annotations

from brokers import wait_until

# All topics of the market of the example, and some that it has not.
TOPICS = """
basis other
auctioneer/state auctioneer/resume auctioneer/heartbeat auctioneer/bid/1 auctioneer/bid/2 auctioneer/price/1 auctioneer/lapsed/1
auctioneer/prices street/prices house/prices
auctioneer/refused/1 auctioneer/drop/1 auctioneer/offer
street/state street/resume street/heartbeat street/limits street/limits/state street/bid/1 street/bid/2 street/price/1 street/price/2
street/lapsed/1 street/lapsed/2 street/refused/1 street/refused/2 street/drop/1 street/drop/2 street/offer street/other
street/price/3 street/price/x street/drop/3 house/answer store/answer
house/state house/resume house/setpoint house/offer house/measured house/heartbeat house/bid/1 house/other house/other/other
store/state store/resume store/setpoint store/offer store/measured
block/site block/state house/site
""".split()
PARENT = ["state", "resume", "heartbeat", "prices", "price/1", "lapsed/1", "refused/1"]
# What each login writes and reads, by hand from docs/LIVE.md. Each of these is allowed, and nothing else.
WRITES = {
    "auctioneer": ["basis", *(f"auctioneer/{kind}" for kind in PARENT)],
    "street": [
        *(f"street/{kind}" for kind in (*PARENT, "price/2", "lapsed/2", "refused/2", "limits", "limits/state")), "auctioneer/bid/1",
    ],
    "house": ["house/state", "house/resume", "house/setpoint", "house/answer", "house/measured", "street/bid/1"],
    "store": ["store/state", "store/resume", "store/setpoint", "store/answer", "store/measured", "street/bid/2"],
    "house.control": ["house/offer", "house/measured"],
    "store.control": ["store/offer", "store/measured"],
    # All that some form of topic has: an operator clears them.
    "operator": [
        "auctioneer/drop/1", "street/drop/1", "street/drop/2",
        *(topic for topic in TOPICS if topic.partition("/")[2] not in ("", "other", "other/other") and "/drop/" not in topic), "basis",
    ],
    "gridoperator": ["street/limits"],
    "history": [],
}
ABOVE = ["street/state", "street/heartbeat", "street/prices"]
READS = {
    "auctioneer": ["auctioneer/bid/1", "auctioneer/bid/2", "auctioneer/drop/1", "street/state"],
    "street": [
        "basis", "auctioneer/state", "auctioneer/heartbeat", "auctioneer/prices", "auctioneer/price/1", "auctioneer/refused/1",
        "street/bid/1", "street/bid/2", "street/drop/1", "street/drop/2", "house/state", "store/state",
    ],
    "house": ["basis", "house/offer", *ABOVE, "street/price/1", "street/lapsed/1", "street/refused/1"],
    "store": ["basis", "store/offer", *ABOVE, "street/price/2", "street/lapsed/2", "street/refused/2"],
    "house.control": ["basis", "house/setpoint", "house/answer", "house/state"],
    "store.control": ["basis", "store/setpoint", "store/answer", "store/state"],
    "operator": TOPICS,
    "gridoperator": ["street/limits/state", "street/state"],
    "history": [
        "basis", *(topic for topic in TOPICS if topic.partition("/")[2].partition("/")[0] in ("state", "site", "bid", "price", "prices", "lapsed", "setpoint", "measured")),
        "street/limits/state",
    ],
}
# A node reads what it writes.
READS |= {login: [*READS[login], *WRITES[login]] for login in ("auctioneer", "street", "house", "store")}
# What somebody may read and nobody writes: all else that is read is tried.
UNWRITTEN = set()


def publish_all(clients):
    """Lets each login write its name to each topic, and waits until the broker has confirmed it, whether it took it or not."""
    told = [client.publish(f"market/{topic}", login, 1) for login, client in clients.items() for topic in TOPICS]
    for publication in told:
        publication.wait_for_publish(30)


def require_rights(made, writes, reads, without=UNWRITTEN):
    """Each login writes each topic and reads all. The operator, who reads the whole market, sees what was let through."""
    clients = {login: made.client(login) for login in writes}
    publish_all(clients)
    all_written = {(login, topic) for login, them in writes.items() for topic in them}
    wait_until(lambda: len(clients["operator"].read) >= len(all_written), "what is written")
    seen = {(login.decode(), topic.removeprefix("market/")) for topic, login in clients["operator"].read}
    assert sorted(seen) == sorted(all_written)
    written = {topic for _, topic in all_written}
    for login, client in clients.items():
        wait_until(lambda: {topic.removeprefix("market/") for topic, _ in client.read} >= written & set(reads[login]), f"what {login} reads")
        assert {topic.removeprefix("market/") for topic, _ in client.read} == written & set(reads[login]), login
    unwritten = {topic for login, them in reads.items() for topic in them if login != "operator"} - written
    assert unwritten == without, "these have no writer: the others were tried"
