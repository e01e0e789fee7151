"""Whole markets of a hub and the program `live`, over TCP and WebSocket, with TLS and without. Prices are worked out by hand."""

from __future__ import annotations

import os
import random
import signal
import time
from datetime import datetime

import pytest
from brokers import Certificates, wait_until
from hubs import CONSTANT, STEPS, HubInThread, HubProcess, TcpAgent, WebSocketAgent, clearing_step, falls_at, tokens_in
from logged import QUIET

from cogmaula.hub import Hub
from cogmaula.live import BadStore


@pytest.fixture
def hub(tmp_path, live):
    with HubInThread(tmp_path, live) as one:
        yield one


@pytest.fixture
def process(tmp_path, live):
    with HubProcess(tmp_path, live) as one:
        yield one


def settles(step, **agents):
    """Waits until each agent has a priceUpdate of this step, with its power in watts."""
    for agent, power in agents.values():
        agent.waits_for(step=step, power=power)


def test_an_agent_whose_device_does_not_follow_counts_for_what_it_measures(live, tmp_path):
    """The store is told to give 100 W from price 4 on, and gives 20 W. The house has to have 100 W, which nobody gives then."""
    with HubInThread(tmp_path, live, deviation=10.0, deviation_seconds=0.5) as hub:
        house, store = hub.agent("house").bids(CONSTANT), hub.agent("store").bids(falls_at(4, 0, -100), 1)
        store.waits_for(power=-100, bidNumber=1)

        def counts_as_measured():
            store.says({"measured": -20})
            return house.has(price=9) and store.has(power=-20)

        wait_until(counts_as_measured, f"it counts as -20 W: {store.told[-1]}")
        assert any("takes -20 W, and was told -100 W" in line for line in hub.said)
        store.says({"refused": 5, "why": 3, "more": 1}).waits_for_error("the line is no bid")
        store.says({"measured": "much"}).waits_for_error("give watts")
        # After ten times as long its own bid is tried again, and now it follows.
        wait_until(lambda: (store.says({"measured": -100}), house.has(price=4) and store.has(power=-100))[-1], "its own bid counts")


def test_an_agent_that_hangs_falls_back_and_then_leaves_though_it_is_connected(live, tmp_path):
    """The store gives 100 W from price 4 on, which the house takes. A bid that is said again keeps it, and one that is not lets it go."""
    with HubInThread(tmp_path, live, validity=2.0, gone=2.5, offer_validity=1.0) as hub:
        house, store = hub.agent("house"), hub.agent("store")
        assert house.welcome["offerValidity"] == 1.0
        begun = time.monotonic()
        while time.monotonic() < begun + 3:
            house.bids(CONSTANT, 1)
            store.bids(falls_at(4, 0, -100), 2)
            time.sleep(0.2)
        assert store.has(power=-100, bidNumber=2) and house.has(power=100, price=4)
        # The store hangs from now on.
        told = len(store.told)

        def is_gone():
            house.bids(CONSTANT, 1)
            return house.has(price=9)

        wait_until(is_gone, f"the store leaves: {house.told[-1]}")
        last = next(message for message in store.told[told:] if "marketUpdate" in message)
        assert last["marketUpdate"]["market"] == "silent" and "offered nothing for too long" in last["marketUpdate"]["why"]
        assert not any("priceUpdate" in message for message in store.told[store.told.index(last) :])
        ends = datetime.fromisoformat(store.prices[-1]["until"]).timestamp()
        alone = next(price for price in house.prices if price["price"] == 9 and price["clearing"] > store.prices[-1]["clearing"])
        assert datetime.fromisoformat(alone["time"]).timestamp() >= ends, "it counts as long as it may hold its setpoint"
        store.bids(falls_at(4, 0, -100), 3).waits_for(power=-100, bidNumber=3)


def test_three_agents_over_tcp_and_websocket_with_tls(live, tmp_path):
    """House takes 100 W at each price. Store gives 150 W from price 4 on, so the sum is -50 W there: 4.

    Then the mill takes 60 W below price 6, by points 30 W at 3: at 4 and 5 the sum is -50 W and 20 W or 10 W, so still 4.
    """
    certificate, key = Certificates(tmp_path / "keys").make("server", "127.0.0.1")
    ca = str(tmp_path / "keys" / "ca.crt")
    names = {"clusterId": "street", "currency": "GBP"}
    with HubInThread(tmp_path, live, certificate=certificate, key=key, listen=("127.0.0.1:0",), **names) as hub:
        house = hub.agent("house", ca=ca).bids(CONSTANT, 5)
        assert house.welcome["clusterId"] == "street"
        market = {"commodity": "electricity", "currency": "GBP", "minimumPrice": 0, "maximumPrice": 9, "priceSteps": 10}
        assert house.welcome["marketBasis"] == market
        house.waits_for(price=9, power=100, bidNumber=5, offer=2, clearing=1)
        store = WebSocketAgent(hub.websocket_port, ca).login("store", hub.tokens["store"]).bids(falls_at(4, 0, -150), 9)
        assert store.welcome["session"] == house.welcome["session"]
        assert store.welcome["agentId"] == "store"
        store.waits_for(price=4, step=4, power=-150, bidNumber=9, offer=2, clearing=2)
        house.waits_for(price=4, step=4, power=100, bidNumber=5, offer=2, clearing=2)
        mill = hub.agent("mill", ca=ca)
        # 60, 50, 40, 30, 20, 10, 0 W at the prices 0 to 6.
        mill.says({"bidUpdate": {"pricePoints": [{"price": 0, "demand": 60}, {"price": 6, "demand": 0}]}})
        mill.waits_for(step=4, power=20, offer=2)
        assert "bidNumber" not in mill.prices[-1]
        mill.says({"bidUpdate": {"pricePoints": [{"price": 0, "demand": 160}, {"price": 8, "demand": 0}], "bidNumber": 77}})
        # At 4: 100 - 150 + 80 = 30. At 5: 100 - 150 + 60 = 10. At 6: -10.
        mill.waits_for(step=6, power=40, bidNumber=77, offer=4)
        settles(6, house=(house, 100), store=(store, -150))
        assert all(price["time"].endswith("Z") for price in house.prices + store.prices + mill.prices)
        for agent in (house, store, mill):
            assert [price["clearing"] for price in agent.prices] == sorted(price["clearing"] for price in agent.prices)
            assert agent.errors == []
        for agent in (house, store, mill):
            agent.close()
            agent.waits_for_end()
        wait_until(lambda: not hub.hub._admission._guests, f"all connections have ended: {hub.said}")
    assert all("listens at" in line or "begins" in line for line in hub.said), hub.said


def test_tls_is_asked_for(live, tmp_path):
    certificate, key = Certificates(tmp_path / "keys").make("server", "127.0.0.1")
    with HubInThread(tmp_path, live, certificate=certificate, key=key) as hub:
        plain = hub.agent("house").waits_for_end()
        assert plain.told == []
        wait_until(lambda: any("a handshake of TLS fails" in line for line in hub.said), f"the log has the handshake: {hub.said}")


def test_a_leave_and_a_bid_without_a_number(hub):
    house = hub.agent("house").bids(CONSTANT)
    store = hub.agent("store").bids(falls_at(4, 0, -150), 1)
    settles(4, house=(house, 100), store=(store, -150))
    store.says({"leave": True})
    house.waits_for(step=9, power=100)
    assert "bidNumber" not in house.prices[-1]
    # It left, so a later connection is told no price before its next bid.
    again = hub.agent("store")
    assert again.welcome["agentId"] == "store"
    time.sleep(0.3)
    assert again.prices == []
    again.bids(falls_at(6, 0, -150), 2).waits_for(step=6, power=-150, bidNumber=2)
    house.waits_for(step=6, power=100)


def test_the_same_bid_under_another_number_is_answered_by_it(hub):
    house = hub.agent("house").bids(CONSTANT, 1).waits_for(bidNumber=1, offer=2, clearing=1)
    house.bids(CONSTANT, 2).waits_for(bidNumber=2, offer=2, clearing=1)


def test_a_disconnected_agent_is_gone_after_a_while_and_comes_back(live, tmp_path):
    with HubInThread(tmp_path, live, gone=1.0, validity=0.8) as hub:
        house = hub.agent("house").bids(CONSTANT, 1)
        store = hub.agent("store").bids(falls_at(4, 0, -150), 1)
        settles(4, house=(house, 100), store=(store, -150))
        store.close()
        time.sleep(0.4)
        assert house.has(step=4)
        # It is back in time, so it stays.
        store = hub.agent("store").waits_for(step=4, power=-150, bidNumber=1)
        time.sleep(1.2)
        assert house.has(step=4)
        store.close()
        house.waits_for(step=9, power=100)
        back = hub.agent("store").bids(falls_at(4, 0, -150), 2).waits_for(step=4, power=-150, bidNumber=2)
        house.waits_for(step=4)
        assert back.prices[0]["bidNumber"] == 2


def test_an_agent_that_comes_back_is_told_its_newest_price_first(hub):
    house = hub.agent("house").bids(CONSTANT, 1).waits_for(clearing=1)
    hub.agent("store").bids(falls_at(4, 0, -150), 1)
    newest = house.waits_for(step=4).prices[-1]
    house.close()
    again = hub.agent("house").waits_for(step=4)
    assert again.told[1] == {"priceUpdate": newest}
    assert len(again.prices) == 1


def test_a_second_connection_of_an_agent_ends_the_first(hub):
    first = hub.agent("house").bids(CONSTANT, 1).waits_for(power=100)
    second = hub.agent("house").waits_for(power=100, bidNumber=1)
    first.waits_for_error("another connection of house has begun: this one ends").waits_for_end()
    first.bids([0] * STEPS, 2)
    second.bids([50] * STEPS, 3).waits_for(power=50, bidNumber=3)
    assert second.errors == []
    assert any("another connection of house" in line for line in hub.said)


@pytest.mark.parametrize(
    ("line", "why"),
    [
        ({"agentId": "house", "token": "wrong"}, "the login of 'house' is refused"),
        ({"agentId": "nobody", "token": "wrong"}, "the login of 'nobody' is refused"),
        ({"agentId": "", "token": ""}, "the login of '' is refused"),
        ({"bidUpdate": {"demandArray": CONSTANT}}, "the first line is no login"),
        ([1], "the login is no JSON object"),
    ],
)
def test_a_wrong_login_is_refused_with_a_line(hub, line, why):
    one = TcpAgent(hub.port).says(line).waits_for_error(why).waits_for_end()
    assert len(one.told) == 1
    assert any(why in line for line in hub.said)


def test_the_token_of_another_agent_is_refused(hub):
    TcpAgent(hub.port).login("house", hub.tokens["store"]).waits_for_error("the login of 'house' is refused").waits_for_end()


def test_wrong_logins_keep_no_right_one_out(hub):
    """Also of one address. Beyond eight in a second the wrong ones are told so, and the log has a line of each kind."""
    wrong = [TcpAgent(hub.port).login("house", "wrong") for _ in range(24)]
    for _ in range(20):
        wrong += [TcpAgent(hub.port).login("house", "wrong") for _ in range(3)]
        right = hub.agent("store")
        assert right.welcome.get("agentId") == "store", right.told
        right.close()
    for agent in wrong:
        agent.waits_for_end()
    told = [agent.errors[0] for agent in wrong]
    assert any("too many logins of 127.0.0.1 failed: try again in a second" in line for line in told)
    assert len([line for line in hub.said if "login" in line]) == 2


def test_a_login_has_to_come_in_time(hub, monkeypatch):
    from cogmaula.hub import agent_connection as connection

    monkeypatch.setattr(connection, "LOGIN_SECONDS", 0.3)
    TcpAgent(hub.port).waits_for_error("no login came for 0.3 s").waits_for_end()


def test_a_line_that_is_too_long_ends_the_connection(hub):
    house = hub.agent("house").says_bytes(b'{"x": "' + b"x" * 200_000 + b'"}\n')
    house.waits_for_error("the line is above 32768 bytes").waits_for_end()
    just = hub.agent("house").says_bytes(b" " * 32_700 + b"x\n").waits_for_error("no JSON")
    assert not just.is_over
    just.bids(CONSTANT).waits_for(power=100)


def test_a_message_that_is_too_long_ends_the_websocket(tmp_path, live):
    with HubInThread(tmp_path, live, listen=("127.0.0.1:0",)) as hub:
        house = WebSocketAgent(hub.websocket_port).login("house", hub.tokens["house"])
        assert house.welcome["agentId"] == "house"
        house.says_text("x" * 40_000).waits_for_error("the line is above 32768 bytes").waits_for_end()
        other = WebSocketAgent(hub.websocket_port).says_text("garbage").waits_for_error("the login is no JSON").waits_for_end()
        assert other.code == 1000


def test_a_bad_bid_has_its_line_and_the_connection_goes_on(hub):
    house = hub.agent("house").says({"bidUpdate": {"demandArray": [1]}})
    house.waits_for_error("the bid is not taken: 1 demands are there, and 10 are due")
    house.says_bytes(b"\n\r\n").bids(CONSTANT, 1).waits_for(power=100, bidNumber=1)
    assert len(house.errors) == 1
    assert any(line.startswith("house (127.0.0.1:") and "the bid is not taken" in line for line in hub.said)


def test_a_slow_reader_holds_up_nobody(hub):
    """The slow agent fills its connection with errors and reads nothing, while others bid. It then ends at the newest."""
    slow = TcpAgent(hub.port, is_slow=True).login("mill", hub.tokens["mill"]).bids([0] * STEPS, 1)
    house = hub.agent("house").bids(CONSTANT, 1)
    store = hub.agent("store")
    for number in range(20):
        slow.says_bytes(b'{"bidUpdate": 1}\n' * 20)
        step = 3 + number % 2
        store.bids(falls_at(step, 0, -150), number)
        settles(step, house=(house, 100), store=(store, -150))
    store.bids(falls_at(7, 0, -150), 1_000).waits_for(step=7, bidNumber=1_000)
    slow.reads().waits_for(step=7, power=0, bidNumber=1)
    assert [price["clearing"] for price in slow.prices] == sorted({price["clearing"] for price in slow.prices})


def test_an_agent_is_added_and_another_barred_while_the_hub_runs(hub):
    house = hub.agent("house").bids(CONSTANT, 1)
    store = hub.agent("store").bids(falls_at(4, 0, -150), 1)
    settles(4, house=(house, 100), store=(store, -150))
    path = hub.folder / "agents"
    lines = path.read_text().splitlines(keepends=True)
    path.write_text("".join(line for line in lines if not line.startswith("store ")))
    store.waits_for_error("store is barred").waits_for_end()
    house.waits_for(step=9)
    TcpAgent(hub.port).login("store", hub.tokens["store"]).waits_for_error("the login of 'store' is refused")
    hub.tokens |= {"shed": tokens_in(hub.folder, {"shed": 4})["shed"]}
    wait_until(lambda: any("3 agents may log in" in line for line in hub.said), f"the file is read again: {hub.said}")
    hub.agent("shed").bids(falls_at(6, 0, -150), 1).waits_for(step=6, power=-150)
    house.waits_for(step=6)
    # A child number stays the barred agent's, and a file that is wrong is not taken.
    path.write_text(path.read_text() + f"new 2 {'0' * 64}\n")
    wait_until(lambda: any("child 2 is store's in this session" in line for line in hub.said), f"it is refused: {hub.said}")
    hub.agent("shed").waits_for(step=6)


def test_a_new_token_ends_the_connection_of_the_one_before(hub):
    house = hub.agent("house").bids(CONSTANT, 1).waits_for(power=100)
    hub.tokens |= tokens_in(hub.folder, {"house": 1})
    house.waits_for_error("house has another token: log in with the new one").waits_for_end()
    hub.agent("house").waits_for(power=100, bidNumber=1)


def test_each_service_that_is_killed_comes_back(hub):
    house = hub.agent("house").bids(CONSTANT, 1)
    store = hub.agent("store").bids(falls_at(4, 0, -150), 1)
    settles(4, house=(house, 100), store=(store, -150))
    for number, killed in enumerate(("auctioneer", "house", "store"), 5):
        running = hub.running(killed)
        before = running.node.serving.service
        os.kill(before.pid, signal.SIGKILL)
        store.bids(falls_at(number, 0, -150), number)
        settles(number, house=(house, 100), store=(store, -150))
        assert store.has(bidNumber=number)
        wait_until(lambda running=running, before=before: running.node.serving.service not in (before, None), "another service")
        assert any("SIGKILL" in line for line in hub.said)
    for agent in (house, store):
        assert [price["clearing"] for price in agent.prices] == sorted(price["clearing"] for price in agent.prices)
        assert agent.errors == []


def test_two_hubs_side_by_side(hub, live, tmp_path):
    with HubInThread(tmp_path / "other", live) as other:
        for one, step in ((hub, 4), (other, 7)):
            house = one.agent("house").bids(CONSTANT, 1)
            store = one.agent("store").bids(falls_at(step, 0, -150), 1)
            settles(step, house=(house, 100), store=(store, -150))
            one.session = house.welcome["session"]
        assert hub.session != other.session
        # The token of an agent is of one hub alone.
        TcpAgent(other.port).login("house", hub.tokens["house"]).waits_for_error("is refused")


def test_a_state_is_of_one_hub_alone(hub, live, tmp_path):
    with pytest.raises(BadStore, match="is in use by another process: end it first"):
        Hub(hub.settings, QUIET).run()


def test_an_address_that_is_in_use(hub, live, tmp_path):
    other = HubInThread(tmp_path / "other", live, listen_tcp=(f"127.0.0.1:{hub.port}",)).start()
    other.thread.join(60)
    assert str(other.raised) == f"the hub cannot listen at 127.0.0.1:{hub.port}: Address already in use"


def test_an_agent_whose_folder_is_lost_does_not_count_anew(live, tmp_path):
    """Else two bids of one number would be about. Once the folder is back, the market goes on."""
    with HubInThread(tmp_path, live) as hub:
        hub.agent("house").bids(CONSTANT, 1)
        hub.agent("store").bids(falls_at(4, 0, -150), 1).waits_for(step=4)
    folder = tmp_path / "state" / "agents" / "store"
    folder.rename(tmp_path / "lost")
    with HubInThread(tmp_path, live, tokens=hub.tokens) as hub:
        hub.agent("store").waits_for_error("the node of store does not start").waits_for_end()
        assert any("store: child 2 has bid in this session" in line for line in hub.said)
        hub.agent("house").bids(falls_at(6, 200, 100), 2).waits_for(step=6, power=100)
    (tmp_path / "lost").rename(folder)
    with HubInThread(tmp_path, live, tokens=hub.tokens) as hub:
        hub.agent("store").bids(falls_at(6, 0, -150), 2).waits_for(step=6, power=-150, bidNumber=2)


# A hub in a process of its own.


def test_it_ends_in_order_and_goes_on(process):
    house = process.agent("house").bids(CONSTANT, 1)
    store = process.agent("store").bids(falls_at(4, 0, -150), 8)
    settles(4, house=(house, 100), store=(store, -150))
    status, seconds = process.stop()
    assert (status, house.waits_for_error("the hub ends: connect again later").waits_for_end().is_over) == (0, True)
    assert seconds < 5
    assert (process.folder / "state" / "agents" / "store").is_dir()
    process.start()
    again = process.agent("store").waits_for(step=4, power=-150, bidNumber=8, offer=2, clearing=2)
    assert again.welcome["session"] == store.welcome["session"]
    again.bids(falls_at(6, 0, -150), 9).waits_for(step=6, bidNumber=9, offer=4, clearing=3)
    process.agent("house").waits_for(step=6, power=100, bidNumber=1, offer=2, clearing=3)


def test_agents_that_do_not_come_back_leave_after_a_restart(live, tmp_path):
    with HubProcess(tmp_path, live, gone=1.0, validity=0.8) as process:
        house = process.agent("house").bids(CONSTANT, 1)
        store = process.agent("store").bids(falls_at(4, 0, -150), 1)
        settles(4, house=(house, 100), store=(store, -150))
        process.kill()
        process.start()
        process.agent("house").waits_for(step=4, power=100).waits_for(step=9, power=100)


def test_a_new_session(live, tmp_path):
    with HubProcess(tmp_path, live) as process:
        first = process.agent("house").bids(CONSTANT, 5).waits_for(clearing=1).welcome["session"]
        process.stop()
        process.words = ("--new-session",)
        process.start()
        house = process.agent("house")
        assert house.welcome["session"] != first
        house.bids(CONSTANT, 6).waits_for(clearing=1, offer=2, bidNumber=6)
        assert len(house.prices) == 1


def test_a_killed_hub_goes_back_on_nothing(live, tmp_path):
    """Two agents bid while the hub is killed five times. No agent is told an older clearing than before.

    Each priceUpdate has the bidNumber of the bid whose demands gave its power. No two bids of an agent have a demand in common.
    """
    process = HubProcess(tmp_path, live, gone=600).start()
    drawn = random.Random(3)
    agents, seen, bids = {}, {"house": [], "store": []}, {"house": {}, "store": {}}
    number = 0

    def connect(name):
        if name in agents:
            seen[name] += agents[name].prices
        agents[name] = process.agent(name)

    def bid(name, demands):
        bids[name][number] = demands
        agents[name].bids(demands, number)

    try:
        for _ in range(5):
            connect("house")
            connect("store")
            end = time.monotonic() + 60
            while min(len(agent.prices) for agent in agents.values()) < 4:
                assert time.monotonic() < end, "too few prices came"
                number += 1
                bid("house", falls_at(drawn.randrange(1, STEPS), 1_000_000 + number, number))
                bid("store", falls_at(drawn.randrange(1, STEPS), -number, -10_000_000 - number))
                time.sleep(drawn.random() / 20)
            process.kill()
            process.start()
        connect("house")
        connect("store")
        number += 1
        bid("house", falls_at(6, 20_000_000, number))
        bid("store", falls_at(3, -number, -10_000_000 - number))
        due = clearing_step(bids["house"][number], bids["store"][number])
        assert due == 6
        agents["house"].waits_for(step=due, power=number, bidNumber=number)
        agents["store"].waits_for(step=due, power=-10_000_000 - number, bidNumber=number)
    finally:
        process.stop()
    for name, agent in agents.items():
        told = seen[name] + agent.prices
        assert len({setpoint["clearing"] for setpoint in told}) > 10
        indices = [setpoint["clearing"] for setpoint in told]
        assert indices == sorted(indices)
        offers = [setpoint["offer"] for setpoint in told]
        assert offers == sorted(offers)
        for setpoint in told:
            assert setpoint["power"] == bids[name][setpoint["bidNumber"]][setpoint["step"]]


def test_the_command_without_a_live_says_so(tmp_path):
    process = HubProcess(tmp_path, "/nowhere/live", listen="listen_tcp")
    with process:
        wait_until(lambda: any("/nowhere/live cannot be started" in line for line in process.lines), "a line")
