"""The settings of a hub and its command: what is taken, what is refused and in which words, and how a token is drawn."""

from __future__ import annotations

import os
import stat
import time
from pathlib import Path

import pytest
from brokers import SECONDS

from cogmaula import cli
from cogmaula.cluster import Basis
from cogmaula.hub import hub_settings_of, read_hub_toml
from cogmaula.hub.hub_settings import Address
from cogmaula.hub.places import Place, keep_place, places_in, require_places
from cogmaula.hub.tokens import Entry, TokenFile
from cogmaula.live import BadSettings, BadStore

TABLES = {
    "hub": {"state": "state", "agents": "agents", "listen": ["127.0.0.1:8443"]},
    "basis": {"min": 0, "max": 9, "steps": 10},
}
TEXT = """
[hub]
state = "{0}/state"
agents = "{0}/agents"
listen = ["127.0.0.1:0"]

[basis]
min = 0
max = 9
steps = 10
"""


def with_hub(**members):
    return {**TABLES, "hub": {**TABLES["hub"], **members}}


def test_what_a_hub_has_by_default(monkeypatch):
    monkeypatch.delenv("COGMAULA_LIVE", raising=False)
    monkeypatch.setattr("cogmaula.hub.hub_settings.live_command", lambda: "/opt/live")
    found = hub_settings_of(TABLES)
    assert (found.name, found.gone, found.pause, found.period, found.live) == ("hub", 150.0, 1.0, None, "/opt/live")
    assert (found.cluster.id, found.cluster.commodity, found.cluster.currency) == ("hub", "electricity", "EUR")
    assert (found.addresses, found.addresses_tcp) == ((Address("127.0.0.1", 8443),), ())
    auctioneer, house = found.of_auctioneer(), found.of_agent("house", 7)
    assert (auctioneer.sort, auctioneer.name, auctioneer.state) == ("auctioneer", "hub", "state/auctioneer")
    assert (house.sort, house.parent, house.child, house.state) == ("device", "hub", 7, "state/agents/house")
    assert auctioneer.basis == house.basis == Basis(0, 9, 10)


def test_a_single_address_may_be_a_text():
    assert hub_settings_of(with_hub(listen="[::1]:8443", listen_tcp="localhost:0")).addresses == (Address("::1", 8443),)


@pytest.mark.parametrize(
    ("text", "host", "port", "is_loopback"),
    [
        ("127.0.0.1:8443", "127.0.0.1", 8443, True),
        ("0.0.0.0:1", "0.0.0.0", 1, False),
        ("[::1]:2", "::1", 2, True),
        ("[::]:2", "::", 2, False),
        ("localhost:3", "localhost", 3, True),
    ],
)
def test_an_address(text, host, port, is_loopback):
    found = Address.of(text)
    assert (found, str(found), found.is_loopback) == (Address(host, port), text, is_loopback)


@pytest.mark.parametrize("text", ["", "8443", ":8443", "::1:8443", "host:", "host:x", "host:65536", "[::1]"])
def test_no_address(text):
    with pytest.raises(BadSettings, match="the address is"):
        Address.of(text)


@pytest.mark.parametrize(
    ("members", "why"),
    [
        ({"listen": []}, "listens nowhere"),
        ({"listen": 8443}, "hub.listen is 8443: give a list of addresses"),
        ({"listen": ["0.0.0.0:8443"]}, "at 0.0.0.0:8443 without TLS"),
        ({"listen_tcp": ["market.example:8444"]}, "at market.example:8444 without TLS"),
        ({"certificate": "hub.crt"}, "go together"),
        ({"gone": -1}, "hub.gone is -1"),
        ({"gone": 149}, "hub.gone is 149 and hub.validity 120: give a gone of 150 seconds or more"),
        ({"gone": "60"}, "hub.gone is '60': give a number"),
        ({"pause": -1}, "pause is -1"),
        ({"name": "a/b"}, "name is 'a/b'"),
        ({"agent": "x"}, "hub.agent is not known"),
        ({"basis": 1}, "the first two are tables"),
        ({"state": 5}, "hub.state is 5: give a text"),
    ],
)
def test_what_is_refused(members, why):
    with pytest.raises(BadSettings, match=why):
        hub_settings_of(with_hub(**members))


def test_what_is_missing():
    with pytest.raises(BadSettings, match=r"hub\.agents is missing"):
        hub_settings_of({**TABLES, "hub": {"state": "x", "listen": ["127.0.0.1:1"]}})
    with pytest.raises(BadSettings, match="basis"):
        hub_settings_of({"hub": TABLES["hub"]})


def test_another_address_needs_tls_or_a_word():
    open_address = {"listen": ["0.0.0.0:8443"], "listen_tcp": ["[::]:8444"]}
    assert hub_settings_of(with_hub(**open_address, insecure=True)).insecure
    assert hub_settings_of(with_hub(**open_address, certificate="hub.crt", key="hub.key")).certificate == "hub.crt"


def test_a_file_has_the_tables_of_a_hub(tmp_path):
    path = tmp_path / "hub.toml"
    path.write_text(TEXT.format(tmp_path))
    assert hub_settings_of(read_hub_toml(path)).state == f"{tmp_path}/state"
    path.write_text("[broker]\nhost = 'x'\n")
    with pytest.raises(BadSettings, match=r"broker is not known there: a file has the tables \[hub\], \[basis\] and \[page\]"):
        read_hub_toml(path)


# The command.


@pytest.fixture
def config(tmp_path):
    path = tmp_path / "hub.toml"
    path.write_text(TEXT.format(tmp_path))
    return str(path)


def test_the_command_draws_a_token_and_prints_it_once(config, tmp_path, capsys):
    assert cli.main(["hub", "--config", config, "--new-token", "house", "3"]) == 0
    told = capsys.readouterr()
    token = told.out.strip()
    assert (len(token), told.err) == (43, "")
    entry = TokenFile(tmp_path / "agents").read()["house"]
    assert (entry.child, entry.takes(token)) == (3, True)


def test_the_command_draws_tokens_for_256_agents_at_once(config, tmp_path, capsys):
    children = {f"agent{child}": child for child in range(1, 257)}
    (tmp_path / "list").write_text("# all\n" + "".join(f"{agent} {child}\n" for agent, child in children.items()))
    begin = time.monotonic()
    assert cli.main(["hub", "--config", config, "--new-tokens", str(tmp_path / "list"), "--into", str(tmp_path / "out")]) == 0
    assert time.monotonic() - begin < SECONDS / 2
    entries = TokenFile(tmp_path / "agents").read()
    assert {entry.agent: entry.child for entry in entries.values()} == children
    paths = capsys.readouterr().out.split()
    assert paths == [str(tmp_path / "out" / f"{child}.token") for child in children]
    for agent, path in zip(children, paths, strict=True):
        assert entries[agent].takes(Path(path).read_text().strip())
        assert stat.S_IMODE(os.stat(path).st_mode) == 0o600


@pytest.mark.parametrize(
    ("words", "why"),
    [
        (["--new-tokens", "/dev/null"], "give the folder for them by --into"),
        (["--record-size", "1"], "record_size is 1"),
        (["--record-files", "0"], "record_files is 0"),
        (["--new-token", "house", "0"], "the child is '0'"),
        (["--new-token", "ho/use", "1"], "the agent is 'ho/use'"),
        (["--new-token", "hub", "1"], "hub is the hub's own name"),
        (["--listen", "0.0.0.0:1"], "without TLS"),
        (["--gone", "-1"], "hub.gone is -1"),
        (["--agents", "/nowhere/agents"], "there is no /nowhere/agents: --new-token AGENT CHILD makes it"),
    ],
)
def test_wrong_settings_of_the_command_have_status_2(config, words, why, capsys, live):
    assert cli.main(["hub", "--config", config, "--live", live, *words]) == 2
    assert why in capsys.readouterr().err


def test_options_go_before_the_file(config, capsys, tmp_path):
    other = tmp_path / "other"
    assert cli.main(["hub", "--config", config, "--agents", str(other), "--new-token", "house", "3"]) == 0
    assert list(TokenFile(other).read()) == ["house"]


# Places.


def test_places_of_one_session(tmp_path):
    keep_place(tmp_path / "house", Place(1, "now"))
    keep_place(tmp_path / "house", Place(2, "now"))
    keep_place(tmp_path / "store", Place(1, "before"))
    assert places_in(tmp_path, "now") == {"house": Place(2, "now")}
    assert places_in(tmp_path / "nowhere", "now") == {}
    (tmp_path / "store" / "place").write_text("{}")
    with pytest.raises(BadStore, match="place is damaged"):
        places_in(tmp_path, "now")


def test_a_child_number_stays_an_agents_for_a_session():
    places = {"house": Place(1, "now")}
    require_places({"house": Entry("house", 1, ""), "store": Entry("store", 2, "")}, places)
    with pytest.raises(BadSettings, match="house is child 1 in this session, and not 2"):
        require_places({"house": Entry("house", 2, "")}, places)
    with pytest.raises(BadSettings, match="child 1 is house's in this session, and not store's"):
        require_places({"store": Entry("store", 1, "")}, places)
