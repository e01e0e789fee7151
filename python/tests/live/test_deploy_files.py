"""The files of a market from one that names it: what is refused, numbers, secrets, rights, and what stays when a device comes."""

from __future__ import annotations

import re
import subprocess
import tomllib

import pytest
from brokers import MOSQUITTO
from made import TREE, tree_here

from cogmaula.cli import main
from cogmaula.deploy import BadSettings, Member, add_device, init_market, keys, read_tree
from cogmaula.deploy.broker_files import limits_of
from cogmaula.deploy.broker_version import require_version
from cogmaula.deploy.containers import compose_text
from cogmaula.deploy.files import Places
from cogmaula.deploy.node_files import tables_of
from cogmaula.deploy.site_plan import SitePlan
from cogmaula.deploy.toml_text import toml_text
from cogmaula.deploy.market_file import tree_of
from cogmaula.live import Node, settings_of
from cogmaula.live.device.device_kinds import DeviceKind
from cogmaula.live.broker.rights import Right, united
from cogmaula.live.site.site_settings import site_settings_of

BASIS = "[basis]\nmin = 0\nmax = 9\nsteps = 10\n"
RELAYS = "[relays.a]\n[relays.b]\nparent = 'a'\n"
DEVICES = "".join(f"[devices.d{number}]\nparent = 'a'\n" for number in range(257))


def chain(count):
    """So many relays, each below the one before."""
    return "[relays.r1]\n" + "".join(f"[relays.r{number}]\nparent = 'r{number - 1}'\n" for number in range(2, count + 1))


def tree(text):
    return tree_of(tomllib.loads(BASIS + text))


NO_MARKETS = [
    ("[devices.a]\nparent = 'b'", "a has the parent b, which is no relay and no auctioneer"),
    ("[devices.a]\n[devices.b]\nparent = 'a'", "b has the parent a, which is no relay"),
    ("[relays.a]\nparent = 'b'\n[relays.b]\nparent = 'a'", "is below itself"),
    ("[devices.a]\nchild = 1\n[devices.b]\nchild = 1", "child 1 of auctioneer is there twice"),
    ("[relays.a]\n[devices.a]", "a is there twice"),
    ("[devices.broker]", "broker is a name of another folder"),
    ("[devices.'a b']", "a device is 'a b'"),
    ("[devices.a]\nchild = 257", "a would be child 257"),
    (f"[relays.a]\n{DEVICES}", "d256 would be child 257"),
    (f"[relays.a]\nlimits_from = true\n{DEVICES}", "d255 would be child 257"),
    (f"{chain(7)}[devices.a]\nparent = 'r7'", "r7 is below more than 6 relays"),
    ("[devices.a]\nleast = 'x'", "devices.a.least is 'x': give a whole number"),
    ("[relays.a]\ncontrol = true", "control of a is for a device"),
    ("[devices.a]\nname = 'b'", "a has name, which no file of a tree has"),
    ("[devices]\na = 1", "devices.a is 1, and no table"),
    ("[street]", "street is not known there"),
    ("[broker]\nhost = 'client'", "broker.host is client, which is the service of clients"),
    ("[broker]\nport = 0", "broker.port is 0"),
    ("[broker]\nmemory_limit = 0", "broker.memory_limit is 0"),
    ("[market]\nprefix = 1", "market.prefix is 1"),
    ("[logins.a]\nrole = 'king'", "logins.a has a role"),
    ("[logins.a]\nrole = 'grid operator'", "relays go with the role grid operator"),
    ("[logins.a]\nrole = 'operator'\ndatabase = 'sqlite'", "logins.a.database is 'sqlite': give a reader"),
    ("[logins.a]\nrole = 'reader'\ndatabase = 'postgresql://a:secret@b/c'", "without a password"),
    ("[logins.a]\nrole = 'reader'\ndatabase = 'sqlite:///x'", "logins.a.database is 'sqlite:///x'"),
    ("[logins.a]\nrole = 'reader'\ndatabase = 'postgresql://a@b/c d'", "logins.a.database is"),
    ("[relays.b]\n[logins.a]\nrole = 'grid operator'\nrelays = ['b']", "limits b, no relay with limits_from"),
    ("[logins.a]\nrole = 'reader'\nrelays = 'b'", "logins.a.relays is 'b'"),
    ("[devices.a]\n[sites.s]\nnodes = ['a', 'x']", "sites.s.nodes has x, which is no node of the file: give the auctioneer, a relay or a device"),
    ("[devices.a]\n[sites.s]\nnodes = ['a']\n[sites.t]\nnodes = ['a']", "sites.t.nodes has a, and sites.s.nodes has it too: a node runs in one site"),
    ("[devices.a]\n[sites.s]\nnodes = ['a', 'a']", "sites.s.nodes has a, twice"),
    ("[devices.a]\nhost = 'x'\n[devices.b]\nhost = 'y'\n[sites.s]\nnodes = ['a', 'b']", "sites.s would run on x and y: a site is one process"),
    ("[devices.a]\nhost = 'x'\n[sites.s]\nhost = 'z'\nnodes = ['a']", "sites.s would run on z and x: a site is one process"),
    ("[sites.s]", "sites.s.nodes is missing"),
    ("[sites.s]\nnodes = []", "sites.s.nodes is \\[\\]: give the names of its nodes"),
    ("[sites.s]\nnodes = 'a'", "sites.s.nodes is 'a': give the names of its nodes"),
    ("[sites.s]\nnodes = [1]", "sites.s.nodes is \\[1\\]: give the names of its nodes"),
    ("[devices.a]\n[sites.s]\nhost = 1\nnodes = ['a']", "sites.s.host is 1: give a text"),
    ("[devices.a]\n[sites.s]\nnodes = ['a']\nport = 1", "sites.s.port is not known: host, nodes are"),
    ("[devices.a]\n[sites.a]\nnodes = ['a']", "a is there twice: give another name"),
    ("[devices.a]\n[sites.broker]\nnodes = ['a']", "broker is a name of another folder"),
    ("[devices.a]\n[sites.'s t']\nnodes = ['a']", "a site is 's t'"),
    ("[sites]\ns = 1", "sites.s is 1, and no table"),
]


@pytest.mark.parametrize(("text", "due"), NO_MARKETS, ids=[due for _, due in NO_MARKETS])
def test_what_no_market_is(text, due):
    with pytest.raises(BadSettings, match=due):
        tree(text)


def test_a_device_is_below_six_relays_at_most():
    assert tree(f"{chain(6)}[devices.a]\nparent = 'r6'").member("a").child == 1


def test_a_wrong_setting_of_a_node_is_named(tmp_path):
    for text, due in (("[devices.a]\nfloor = 1", "a: floor"), ("[devices.a]\nleast = 5", "auctioneer: child 1 has least 5"), ("[devices.a.device]\nkind = 'oven'", "a: device: "), ("[relays.a.device]\nkind = 'load'", "a: the table device is for a device"), ("[relays.a]\npage = 'x'", "a: page.listen is 'x'")):
        with pytest.raises(BadSettings, match=due):
            init_market(tree(text), tmp_path / "market")
        assert not (tmp_path / "market").exists()


def test_the_kind_of_a_device_is_in_its_settings(tmp_path):
    """`load` has no parameters. It stays in the file that names the market."""
    told = tree("[devices.a]\n[devices.a.device]\nkind = 'load'")
    assert tree_of(tomllib.loads(toml_text(told.to_tables()))) == told
    settings = settings_of("device", tables_of(told, told.member("a"), Places(tmp_path, True)))
    assert settings.device == DeviceKind.of({"kind": "load"})


def test_how_prices_are_told_is_in_the_settings_of_each_parent(tmp_path):
    told = tree("[prices]\ntogether = false\n[relays.a]\n[devices.b]\nparent = 'a'")
    assert tree_of(tomllib.loads(toml_text(told.to_tables()))) == told
    found = {member.name: settings_of(member.sort, tables_of(told, member, Places(tmp_path, True))).prices.together for member in told.members}
    assert found == {"auctioneer": False, "a": False, "b": True}, "a device tells none"


def test_numbers_are_given_and_kept():
    """Those of the file stay; others get the first that is free. A device more gets the one behind the greatest."""
    one = tree(f"{RELAYS}[devices.c]\nchild = 2\n[devices.d]\n[devices.e]\nparent = 'b'\n")
    assert {member.name: (member.parent, member.child) for member in one.members[1:]} == {
        "a": ("auctioneer", 1), "b": ("a", 1), "c": ("auctioneer", 2), "d": ("auctioneer", 3), "e": ("b", 1),
    }
    assert tree_of(tomllib.loads(toml_text(one.to_tables()))) == one
    more = one.with_device(Member("device", "f", "auctioneer"))
    assert more.member("f").child == 4
    with pytest.raises(BadSettings, match="no node is called x"):
        one.with_device(Member("device", "g", "x"))
    with pytest.raises(BadSettings, match="child 1 of a is there twice"):
        one.with_device(Member("device", "g", "a", 1))
    limited = tree("[relays.a]\nlimits_from = true\ngiver = 2\n[devices.b]\nparent = 'a'")
    assert limited.with_device(Member("device", "c", "a")).member("c").child == 3


def test_limits_of_the_broker_grow_with_the_tree():
    """A thousand devices need more than 256 connections; a file may say otherwise."""
    small, large = limits_of(tree("[devices.a]")), limits_of(tree("".join(f"[relays.r{number}]\n" for number in range(250)) + "".join(
        f"[devices.d{number}]\nparent = 'r{number % 250}'\n" for number in range(1000))))
    assert (small.connections, small.queued, small.memory) == (256, 2**20, 2**27)
    assert (large.connections, large.files) == (4096, 4352)
    assert large.queued >= 1251 * 2048
    assert large.memory > 4096 * 65536 + 4 * large.queued
    named = limits_of(tree("[broker]\nmax_connections = 10\nmax_queued_bytes = 20\nmemory_limit = 30\n"))
    assert (named.connections, named.queued, named.memory, named.files) == (10, 20, 30, 266)


def test_each_node_may_read_what_it_subscribes_to_and_write_its_will(tmp_path):
    """The code of a node asks for these topics; a + stands for the number of each child."""
    told = tree_here(8883)
    for member in told.members:
        settings = settings_of(member.sort, tables_of(told, member, Places(tmp_path, True)))
        node = Node(settings, None, None, lambda *_: None)
        rights = told.rights()[member.name]
        numbers = [str(child.child) for child in told.children(member.name)]
        for topic in {topic.replace("+", number) for topic in [*node._subscriptions(), *node._written()] for number in numbers or ["+"]}:
            assert any(right.allows("read", topic) for right in rights), (member.name, topic)
        assert any(right.allows("write", settings.own_topic("state")) for right in rights), "its last will"
        node._store.close()


@pytest.mark.parametrize(
    ("right", "topic", "due"),
    [
        (Right("read", "m/a/bid/+"), "m/a/bid/1", True),
        (Right("read", "m/a/bid/+"), "m/a/bid/1/2", False),
        (Right("read", "m/a/bid/+"), "m/b/bid/1", False),
        (Right("write", "m/a/bid/+"), "m/a/bid/1", False),
        (Right("readwrite", "m/#"), "m/a/b", True),
        (Right("readwrite", "m/#"), "n/a", False),
        (Right("read", "m/a"), "m/a/b", False),
    ],
)
def test_a_right_allows(right, topic, due):
    assert right.allows("read", topic) is due


def test_a_refusal_has_the_name_of_the_file(tmp_path):
    path = tmp_path / "town.toml"
    path.write_text(f"{BASIS}[sites.s]\nnodes = ['x']\n")
    with pytest.raises(BadSettings, match=f"^{path}: sites.s.nodes has x"):
        read_tree(path)


@pytest.mark.parametrize(
    ("rights", "due"),
    [
        ([Right("read", "m/a"), Right("read", "m/a")], [Right("read", "m/a")]),
        ([Right("read", "m/a"), Right("write", "m/a")], [Right("readwrite", "m/a")]),
        ([Right("readwrite", "m/a"), Right("read", "m/b"), Right("write", "m/a")], [Right("readwrite", "m/a"), Right("read", "m/b")]),
        ([Right("read", "m/+"), Right("write", "m/a")], [Right("read", "m/+"), Right("write", "m/a")]),
    ],
)
def test_rights_are_united_topic_by_topic(rights, due):
    assert united(rights) == due


SITE = """
[broker]
host = "broker.example"
[relays.street]
pause = 2.0
[devices.house]
parent = "street"
greatest = 5000
control = true
[devices.store]
parent = "street"
page = "127.0.0.1:8081"
host = "attic"
[devices.store.device]
kind = "load"
[devices.mill]
[sites.block]
nodes = ["street", "house", "store"]
"""
# What `cogmaula market init` makes of it for the site, by hand.
SITE_SETTINGS = """\
# Made by `cogmaula market`. The site block.
[site]
name = "block"
state = "/var/lib/market/block"

[basis]
min = 0
max = 9
steps = 10

[broker]
host = "broker.example"
port = 8883
prefix = "market"
user = "block"
password_file = "/etc/market/block.password"
ca = "/etc/market/ca.crt"

[prices]
together = true

[nodes.street]
sort = "relay"
parent = "auctioneer"
child = 1
pause = 2.0

[nodes.street.children.house]
child = 1
sort = "device"
greatest = 5000
pause = 1.0

[nodes.street.children.store]
child = 2
sort = "device"
pause = 1.0

[nodes.house]
sort = "device"
parent = "street"
child = 1

[nodes.store]
sort = "device"
parent = "street"
child = 2

[nodes.store.page]
listen = "127.0.0.1:8081"
whole = true
user = "store.page"
password_file = "/etc/market/store.page.password"

[nodes.store.device]
kind = "load"
"""
SITE_SCRIPT = """\
#!/bin/sh
# Made by `cogmaula market`. Puts the files of the site block on this machine, and starts it. To be run as root; it may run again.
set -e
cd "$(dirname "$0")"
install -d -m 755 /etc/market
install -m 644 ca.crt block.toml /etc/market
install -m 600 block.password store.page.password /etc/market
install -m 644 market-site-block.service /etc/systemd/system
systemctl daemon-reload
systemctl enable market-site-block
systemctl restart market-site-block
"""
# Four files of each device, five of a parent, and 128 of the site itself; a process of each node, and more for a page.
SITE_UNIT = """\
ExecStart=/opt/cogmaula site /etc/market/block.toml --password-folder %d
LoadCredential=block.password:/etc/market/block.password
LoadCredential=store.page.password:/etc/market/store.page.password
StateDirectory=market/block
MemoryMax=515M
TasksMax=51
LimitNOFILE=141
TimeoutStopSec=15
WatchdogSec=60
""".splitlines()
SITE_CONTAINER = """
  block:
    <<: *node
    entrypoint: [cogmaula, site]
    command: [/etc/market/block.toml]
    volumes: ["./block:/etc/market:ro", "block:/var/lib/market"]
"""


def site_tree():
    """The tree of SITE, whose nodes call another cogmaula."""
    return tree("[market]\ncommand = '/opt/cogmaula'\n" + SITE)


def test_a_site_has_one_folder_login_unit_and_container(tmp_path):
    require_programs()
    out = tmp_path / "market"
    lines = init_market(site_tree(), out)
    assert lines[:5] == [
        "broker.example: broker", "the machine of auctioneer: auctioneer", "attic: block", "the machine of mill: mill", "the machine of house.control: house.control",
    ]
    assert {path.name for path in out.iterdir() if path.is_dir()} == {"authority", "broker", "auctioneer", "block", "mill", "house.control"}
    assert {path.name for path in (out / "block").iterdir()} == {
        "ca.crt", "install.sh", "block.toml", "block.password", "store.page.password", "market-site-block.service",
    }
    assert (out / "block" / "block.toml").read_text() == SITE_SETTINGS
    assert (out / "block" / "install.sh").read_text() == SITE_SCRIPT
    unit = (out / "block" / "market-site-block.service").read_text().splitlines()
    assert [line for line in SITE_UNIT if unit.count(line) != 1] == []
    compose = (out / "compose.yaml").read_text()
    assert SITE_CONTAINER in compose and compose.endswith("\nvolumes:\n  broker:\n  auctioneer:\n  mill:\n  block:\n")
    assert "street" not in compose.replace("block", "")
    logins = [line.partition(":")[0] for line in (out / "broker" / "passwords").read_text().splitlines()]
    assert sorted(logins) == ["auctioneer", "block", "house.control", "mill", "store.page"]
    assert read_tree(out / "tree.toml") == site_tree()
    assert site_settings_of(tomllib.loads(SITE_SETTINGS)).name == "block"


def test_a_device_more_comes_into_a_site(tmp_path, capsys):
    require_programs()
    out = tmp_path / "market"
    init_market(site_tree(), out)
    before = {path: path.read_bytes() for path in out.rglob("*") if path.is_file()}
    words = ["market", "add", "car", "--out", str(out), "--parent", "street", "--least", "-10", "--control", "--site", "block"]
    assert main(words) == 0
    assert capsys.readouterr().out.splitlines()[:3] == ["broker.example: broker", "attic: block", "the machine of car.control: car.control"]
    changed = {str(path.relative_to(out)) for path, text in before.items() if path.read_bytes() != text}
    units = {"block/block.toml", "block/market-site-block.service"}
    assert changed == {"tree.toml", "compose.yaml", "broker/passwords", "broker/mosquitto.acl", "broker/subscriptions.json", *units}
    assert {path.name for path in out.iterdir() if path.is_dir()} - {path.parent.name for path in before} == {"car.control"}
    told = (out / "block" / "block.toml").read_text()
    assert '[nodes.car]\nsort = "device"\nparent = "street"\nchild = 3\n' in told
    assert '[nodes.street.children.car]\nchild = 3\nsort = "device"\nleast = -10\npause = 1.0\n' in told
    assert read_tree(out / "tree.toml").sites == (SitePlan("block", ("street", "house", "store", "car")),)
    assert main([*words[:2], "bus", *words[3:-1], "east"]) == 2
    assert "no site is called east: give block" in capsys.readouterr().err
    assert main([*words[:2], "bus", *words[3:], "--host", "garage"]) == 2
    assert "sites.block would run on attic and garage" in capsys.readouterr().err
    with pytest.raises(BadSettings, match="no site is called east: the market has none"):
        tree("[relays.a]").with_device(Member("device", "b", "a"), "east")


def test_a_wrong_setting_of_a_node_of_a_site_is_named(tmp_path):
    told = tree("[devices.a]\nfallback = 'x'\n[sites.s]\nnodes = ['a']")
    with pytest.raises(BadSettings, match="s: nodes.a: node.fallback is 'x': give a whole number"):
        init_market(told, tmp_path / "market")
    assert not (tmp_path / "market").exists()


@pytest.mark.parametrize(
    ("told", "is_taken"),
    [
        ("mosquitto version 2.0.11\n", True), ("mosquitto version 2.0.20\n", True), ("mosquitto version 2.1.0\n", True), ("", True),
        ("mosquitto version 2.0.10\n", False), ("mosquitto version 2.0\n", False), ("mosquitto version 1.6.12 (build date x)\n", False),
    ],
)
def test_an_old_mosquitto_is_refused(told, is_taken):
    if is_taken:
        require_version(told)
        return
    with pytest.raises(BadSettings, match="a market needs 2.0.11 or later: earlier ones do not end the connection"):
        require_version(told)


def require_programs():
    if MOSQUITTO is None:
        pytest.skip("mosquitto is not installed: apt-get install mosquitto")


@pytest.mark.parametrize(
    ("here", "listens"),
    [("8883", "listener 8883 127.0.0.1"), ("10.0.0.1:1", "listener 1 10.0.0.1"), ("x", None), ("10.0.0.1:", None), ("10.0.0.1:0", None)],
)
def test_a_market_of_one_machine_listens_at_the_address_that_is_given(tmp_path, here, listens):
    require_programs()
    out = tmp_path / "market"
    try:
        status = main(["market", "init", str(TREE), "--out", str(out), "--here", here])
    except SystemExit as end:
        status = end.code
    assert status == (2 if listens is None else 0)
    assert out.exists() == (listens is not None)
    if listens is not None:
        assert listens in (out / "broker" / "mosquitto.conf").read_text().splitlines()
        assert f'host = "{listens.split()[2]}"' in (out / "house" / "house.toml").read_text()


def test_secrets_are_in_files_of_their_own_and_in_no_argument(tmp_path, monkeypatch):
    require_programs()
    words, run = [], subprocess.run
    monkeypatch.setattr(keys.subprocess, "run", lambda them, **more: words.extend(them) or run(them, **more))
    out = tmp_path / "market"
    assert main(["market", "init", str(TREE), "--out", str(out)]) == 0
    passwords = {path: path.read_text().strip() for path in out.glob("*/*.password")}
    assert sorted(password.name for password in passwords) == [
        f"{login}.password" for login in ("auctioneer", "gridoperator", "history", "house.control", "house", "operator", "store.control", "store", "street")
    ]
    assert len(set(passwords.values())) == 9
    assert not any(password in word for password in passwords.values() for word in words)
    secret = [*passwords, *out.glob("*/*.key"), *out.glob("*/mosquitto_?ub"), out / "broker" / "passwords"]
    assert {oct(path.stat().st_mode & 0o777) for path in secret} == {"0o600"}
    assert {oct(path.stat().st_mode & 0o777) for path in [out, *out.iterdir()] if path.is_dir()} == {"0o700"}
    holders = {path for path in out.rglob("*") if path.is_file() and any(password in path.read_text() for password in passwords.values())}
    assert holders == {*passwords, *out.glob("*/mosquitto_?ub")}


def test_a_device_more_leaves_what_is_there(tmp_path, capsys):
    require_programs()
    out = tmp_path / "market"
    assert main(["market", "init", str(TREE), "--out", str(out)]) == 0
    assert main(["market", "init", str(TREE), "--out", str(out)]) == 2
    assert "has files: give a new folder" in capsys.readouterr().err
    before = {path: path.read_bytes() for path in out.rglob("*") if path.is_file()}
    assert main(["market", "add", "car", "--out", str(out), "--parent", "street", "--greatest", "3700", "--control", "--host", "garage"]) == 0
    told = capsys.readouterr().out.splitlines()
    assert told[:4] == ["broker.example: broker", "the machine of street: street", "garage: car", "the machine of car.control: car.control"]
    changed = {str(path.relative_to(out)) for path, text in before.items() if path.read_bytes() != text}
    assert changed == {"tree.toml", "compose.yaml", "broker/passwords", "broker/mosquitto.acl", "broker/subscriptions.json", "street/street.toml"}
    assert (out / "broker" / "passwords").read_bytes().startswith(before[out / "broker" / "passwords"])
    assert "[children.car]\nchild = 3\nsort = \"device\"\ngreatest = 3700\npause = 1.0\n" in (out / "street" / "street.toml").read_text()
    assert read_tree(out / "tree.toml").member("car") == Member("device", "car", "street", 3, None, 3700, "garage", True)
    assert main(["market", "add", "car", "--out", str(out), "--parent", "street"]) == 2
    with pytest.raises(BadSettings, match="no node is called nobody"):
        add_device(out, Member("device", "bus", "nobody"))


def services_in(text):
    """The key of each service of a file of compose, and the settings that its command names, None if it names none."""
    below = text.partition("\nservices:\n")[2].partition("\nvolumes:\n")[0]
    keys = re.findall(r'^  "?([^\s#:"]+)"?:$((?:\n(?:    .*)?)*)', below, re.M)
    return [(key, told[1] if (told := re.search(r"--config, /etc/market/(\S+)\.toml", lines)) else None) for key, lines in keys]


@pytest.mark.parametrize("host", ["street", "node-street", "broker.example"])
def test_no_two_services_of_containers_have_one_name(host):
    """A node may have the name of the broker's host, or that of the service of clients: its own service is then called otherwise."""
    made = tree(
        f"[broker]\nhost = '{host}'\n[relays.street]\n[devices.client]\n[devices.node-street]\n[logins.kept]\nrole = 'reader'\ndatabase = 'sqlite'"
    )
    found = services_in(compose_text(made))
    keys = [key for key, _ in found]
    assert len(set(keys)) == len(keys) and keys[0] == host and keys[-1] == "client", "nodes reach the broker by its host's name"
    assert [settings for _, settings in found[1:-1]] == ["auctioneer", "street", "client", "node-street", "kept"]
    assert keys[2] == {"street": "node-street", "node-street": "street", "broker.example": "street"}[host]
