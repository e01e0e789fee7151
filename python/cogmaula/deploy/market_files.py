"""Makes a market's files: all of a new market, and those that one more device needs. What is there already of keys and passwords stays.

Each node, each further login and the broker has a folder of its own, with what `install.sh` there puts on its machine.
"""

from __future__ import annotations

from collections.abc import Mapping
from pathlib import Path

from ..live.node.node_errors import BadSettings
from ..live.node.node_settings import BrokerSettings, Settings
from ..live.broker.operating import forget_node
from ..live.node.toml_tables import value_of
from . import broker_files, history_files, installing, logins, node_files, site_files
from .broker_version import require_broker
from .containers import compose_text
from .files import OPEN, RUN, SECRET, Places, text_of, write_file
from .front_files import front_text, front_unit_text
from .keys import make_authority, make_certificate, make_passwords
from .subscription_files import subscriptions_text
from .toml_text import toml_text
from .market_file import Member, Tree, read_tree

# The file of the market itself, with the number of each node, and the folder of its CA.
TREE, AUTHORITY = "tree.toml", "authority"


def init_market(tree: Tree, out: Path) -> list[str]:
    """Makes all files of a market in a new folder. Gives lines about what to do. Raises BadSettings, LiveError and OSError."""
    if out.exists() and any(out.iterdir()):
        raise BadSettings(f"{out} has files: give a new folder, or add a device to that market by `cogmaula market add`")
    require_broker()
    _make(tree, out)
    first = [f"mosquitto -c {out / 'broker' / 'mosquitto.conf'}"] if tree.market.here else []
    if tree.market.here and tree.has_front:
        first.append(f"haproxy -f {out / 'broker' / 'haproxy.cfg'}")
    return [*first, *_lines(tree, out, list(_folders(tree)))]


def add_device(out: Path, device: Member, site: str | None = None) -> list[str]:
    """Adds a device to a market, in a site of it or by itself. Gives lines about what to do. Raises BadSettings, LiveError and OSError."""
    before = read_tree(out / TREE)
    tree = before.with_device(device, site)
    _make(tree, out)
    known = _folders(before)
    nodes = [tree.folder_of(name) for name in (device.parent or "", device.name)]
    changed = list(dict.fromkeys(["broker", *nodes, *(folder for folder in _folders(tree) if folder not in known)]))
    first = ["Let the broker read its files again, by SIGHUP."] if tree.market.here else []
    return [*first, *_lines(tree, out, changed)]


def revoke_login(out: Path, login: str) -> list[str]:
    """Bars a login: the broker ends its connection and lets it in no more. Gives lines about what to do. Raises as `add_device` does."""
    tree = read_tree(out / TREE)
    logins.revoke(out, tree, login)
    _make(tree, out)
    return [logins.tell_broker(out, tree), f"{login} is barred, until `cogmaula market rotate {login}`."]


def rotate_login(out: Path, login: str) -> list[str]:
    """Gives a login another password: the broker ends its connection. Gives lines about what to do. Raises as `add_device` does."""
    tree = read_tree(out / TREE)
    folder = logins.folder_of_login(tree, login)
    logins.rotate(out, tree, login)
    _make(tree, out)
    told = [logins.tell_broker(out, tree)]
    if tree.market.here:
        return [*told, f"{login} has another password, in {out / folder}. Who reads it at each connection goes on by itself."]
    return [*told, *_lines(tree, out, ["broker", folder])]


def renumber_device(out: Path, name: str) -> list[str]:
    """Lets a device, which is down, begin anew under a child number that nobody had. Its numbers of before are forgotten, also at the broker.

    Gives lines about what to do. Raises as `add_device` does.
    """
    before = read_tree(out / TREE)
    member, tree = before.member(name), logins.with_fresh_number(before, name)
    table = node_files.broker_table(before, before.folder_of(name), str(out.resolve() / before.folder_of(name)))
    forget_node(value_of(BrokerSettings, table, "broker"), name, member.parent or "", member.child or 0)
    away = logins.put_state_away(out, before, member)
    _make(tree, out)
    told = [f"{name} is child {tree.member(name).child} of {member.parent}, and was {member.child}.", away, logins.tell_broker(out, tree)]
    changed = dict.fromkeys(["broker", tree.folder_of(member.parent or ""), tree.folder_of(name)])
    return [*told, *_lines(tree, out, list(changed))]


def fence_settings(out: Path, name: str, state: str) -> Settings:
    """The settings of one more life of a relay, by the files of the folder, which keeps its state in another one. Raises BadSettings."""
    tree = read_tree(out / TREE)
    member = tree.member(name)
    if member.sort != "relay":
        raise BadSettings(f"{name} is a {member.sort}, and no relay")
    if site := tree.site_of(name):
        raise BadSettings(f"{name} runs in the site {site.name}, and has no login of its own: start the site")
    tables = node_files.tables_of(tree, member, Places(out, True))
    tables["node"]["state"] = state
    return node_files.require_settings(member, tables)


def _folders(tree: Tree) -> dict[str, str]:
    """Each folder, and the machine that it is for."""
    machines: dict[str, str] = {"broker": tree.broker.host}
    for member in tree.members:
        folder = tree.folder_of(member.name)
        if host := tree.host_of(member):
            machines[folder] = host
        machines.setdefault(folder, f"the machine of {folder}")
    for folder in node_files.folders_of(tree):
        machines.setdefault(folder, f"the machine of {folder}")
    return machines


def _make(tree: Tree, out: Path) -> None:
    """Makes what is lacking, and all that follows from the tree anew."""
    places = Places(out, tree.market.here)
    texts = {member.name: node_files.settings_text(tree, member, places) for member in tree.alone}
    texts |= {site.name: site_files.settings_text(tree, site, places) for site in tree.sites}
    out.mkdir(mode=0o700, parents=True, exist_ok=True)
    authority, broker = out / AUTHORITY, out / "broker"
    broker.mkdir(mode=0o700, exist_ok=True)
    make_authority(authority)
    make_certificate(authority, broker, tree.broker.host)
    folders = node_files.folders_of(tree)
    make_passwords(
        [(login, out / folder / f"{login}.password") for folder, them in folders.items() for login in them],
        broker / "passwords",
        logins.revoked_in(out),
    )
    ca = (authority / "ca.crt").read_text()
    for folder in ("broker", *folders):
        write_file(out / folder / "ca.crt", ca, OPEN)
    _make_broker(tree, places)
    for name, text in texts.items():
        write_file(out / name / f"{name}.toml", text, OPEN)
        if tree.market.here:
            Path(places.state(name)).mkdir(mode=0o700, parents=True, exist_ok=True)
    for member in tree.alone:
        own, unit = out / member.name, node_files.unit_of(member)
        write_file(own / f"{unit}.service", node_files.unit_text(tree, member), OPEN)
        write_file(own / "install.sh", installing.unit_text(member.sort, member.name, unit, folders[member.name]), RUN)
    for site in tree.sites:
        own, unit = out / site.name, site_files.unit_of(site)
        write_file(own / f"{unit}.service", site_files.unit_text(tree, site, folders[site.name]), OPEN)
        write_file(own / "install.sh", installing.unit_text("site", site.name, unit, folders[site.name]), RUN)
    for login in node_files.login_folders(tree):
        write_file(out / login / f"{login}.toml", node_files.login_text(tree, login, places), OPEN)
        options = node_files.client_text(tree, login, (out / login / f"{login}.password").read_text().strip(), places)
        for client in installing.CLIENTS:
            write_file(out / login / client, options, SECRET)
        write_file(out / login / "install.sh", installing.login_text(login), RUN)
    for history in history_files.histories_of(tree):
        own = out / history.name
        write_file(own / f"{history_files.history_unit_of(history)}.service", history_files.history_unit_text(tree, history, places), OPEN)
        write_file(own / "install.sh", installing.login_text(history.name) + history_files.history_install_text(history), RUN)
        if tree.market.here:
            Path(places.state(history.name)).mkdir(mode=0o700, parents=True, exist_ok=True)
    write_file(out / "Dockerfile", text_of("Dockerfile"), OPEN)
    write_file(out / "compose.yaml", compose_text(tree), OPEN)
    # The file of the market comes last: until then the market is the one before.
    write_file(out / TREE, "# Made by `cogmaula market`. The market, with the number of each node.\n" + toml_text(tree.to_tables()), OPEN)


def _make_broker(tree: Tree, places: Places) -> None:
    folder = places.out / "broker"
    write_file(folder / "mosquitto.acl", broker_files.rights_text(tree, logins.revoked_in(places.out)), SECRET)
    write_file(folder / "subscriptions.json", subscriptions_text(tree), SECRET)
    write_file(folder / "mosquitto.conf", broker_files.configuration_text(tree, places), OPEN)
    write_file(folder / "mosquitto.service.conf", broker_files.unit_text(tree), OPEN)
    write_file(folder / "check_database.sh", text_of("check_database.sh"), RUN)
    write_file(folder / "install.sh", installing.broker_text(tree.has_front), RUN)
    if tree.has_front:
        connections = broker_files.limits_of(tree).connections
        write_file(folder / "front.pem", (folder / "broker.crt").read_text() + (folder / "broker.key").read_text(), SECRET)
        write_file(folder / "haproxy.cfg", front_text(tree, places, connections), OPEN)
        write_file(folder / "market-front.service", front_unit_text(connections), OPEN)
    if tree.market.here:
        Path(places.state("broker")).mkdir(mode=0o700, parents=True, exist_ok=True)


def _lines(tree: Tree, out: Path, changed: list[str]) -> list[str]:
    """What to do with the folders that changed."""
    if tree.market.here:
        nodes = [f"cogmaula node {member.sort} --config {out / member.name / member.name}.toml" for member in tree.alone if member.name in changed]
        sites = [f"cogmaula site {out / site.name / site.name}.toml" for site in tree.sites if site.name in changed]
        places = Places(out, True)
        histories = [history_files.history_command(tree, one, places) for one in history_files.histories_of(tree) if one.name in changed]
        return [*nodes, *sites, *histories]
    machines: Mapping[str, str] = _folders(tree)
    by_machine: dict[str, list[str]] = {}
    for folder in changed:
        by_machine.setdefault(machines[folder], []).append(folder)
    lines = [f"{machine}: {' '.join(them)}" for machine, them in by_machine.items()]
    return [*lines, "Copy each folder to its machine, and run `sh FOLDER/install.sh` there as root.", f"Keep {out / AUTHORITY} off the market."]
