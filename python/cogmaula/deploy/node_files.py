"""The files of a market's nodes and of its further logins: settings, and units of systemd."""

from __future__ import annotations

from string import Template
from typing import Any

from ..live.node.node_errors import BadSettings
from ..live.node.node_settings import Settings, settings_of
from .files import ETC, Places, text_of
from .toml_text import toml_text
from .market_file import CONTROL, PAGE, Member, Tree

MADE = "# Made by `cogmaula market`."
# The seconds between two bids of a device that count, unless its parent has `child_pause`: a device that floods does not hold up others.
DEVICE_PAUSE = 1.0
WATCHED = "# It tells that its loop turns: one that stands still for a minute is started anew.\nWatchdogSec=60\n"


def broker_table(tree: Tree, login: str, etc: str) -> dict[str, Any]:
    """The table `broker` of a login whose files are in the folder `etc`."""
    return {
        "host": tree.broker.host,
        "port": tree.port_of(login),
        "prefix": tree.market.prefix,
        "user": login,
        "password_file": f"{etc}/{login}.password",
        "ca": f"{etc}/ca.crt",
    }


def tables_of(tree: Tree, member: Member, places: Places) -> dict[str, dict[str, Any]]:
    """The tables of a node's settings."""
    etc = places.etc(tree.folder_of(member.name))
    node = {"name": member.name, "state": places.state(member.name), "parent": member.parent, "child": member.child, **member.more}
    found = {"node": node, "basis": dict(vars(tree.basis)), "broker": broker_table(tree, member.name, etc)}
    if member.page is not None:
        own = {"user": member.name + PAGE, "password_file": f"{etc}/{member.name}{PAGE}.password"} if has_page_login(member) else {}
        found["page"] = {**member.page, **own}
    if member.device is not None:
        found["device"] = dict(member.device)
    if member.sort != "device":
        found["prices"] = dict(vars(tree.prices))
    bounds: dict[str, Any] = {}
    for child in tree.children(member.name):
        pause = DEVICE_PAUSE if child.sort == "device" and "child_pause" not in member.more else None
        told = {"child": child.child, "sort": child.sort, "least": child.least, "greatest": child.greatest, "pause": pause}
        bounds[child.name] = {name: value for name, value in told.items() if value is not None}
    return {**found, "children": bounds} if bounds else found


def settings_text(tree: Tree, member: Member, places: Places) -> str:
    """A node's settings. Raises BadSettings if the tree's file has a wrong one."""
    tables = tables_of(tree, member, places)
    require_settings(member, tables)
    return f"{MADE} The {member.sort} {member.name}.\n{toml_text(tables)}"


def require_settings(member: Member, tables: dict[str, dict[str, Any]]) -> Settings:
    """The settings that a node takes from these tables. Raises BadSettings, with the name of the node."""
    told = {name: {key: value for key, value in table.items() if value is not None} for name, table in tables.items()}
    told["children"] = tables.get("children", {})
    try:
        return settings_of(member.sort, told)
    except BadSettings as error:
        raise BadSettings(f"{member.name}: {error}") from None


def login_text(tree: Tree, login: str, places: Places) -> str:
    """The settings of who is no node, for `cogmaula market` and for clients of the broker."""
    return f"{MADE} The login {login}.\n{toml_text({'broker': broker_table(tree, login, places.etc(login))})}"


def client_text(tree: Tree, login: str, password: str, places: Places) -> str:
    """The options of mosquitto's own clients, which they read from a folder that XDG_CONFIG_HOME names: no password is an argument."""
    table = broker_table(tree, login, places.etc(login))
    options = {"-h": table["host"], "-p": table["port"], "--cafile": table["ca"], "-u": login, "-P": password, "-q": 1}
    return "".join(f"{option} {value}\n" for option, value in options.items())


def unit_of(member: Member) -> str:
    """The name of a node's unit."""
    return f"market-node-{member.name}"


def unit_text(tree: Tree, member: Member) -> str:
    """A node's unit."""
    command = f"{tree.market.command} node {member.sort} --config {ETC}/{member.name}.toml --password-file %d/password"
    credentials = f"LoadCredential=password:{ETC}/{member.name}.password\n"
    if has_page_login(member):
        command += " --page-password-file %d/page"
        credentials += f"LoadCredential=page:{ETC}/{member.name}{PAGE}.password\n"
    words = {
        "what": f"Node {member.name} of a market",
        "name": member.name,
        "command": command,
        "credentials": credentials,
        "memory": "512M" if member.page is not None else "256M",
        "tasks": "32",
        "files": "",
        "patience": "5",
        "told": WATCHED,
        "after": "",
        "ends": "2 5 6",
    }
    return Template(text_of("unit.service")).substitute(words)


def has_page_login(member: Member) -> bool:
    """Whether the page of a node shows the whole market, which it reads by a login of its own."""
    return member.page is not None and bool(member.page.get("whole"))


def folders_of(tree: Tree) -> dict[str, list[str]]:
    """Each folder of files beside that of the broker, and the logins whose passwords are there. The nodes of a site share one."""
    found: dict[str, list[str]] = {}
    for member in tree.members:
        folder = tree.folder_of(member.name)
        found.setdefault(folder, [folder])
        if has_page_login(member):
            found[folder].append(member.name + PAGE)
        if member.control:
            found[member.name + CONTROL] = [member.name + CONTROL]
    return {**found, **{login.name: [login.name] for login in tree.logins}}


def login_folders(tree: Tree) -> list[str]:
    """The folders of those who are no nodes."""
    nodes = {tree.folder_of(member.name) for member in tree.members}
    return [folder for folder in folders_of(tree) if folder not in nodes]
