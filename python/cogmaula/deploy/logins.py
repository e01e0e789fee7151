"""Undoes a stolen login in a market's files: it is barred, gets another password, or its device another number."""

from __future__ import annotations

import os
import secrets
import signal
from dataclasses import replace
from pathlib import Path

from ..live.node.node_errors import BadSettings, LiveError
from .files import OPEN, SECRET, Places, write_file
from .market_file import Member, Tree
from .node_files import folders_of

# The logins that are barred, in the broker's folder: one a line.
REVOKED = "revoked"


def revoked_in(out: Path) -> list[str]:
    """The logins that are barred. Raises OSError."""
    path = out / "broker" / REVOKED
    return path.read_text().split() if path.exists() else []


def folder_of_login(tree: Tree, login: str) -> str:
    """The folder of a login. Raises BadSettings if the market has none of this name."""
    for folder, logins in folders_of(tree).items():
        if login in logins:
            return folder
    raise BadSettings(f"no login is called {login}: {' '.join(tree.rights())}")


def revoke(out: Path, tree: Tree, login: str) -> None:
    """Notes that a login is barred. Raises BadSettings and OSError."""
    folder_of_login(tree, login)
    _forget_hash(out, login)
    _write_revoked(out, [*(name for name in revoked_in(out) if name != login), login])


def rotate(out: Path, tree: Tree, login: str) -> None:
    """Gives a login another password, and lets it in again. Raises BadSettings and OSError."""
    folder = folder_of_login(tree, login)
    write_file(out / folder / f"{login}.password", secrets.token_hex(24) + "\n", SECRET)
    _forget_hash(out, login)
    _write_revoked(out, [name for name in revoked_in(out) if name != login])


def _write_revoked(out: Path, logins: list[str]) -> None:
    write_file(out / "broker" / REVOKED, "".join(f"{login}\n" for login in logins), OPEN)


def _forget_hash(out: Path, login: str) -> None:
    path = out / "broker" / "passwords"
    kept = [line for line in path.read_text().splitlines() if line.partition(":")[0] != login]
    write_file(path, "".join(f"{line}\n" for line in kept), SECRET)


def with_fresh_number(tree: Tree, name: str) -> Tree:
    """The tree in which a device has a child number that nobody had. Raises BadSettings.

    A number that was in use is given to nobody else in the session: the fresh one is behind the
    greatest of its parent.
    """
    member = tree.member(name)
    if member.sort != "device":
        raise BadSettings(
            f"{name} is a {member.sort}: only a device gets another number. Begin a new session"
        )
    others = tuple(one for one in tree.members if one.name != name)
    site = tree.site_of(name)
    # The number of before counts as taken.
    held = Member("device", "-", member.parent, member.child)
    numbered = replace(tree, members=(*others, held), sites=()).with_device(
        replace(member, child=None)
    )
    fresh = numbered.member(name)
    assert site is None or name in site.nodes
    return replace(tree, members=tuple(fresh if one.name == name else one for one in tree.members))


def put_state_away(out: Path, tree: Tree, member: Member) -> str:
    """Moves a device's state aside, if it is on this machine, or says where it is to be moved."""
    site = tree.site_of(member.name)
    places = Places(out, tree.market.here)
    path = Path(places.state(member.name if site is None else site.name))
    path = path if site is None else path / member.name
    aside = path.with_name(f"{path.name}.child{member.child}")
    if not tree.market.here:
        return f"On the machine of {member.name}, while it is down: mv {path} {aside}"
    if path.exists():
        os.rename(path, aside)
        path.mkdir(mode=0o700)
    return f"The state of before is in {aside}."


def tell_broker(out: Path, tree: Tree) -> str:
    """Lets the broker of this machine read its files again, or says how to. Raises LiveError."""
    if not tree.market.here:
        return f"Copy {out / 'broker'} to {tree.broker.host}, and run `sh broker/install.sh` there."
    path = Path(Places(out, True).state("broker")) / "mosquitto.pid"
    try:
        number = int(path.read_text())
        command = Path(f"/proc/{number}/cmdline").read_bytes().split(b"\0")
    except (OSError, ValueError):
        return "The broker does not run: it reads its files at its start."
    if not any(word.endswith(b"mosquitto.conf") for word in command):
        return "The broker does not run: it reads its files at its start."
    try:
        os.kill(number, signal.SIGHUP)
    except OSError as error:
        raise LiveError(f"the broker, process {number}, cannot be told: {error}") from None
    return "The broker has read its files again."
