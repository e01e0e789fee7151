"""The files of a market's broker, mosquitto 2: its configuration, the rights of each login, and the limits of its unit."""

from __future__ import annotations

import os
from collections.abc import Collection
from dataclasses import dataclass

from .files import ETC, Places
from .front_files import doors_of, socket_of
from .market_file import Tree
from .subscription_files import plugin_path

MIB = 1_048_576
# The broker stores what it retains after so many seconds.
AUTOSAVE = 10
# The longest packet that it takes, in bytes.
MOST_PACKET = 32_768
# A session that never expires by its own word is kept for so long: none of a market's is.
EXPIRES = "1h"
# How many messages of QoS 1 may be under way to a login, which mosquitto has by default.
INFLIGHT = 20
# The longest keepalive in seconds: a connection that went away unseen ends after one and a half.
MOST_KEEPALIVE = 300
# More messages than the bytes that wait can be. Without a limit by count, mosquitto 2.0.11 ends the connection of whoever publishes what
# is refused.
MOST_MESSAGES = 1_000_000
# What the limits count for each connection, and what a broker takes without one, in bytes.
BY_CONNECTION, WITHOUT = 65_536, 64 * MIB
# What a page of a whole market is sent of each node at once, without demands, in bytes.
BY_NODE = 2_048


@dataclass(frozen=True)
class BrokerLimits:
    """The limits of a broker: the most connections, bytes that wait for one login, bytes of memory, and open files."""

    connections: int
    queued: int
    memory: int
    files: int


def limits_of(tree: Tree) -> BrokerLimits:
    """The limits of a market's broker: those of the file, or else what the tree needs, rounded up to powers of two."""
    plan = tree.broker
    connections = plan.max_connections or _rounded(max(256, 2 * len(tree.rights())))
    queued = plan.max_queued_bytes or _rounded(max(MIB, len(tree.members) * (BY_NODE + 8 * tree.basis.steps)))
    memory = plan.memory_limit or _rounded(WITHOUT + connections * BY_CONNECTION + 4 * queued)
    return BrokerLimits(connections, queued, memory, connections + 256)


def _rounded(number: int) -> int:
    return 1 << (number - 1).bit_length()


def rights_text(tree: Tree, revoked: Collection[str] = ()) -> str:
    """The broker's list of rights, without those of logins that are barred."""
    lines = ["# Made by `cogmaula market`. Who may read and write what: each login has its own topics, and no other."]
    for login, rights in tree.rights().items():
        if login in revoked:
            continue
        lines += ["", f"user {login}", *(f"topic {right.access} {right.topic}" for right in rights)]
    return "\n".join(lines) + "\n"


def configuration_text(tree: Tree, places: Places) -> str:
    """The broker's configuration."""
    limits, etc, here = limits_of(tree), places.etc("broker"), tree.market.here
    lines = ["# Made by `cogmaula market`. A login is also the connection's name, so that nobody ends that of another login."]
    for listener in _listeners(tree, places):
        lines += [*listener, "use_username_as_clientid true", f"max_connections {limits.connections}"]
    lines += [
        "allow_anonymous false",
        f"password_file {etc}/passwords",
        f"acl_file {etc}/mosquitto.acl",
        "# Who may subscribe to what: the list of rights leaves that free.",
        f"plugin {plugin_path()}",
        f"plugin_opt_config_file {etc}/subscriptions.json",
        "set_tcp_nodelay true",
        "# What it retains is stored by the clock: the nodes publish anew what a crash has lost.",
        "persistence true",
        f"persistence_location {places.state('broker') if here else '/var/lib/mosquitto'}/",
        "autosave_on_changes false",
        f"autosave_interval {AUTOSAVE}",
        f"persistent_client_expiration {EXPIRES}",
        "# Bytes bound what waits for a login. By 0 messages, which means no bound, it would end each connection that it refuses a message.",
        f"max_packet_size {MOST_PACKET}",
        f"max_inflight_messages {INFLIGHT}",
        f"max_inflight_bytes {INFLIGHT * MOST_PACKET}",
        f"max_keepalive {MOST_KEEPALIVE}",
        f"max_queued_messages {MOST_MESSAGES}",
        f"max_queued_bytes {limits.queued}",
        f"memory_limit {limits.memory}",
    ]
    if here:
        lines.append(f"pid_file {places.state('broker')}/mosquitto.pid")
    if here and os.getuid() == 0:
        # As another user it could not read the files of root.
        lines.append("user root")
    return "\n".join(lines) + "\n"


def _listeners(tree: Tree, places: Places) -> list[list[str]]:
    """The lines of each listener: sockets of the front, or TLS for all."""
    if tree.has_front:
        return [["listener 0 " + socket_of(places, door)] for door in doors_of(tree)]
    etc = places.etc("broker")
    address = f" {tree.broker.host}" if tree.market.here else ""
    keys = [f"cafile {etc}/ca.crt", f"certfile {etc}/broker.crt", f"keyfile {etc}/broker.key"]
    return [[f"listener {tree.broker.port}{address}", *keys]]


def unit_text(tree: Tree) -> str:
    """What the market adds to the unit of Debian's mosquitto."""
    limits = limits_of(tree)
    return (
        "# Made by `cogmaula market`. The limits of the broker.\n"
        f"[Service]\nExecStartPre=-/bin/sh {ETC}/check_database.sh\nLimitNOFILE={limits.files}\nMemoryMax={2 * limits.memory // MIB}M\nRestart=always\nRestartSec=2\n"
    )
