"""The files of the front of a market's broker: haproxy, which ends TLS and lets a login through.

A broker holds a place for each connection until it has logged in, for ninety seconds. The front
gives a connection `PATIENCE` seconds to finish TLS and to send a whole CONNECT, and bounds the
connections and their rate by address, so silent ones take no place of the broker.
"""

from __future__ import annotations

from dataclasses import dataclass

from .files import ETC, Places
from .market_file import CONTROL, Tree

# The seconds that a connection has for TLS and its CONNECT.
PATIENCE = 5
# The seconds over which connections of an address are counted.
PERIOD = 10
# Where the broker's sockets are on a machine of its own: Debian's unit of mosquitto makes it.
RUN = "/run/mosquitto"
# The longest name of a socket, in bytes.
LONGEST_SOCKET = 100
# The login that a CONNECT has.
LOGIN = "req.payload(0,0),mqtt_field_value(connect,username)"
# What the front has beside one connection for each that the broker takes.
SPARE, SHARE = 1_024, 4


@dataclass(frozen=True)
class Door:
    """A listener of the front, with one of its own at the broker.

    name:        `nodes`, which also has operators and readers, or `controls`
    port:        at which it listens
    logins:      how many logins may come through it
    per_address: the most connections of one address at once, and the most new ones in `PERIOD`
    """

    name: str
    port: int
    logins: int
    per_address: int


def doors_of(tree: Tree) -> list[Door]:
    """The listeners of the front."""
    logins = list(tree.rights())
    controls = sum(login.endswith(CONTROL) for login in logins)
    numbers = {"nodes": len(logins) - controls, "controls": controls}
    ports = {"nodes": tree.broker.port, "controls": tree.broker.port_of_controls}
    # A site of many devices may come from one address, all at once, and again.
    most = tree.broker.per_address
    return [
        Door(name, ports[name], number, most or max(64, 2 * number))
        for name, number in numbers.items()
    ]


def socket_of(places: Places, door: Door) -> str:
    """The socket at which the broker listens for those of a door."""
    folder = places.state("broker") if places.here else RUN
    return f"{folder}/{door.name}.sock"


_FIRST = """\
# Made by `cogmaula market`. The front of the broker: TLS, and bounds for each address.
# A connection has {patience} s for TLS and a whole CONNECT. Then the broker's keepalive watches it.
global
    maxconn {most}
    log stdout format raw local0 info
    ssl-default-bind-options ssl-min-ver TLSv1.2

defaults
    mode tcp
    log global
    log-format "%ci %ft login %[var(sess.login)] %ts %Tt ms %U up %B down"
    timeout connect {patience}s
    timeout client {patience}s
    timeout server {patience}s
    timeout tunnel 1d
"""
_DOOR = """
frontend {name}
    bind {address}:{port} ssl crt {etc}/front.pem
    maxconn {most}
    stick-table type ipv6 size 100k expire 1m store conn_cur,conn_rate({period}s)
    tcp-request connection track-sc0 src
    tcp-request connection reject if {{ sc0_conn_cur gt {per_address} }}
    tcp-request connection reject if {{ sc0_conn_rate gt {per_address} }}
    tcp-request inspect-delay {patience}s
    acl is_whole req.payload(0,0),mqtt_is_valid
    acl is_control {login} -m end {control}
    acl is_named {login} -m found
    tcp-request content set-var(sess.login) {login} if is_whole is_named
    tcp-request content reject if is_whole {other}is_control
    tcp-request content accept if is_whole
    tcp-request content reject
    default_backend {name}

backend {name}
    server broker unix@{socket}
"""


def front_text(tree: Tree, places: Places, connections: int) -> str:
    """The configuration of the front of a broker that takes so many connections at each door."""
    doors, etc = doors_of(tree), places.etc("broker") if places.here else ETC
    most = SHARE * connections + SPARE
    text = _FIRST.format(patience=PATIENCE, most=2 * most * len(doors))
    for door in doors:
        other = "!" if door.name == "controls" else ""
        address = tree.broker.host if places.here else "*"
        text += _DOOR.format(
            name=door.name,
            address=address,
            port=door.port,
            etc=etc,
            most=most,
            period=PERIOD,
            per_address=door.per_address,
            patience=PATIENCE,
            control=CONTROL,
            login=LOGIN,
            other=other,
            socket=socket_of(places, door),
        )
    return text


def front_unit_text(connections: int) -> str:
    """The unit of the front, which runs as the broker's user, whose own its sockets are."""
    return f"""\
# Made by `cogmaula market`. The front of the broker.
[Unit]
Description=The front of a market's broker
Documentation=man:cogmaula(1)
Wants=network-online.target
After=network-online.target mosquitto.service
StartLimitIntervalSec=0

[Service]
Type=notify
ExecStart=/usr/sbin/haproxy -Ws -f {ETC}/haproxy.cfg
User=mosquitto
Restart=always
RestartSec=2
LimitNOFILE={8 * (SHARE * connections + SPARE)}
NoNewPrivileges=yes
ProtectSystem=strict
ProtectHome=yes
PrivateTmp=yes
PrivateDevices=yes
RestrictAddressFamilies=AF_INET AF_INET6 AF_UNIX

[Install]
WantedBy=multi-user.target
"""
