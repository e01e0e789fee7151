"""The scripts that put a folder's files on its machine. Each may run again: after a change it does what is new."""

from __future__ import annotations

from collections.abc import Iterable

from .broker_version import LEAST_TEXT
from .files import ETC

# The clients of mosquitto, each of which reads a file of its name.
CLIENTS = ("mosquitto_pub", "mosquitto_sub")

_FIRST = """\
#!/bin/sh
# Made by `cogmaula market`. {what} To be run as root; it may run again.
set -e
cd "$(dirname "$0")"
install -d -m 755 {etc}
"""

_BROKER = """\
version="$(PATH="$PATH:/usr/sbin" mosquitto -h | sed -n 's/^mosquitto version //p')"
if [ "$(printf '%s\\n' {least} "$version" | sort -V | head -n 1)" != {least} ]
then
    echo "mosquitto is $version, and a market needs {least} or later" >&2
    exit 1
fi
install -m 644 ca.crt broker.crt check_database.sh {etc}
install -m 600 -o mosquitto {secret} {etc}
# Where the plugin is depends on the processor.
sed -i "s|^plugin .*|plugin $(ls /usr/lib/*/mosquitto_dynamic_security.so | head -n 1)|" mosquitto.conf
# A mosquitto that finds a place to keep its data twice does not start.
sed -i '/^persistence_location/d' /etc/mosquitto/mosquitto.conf
install -d -m 755 /etc/systemd/system/mosquitto.service.d
if cmp -s mosquitto.conf /etc/mosquitto/conf.d/market.conf && cmp -s mosquitto.service.conf /etc/systemd/system/mosquitto.service.d/market.conf
then
    # Logins and rights alone are new: no connection ends.
    systemctl reload-or-restart mosquitto
else
    install -m 644 mosquitto.conf /etc/mosquitto/conf.d/market.conf
    install -m 644 mosquitto.service.conf /etc/systemd/system/mosquitto.service.d/market.conf
    systemctl daemon-reload
    systemctl enable mosquitto
    systemctl restart mosquitto
fi
"""
_FRONT = """\
command -v haproxy >/dev/null || {{ echo "there is no haproxy, the front of the broker: install the package haproxy" >&2; exit 1; }}
if ! cmp -s haproxy.cfg {etc}/haproxy.cfg || ! systemctl is-active --quiet market-front
then
    install -m 644 haproxy.cfg {etc}
    install -m 644 market-front.service /etc/systemd/system
    systemctl daemon-reload
    systemctl enable market-front
    systemctl restart market-front
fi
"""


def broker_text(has_front: bool) -> str:
    """The script of the broker's folder, with the front if it has one."""
    secret = "broker.key passwords mosquitto.acl subscriptions.json" + (" front.pem" if has_front else "")
    first = _FIRST.format(what="Puts the broker's files on this machine, for Debian's mosquitto.", etc=ETC)
    return first + _BROKER.format(etc=ETC, secret=secret, least=LEAST_TEXT) + (_FRONT.format(etc=ETC) if has_front else "")


def unit_text(what: str, name: str, unit: str, logins: Iterable[str]) -> str:
    """The script of a node or a site, with the name of its unit and the logins whose passwords it has. `what` says what it is."""
    return _FIRST.format(what=f"Puts the files of the {what} {name} on this machine, and starts it.", etc=ETC) + (
        f"install -m 644 ca.crt {name}.toml {ETC}\n"
        f"install -m 600 {' '.join(f'{login}.password' for login in logins)} {ETC}\n"
        f"install -m 644 {unit}.service /etc/systemd/system\n"
        f"systemctl daemon-reload\nsystemctl enable {unit}\nsystemctl restart {unit}\n"
    )


def login_text(login: str) -> str:
    """The script of a login that is no node's."""
    return _FIRST.format(what=f"Puts the files of the login {login} on this machine.", etc=ETC) + (
        f"install -m 644 ca.crt {login}.toml {ETC}\ninstall -m 600 {login}.password {ETC}\n"
        f"install -d -m 700 {ETC}/{login}\ninstall -m 600 {' '.join(CLIENTS)} {ETC}/{login}\n"
    )
