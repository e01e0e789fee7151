"""The unit of a market's history. Its login at the broker may only read."""

from __future__ import annotations

from string import Template
from urllib.parse import urlsplit

from .files import ETC, Places, text_of
from .market_file import SQLITE, Login, Tree

# The file of SQLite, in the folder that the unit keeps.
FILE = "market.db"


def histories_of(tree: Tree) -> list[Login]:
    """The logins that keep a history."""
    return [login for login in tree.logins if login.database is not None]


def url_of(login: Login, places: Places) -> str:
    """The database of a history."""
    return f"sqlite:///{places.state(login.name)}/{FILE}" if login.database in (None, SQLITE) else str(login.database)


def has_server(login: Login) -> bool:
    """Whether its database is a server, which has passwords in a file of libpq."""
    return urlsplit(login.database or "").scheme == "postgresql"


def history_unit_of(login: Login) -> str:
    """The name of a history's unit."""
    return f"market-history-{login.name}"


def history_unit_text(tree: Tree, login: Login, places: Places) -> str:
    """A history's unit."""
    # A per cent sign in a unit begins a specifier of systemd.
    url = url_of(login, places).replace("%", "%%")
    pgpass = f"LoadCredential=pgpass:{ETC}/{login.name}.pgpass\nEnvironment=PGPASSFILE=%d/pgpass\n"
    words = {
        "what": f"History {login.name} of a market",
        "name": login.name,
        "command": f"{tree.market.command} history --config {ETC}/{login.name}.toml --password-file %d/password --to {url}",
        "credentials": f"LoadCredential=password:{ETC}/{login.name}.password\n" + (pgpass if has_server(login) else ""),
        "memory": "256M",
        "tasks": "32",
        "files": "",
        "patience": "5",
        "told": "",
        # A server on the same machine starts first. On another one there is no such unit, and systemd waits for none.
        "after": " postgresql.service" if has_server(login) else "",
        "ends": "2",
    }
    return Template(text_of("unit.service")).substitute(words)


def history_install_text(login: Login) -> str:
    """What the script of a login does more if it keeps a history."""
    unit = history_unit_of(login)
    pgpass = f"{ETC}/{login.name}.pgpass"
    first = f"[ -e {pgpass} ] || install -m 600 /dev/null {pgpass}\n" if has_server(login) else ""
    return first + (
        f"install -m 644 {unit}.service /etc/systemd/system\nsystemctl daemon-reload\nsystemctl enable {unit}\nsystemctl restart {unit}\n"
    )


def history_command(tree: Tree, login: Login, places: Places) -> str:
    """What to run for a history on a market's one machine."""
    return f"cogmaula history --config {places.etc(login.name)}/{login.name}.toml --to {url_of(login, places)}"
