"""The units that are made for each node, for a site and for a history, beside the settings that are made for it and those that a page shows."""

from __future__ import annotations

import tomllib
from dataclasses import replace
from pathlib import Path

import pytest
from made import TREE
from units import Unit, block_of

from cogmaula.deploy import Login, read_tree, site_files
from cogmaula.deploy.files import Places
from cogmaula.deploy.history_files import histories_of, history_unit_of, history_unit_text
from cogmaula.deploy.node_files import folders_of, login_text, settings_text, unit_of, unit_text
from cogmaula.deploy.site_plan import SitePlan
from cogmaula.live.site.site_settings import site_settings_of

TOLD = read_tree(TREE)
WITH_PAGE = replace(TOLD, members=tuple(replace(member, page={"listen": "127.0.0.1:8080", "whole": True}) for member in TOLD.members))


def unit_and_settings(tree, name):
    member = tree.member(name)
    unit = Unit(unit_text(tree, member), f"{unit_of(member)}.service")
    return unit, tomllib.loads(settings_text(tree, member, Places(Path("out"), False)))


@pytest.mark.parametrize("tree", [TOLD, WITH_PAGE], ids=["without a page", "with a page"])
@pytest.mark.parametrize("name", [member.name for member in TOLD.members])
def test_a_unit_can_write_and_read_what_its_node_needs(tree, name):
    unit, settings = unit_and_settings(tree, name)
    unit.require(settings)
    assert ("page" in settings) == any(credential.startswith("page:") for credential in unit.all("LoadCredential"))


def test_the_unit_of_a_site_hands_over_all_its_passwords():
    """That of the site's login, and one of each page."""
    site = SitePlan("block", ("street", "house"))
    tree = replace(WITH_PAGE, sites=(site,))
    unit = Unit(site_files.unit_text(tree, site, folders_of(tree)["block"]), f"{site_files.unit_of(site)}.service")
    tables = tomllib.loads(site_files.settings_text(tree, site, Places(Path("out"), False)))
    unit.require({part: tables[part] for part in ("site", "broker")})
    for name in site.nodes:
        unit.require({"page": tables["nodes"][name]["page"]})
    assert len(unit.options) == 3
    settings = site_settings_of(tables).with_passwords_in("/run/x")
    found = {settings.broker.password_file} | {file for node in settings.nodes for file in (node.broker.password_file, node.page.password_file)}
    assert found == {f"/run/x/{name}.password" for name in ("block", "street.page", "house.page")}


def test_a_unit_can_write_a_recording():
    unit_and_settings(TOLD, "street")[0].require(block_of("JUDGE.md", "[node]"))


@pytest.mark.parametrize(
    ("database", "due"),
    [
        ("sqlite", "sqlite:////var/lib/market/history/market.db"),
        ("postgresql://market@db.example/market%20one", "postgresql://market@db.example/market%%20one"),
    ],
)
def test_the_unit_of_a_history_hands_over_what_it_reads_and_can_write_its_file(database, due):
    tree = replace(TOLD, logins=(Login("history", "reader", database=database),))
    (login,) = histories_of(tree)
    places = Places(Path("out"), False)
    unit = Unit(history_unit_text(tree, login, places), f"{history_unit_of(login)}.service")
    unit.require(tomllib.loads(login_text(tree, "history", places)))
    (command,) = unit.all("ExecStart")
    assert command.endswith(f" history --config /etc/market/history.toml --password-file %d/password --to {due}")
    file = due.removeprefix("sqlite:///")
    assert database != "sqlite" or any(file.startswith(f"{folder}/") for folder in unit.state)
    assert (database == "sqlite") == (not unit.all("Environment"))
    assert unit.all("Environment") in ([], ["PGPASSFILE=%d/pgpass"])
    assert ("postgresql.service" in " ".join(unit.all("After"))) == (database != "sqlite")
    # It says once that it works, and has no loop that a watchdog could look at.
    assert (unit.all("Type"), unit.all("WatchdogSec")) == (["notify"], [])
    rights = tree.rights()["history"]
    assert rights and all(right.access == "read" for right in rights)
