"""The same market in containers of one machine: a file of compose, beside the images' own."""

from __future__ import annotations

import json

from .files import STATE
from .history_files import FILE, histories_of
from .node_files import login_folders
from .market_file import CLIENT, SQLITE, Tree

FIRST = """\
# Made by `cogmaula market`. The market in containers of one machine. Each has what /etc/market has on a machine of its own, read-only.
x-contained: &contained
  restart: unless-stopped
  read_only: true
  cap_drop: [ALL]
  security_opt: ["no-new-privileges:true"]

x-node: &node
  <<: *contained
  image: market-node
  build: {context: ., target: node}
  stdin_open: true
  depends_on: [@host@]

services:
  # Its name is the one by which nodes know it.
  @host@:
    <<: *contained
    image: market-broker
    build: {context: ., target: broker}
    volumes: ["./broker:/etc/market:ro", "broker:/var/lib/mosquitto"]
    tmpfs: ["/run/mosquitto:mode=1777", "/tmp:mode=1777"]
"""
CLIENTS = """
  client:
    <<: *contained
    restart: "no"
    image: market-broker
    profiles: [client]
    entrypoint: []
    volumes: ["./broker/ca.crt:/etc/market/ca.crt:ro"@clients@]
"""
NODE = """
  @service@:
    <<: *node
    command: [@sort@, --config, /etc/market/@name@.toml]
    volumes: ["./@name@:/etc/market:ro", "@name@:/var/lib/market"]
"""
SITE = """
  @service@:
    <<: *node
    entrypoint: [cogmaula, site]
    command: [/etc/market/@name@.toml]
    volumes: ["./@name@:/etc/market:ro", "@name@:/var/lib/market"]
"""
HISTORY = """
  @service@:
    <<: *node
    entrypoint: [cogmaula, history]
    command: [--config, /etc/market/@name@.toml, --to, @url@]
    volumes: ["./@name@:/etc/market:ro", "@name@:/var/lib/market"]
"""


def _names_of(tree: Tree) -> list[str]:
    """The names of what has a service beside the broker."""
    sites, histories = (site.name for site in tree.sites), (history.name for history in histories_of(tree))
    return [*(member.name for member in tree.alone), *sites, *histories]


def services_of(tree: Tree) -> dict[str, str]:
    """The service of each node, site and history: its name, with node- before it if the broker, the client or another service has that.
    A node of a site has no service of its own."""
    taken, found = {tree.broker.host, CLIENT}, {}
    for name in _names_of(tree):
        own = name
        while own in taken:
            own = f"node-{own}"
        taken.add(own)
        found[name] = own
    return found


def compose_text(tree: Tree) -> str:
    """The file of compose. The broker's service has the name by which nodes know it, which is what podman-compose takes too."""
    text = FIRST.replace("@host@", json.dumps(tree.broker.host))
    services, histories = services_of(tree), histories_of(tree)
    for member in tree.alone:
        text += NODE.replace("@service@", services[member.name]).replace("@name@", member.name).replace("@sort@", member.sort)
    for site in tree.sites:
        text += SITE.replace("@service@", services[site.name]).replace("@name@", site.name)
    for history in histories:
        url = f"sqlite:///{STATE}/{FILE}" if history.database == SQLITE else str(history.database)
        text += HISTORY.replace("@service@", services[history.name]).replace("@name@", history.name).replace("@url@", json.dumps(url))
    clients = "".join(f', "./{folder}:/etc/clients/{folder}:ro"' for folder in login_folders(tree))
    text += CLIENTS.replace("@clients@", clients)
    volumes = ["broker", *_names_of(tree)]
    return text + "\nvolumes:\n" + "".join(f"  {name}:\n" for name in volumes)
