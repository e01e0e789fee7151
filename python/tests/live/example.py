"""The broker of the example by the files that are made for it, but without TLS, and a market with the example's logins: each password is `word`."""

from __future__ import annotations

import subprocess
import threading
import time
from dataclasses import replace
from pathlib import Path

from brokers import SECONDS, TOP, Mosquitto, Onlooker, wait_until
from markets import Market

from cogmaula.deploy import Member as TreeMember
from cogmaula.deploy import read_tree
from cogmaula.deploy.broker_files import configuration_text, rights_text
from cogmaula.deploy.files import Places
from cogmaula.live.node.node_settings import children_of

# The words of the broker's file that are of TLS and of the machine.
OF_THE_MACHINE = ("listener", "cafile", "certfile", "keyfile", "persistence_location", "user root", "#")


def example_tree():
    """The example's tree, with a device more, which is child 2 of the auctioneer."""
    tree = read_tree(TOP / "examples" / "live" / "TREE.toml")
    return tree.with_device(TreeMember("device", "mill", "auctioneer"))


def example_broker(folder):
    """A broker by the files that are made of the example's tree, in a folder of the test."""
    folder, tree = Path(folder), example_tree()
    (folder / "passwords").write_text("".join(f"{right}:word\n" for right in tree.rights()))
    (folder / "passwords").chmod(0o600)
    subprocess.run(["mosquitto_passwd", "-U", str(folder / "passwords")], check=True, capture_output=True)
    (folder / "mosquitto.acl").write_text(rights_text(tree))
    (folder / "word").write_text("word\n")
    lines = configuration_text(tree, Places(folder, False)).splitlines()
    kept = [line.replace("/etc/market", str(folder)) for line in lines if line and not line.startswith(OF_THE_MACHINE)]
    return Mosquitto(folder / "broker", *kept, f"persistence_location {folder}/")


class ExampleMarket(Market):
    """Nodes of the example's market in threads of the test, each with its login."""

    def settings(self, name, **more):
        self.more = {"user": name, "password_file": str(self.folder / "word")}
        if name == "street":
            tree = example_tree()
            below = tree.children(name)
            children = children_of(
                {child.name: {"child": child.child, "sort": child.sort, "least": child.least, "greatest": child.greatest} for child in below}
            )
            more = {"children": tuple(replace(child, pause=0.1) for child in children), **more}
        return super().settings(name, **more)


class Member(Onlooker):
    """A client with a login of the example, which may give itself the name of any other."""

    def __init__(self, port, user, *topics, name=""):
        import paho.mqtt.client as mqtt

        self.newest, self.all, self.losses = {}, [], 0
        first = (mqtt.CallbackAPIVersion.VERSION1,) if hasattr(mqtt, "CallbackAPIVersion") else ()
        self.client = mqtt.Client(*first, client_id=name, protocol=mqtt.MQTTv5)
        self.client.username_pw_set(user, "word")
        self.client.on_connect = lambda client, *_: [client.subscribe(topic, 1) for topic in topics]
        self.client.on_message = self._take
        self.client.connect("127.0.0.1", port)
        self.client.loop_start()

    def __enter__(self):
        wait_until(self.client.is_connected, "the broker lets it in")
        return self

    def puts(self, topic, payload, properties=(), qos=0):
        """Publishes a message, and does not wait for an answer."""
        from paho.mqtt.packettypes import PacketTypes
        from paho.mqtt.properties import Properties

        told = Properties(PacketTypes.PUBLISH)
        if properties:
            told.UserProperty = list(properties)
        self.client.publish(topic, payload, qos, True, told)

    def floods(self, topic, payloads, rate, seconds, properties=(), qos=0):
        """Publishes these payloads in turn, so many a second, for so many seconds. Gives how many."""
        begin, count = time.monotonic(), 0
        while (now := time.monotonic()) < begin + seconds:
            while count < (now - begin) * rate:
                self.puts(topic, payloads[count % len(payloads)], properties, qos)
                count += 1
            time.sleep(0.002)
        return count


class Attack(threading.Thread):
    """Does something again and again, until it is ended."""

    def __init__(self, act, pause):
        super().__init__(daemon=True)
        self._act, self._pause, self._ended, self.count = act, pause, threading.Event(), 0
        self.start()

    def run(self):
        while not self._ended.wait(self._pause):
            self._act()
            self.count += 1

    def end(self):
        self._ended.set()
        self.join(SECONDS)
