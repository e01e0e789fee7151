"""A market that `cogmaula market init` made for this machine, with its broker, and clients by its logins."""

from __future__ import annotations

import subprocess
import threading
from dataclasses import replace

from brokers import MOSQUITTO, TOP, free_port, wait_until
from logged import log_to
from markets import Control

from cogmaula.deploy import init_market, read_tree
from cogmaula.live import LiveError, make_node, read_toml, settings_of

TREE = TOP / "examples" / "live" / "TREE.toml"


def tree_here(port, path=TREE, **broker):
    """The tree of a file, for this machine alone."""
    tree = read_tree(path)
    return replace(tree, market=replace(tree.market, here=True), broker=replace(tree.broker, host="127.0.0.1", port=port, **broker))


class MadeMarket:
    """The market of the example. What a node says is in `said`; what the broker says, in full, in `log`."""

    def __init__(self, folder, path=TREE, **broker):
        self.out, self.port = folder / "market", free_port()
        self.tree = tree_here(self.port, path, **broker)
        init_market(self.tree, self.out)
        self.nodes, self.controls, self.said, self.threads, self.raised = {}, {}, {}, {}, {}
        self.clients = []

    def __enter__(self):
        configuration = self.out / "broker" / "mosquitto.conf"
        with open(self.out / "said", "wb") as said:
            self.process = subprocess.Popen([MOSQUITTO, "-v", "-c", str(configuration)], stdout=said, stderr=said)
        wait_until(lambda: "running" in self.log, "mosquitto runs")
        return self

    def __exit__(self, *_):
        for client in self.clients:
            client.disconnect()
            client.loop_stop()
        for node in self.nodes.values():
            node.stop()
        for thread in self.threads.values():
            thread.join(30)
        self.process.terminate()
        self.process.wait()

    @property
    def log(self):
        return (self.out / "said").read_text()

    def start(self, name, live, **more):
        """Starts a node by the file that was made for it."""
        sort = next(member.sort for member in read_tree(self.out / "tree.toml").members if member.name == name)
        settings = settings_of(sort, {**read_toml(self.out / name / f"{name}.toml")})
        children = tuple(replace(child, pause=0.05) for child in settings.children)
        settings = replace(settings, live=live, pause=0.05, children=children, **more)
        control = self.controls[name] = Control() if sort == "device" else None
        said = self.said[name] = []
        node = self.nodes[name] = make_node(settings, control, log_to(said.append))
        self.threads[name] = threading.Thread(target=self._run, args=(name, node), daemon=True)
        self.threads[name].start()
        wait_until(lambda: node.serving.service is not None or name in self.raised, f"{name} is up: {said}")

    def _run(self, name, node):
        try:
            node.run()
        except LiveError as error:
            self.raised[name] = str(error)

    def client(self, login, folder=None, client_id=""):
        """A client of the broker by one login. What it reads is in its `read`, as pairs of a topic and the bytes."""
        import paho.mqtt.client as mqtt

        first = (mqtt.CallbackAPIVersion.VERSION1,) if hasattr(mqtt, "CallbackAPIVersion") else ()
        # Of the second version that paho knows: a refusal in the newest one ends its thread.
        one = mqtt.Client(*first, client_id=client_id, protocol=mqtt.MQTTv311)
        one.read, one.ends = [], []
        one.username_pw_set(login, (self.out / (folder or login) / f"{login}.password").read_text().strip())
        one.tls_set(str(self.out / "authority" / "ca.crt"))
        one.on_message = lambda _client, _data, message: one.read.append((message.topic, message.payload))
        one.on_disconnect = lambda _client, _data, code, *_: one.ends.append(str(code))
        # A device and a control may not subscribe to #.
        topics = [right.topic for right in read_tree(self.out / "tree.toml").rights()[login] if right.access != "write"]
        one.on_connect = lambda client, *_: client.subscribe([(topic, 1) for topic in ["#", *topics]])
        subscribed = threading.Event()
        one.on_subscribe = lambda *_: subscribed.set()
        one.connect("127.0.0.1", read_tree(self.out / "tree.toml").port_of(login))
        one.loop_start()
        assert subscribed.wait(30), f"{login} cannot connect: {self.log}"
        self.clients.append(one)
        return one
