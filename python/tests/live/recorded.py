"""Markets of real nodes and services that record, over a connection in memory; and recordings that a test changes by lines."""

from __future__ import annotations

import gzip
import json
import os
from pathlib import Path

from brokers import wait_until
from logged import log_to
from markets import BASIS, PLACES, STEPS, Control
from pretended import PretendedLink, turn

from cogmaula import clock
from cogmaula.live.node import compressing
from cogmaula.live.broker.broker_link import Arrived, Message
from cogmaula.live.messages.frames import READS, WRITES, frame_of
from cogmaula.live.node.node import Node
from cogmaula.live.node.recording import numbered_files
from cogmaula.live.node.node_settings import Settings


def matches(topic, pattern):
    """Whether a topic is one of a pattern, in which + stands for a level."""
    one, other = topic.split("/"), pattern.split("/")
    return len(one) == len(other) and all(part in (level, "+") for level, part in zip(one, other, strict=True))


class Post:
    """What joins the nodes in place of a broker: it retains the newest message of each topic, and delivers at once."""

    def __init__(self):
        self.retained, self.links = {}, []

    def take(self, publication):
        self.retained[publication.topic] = publication
        for link in self.links:
            self.deliver(link, publication, False)

    def deliver(self, link, publication, retained):
        if any(matches(publication.topic, topic) for topic in link.topics):
            message = Message(publication.topic, publication.payload, dict(publication.properties), retained)
            link.inbox[publication.topic] = message
            link.notify(Arrived())


class PostLink(PretendedLink):
    """A node's connection to the post. All that it publishes is confirmed at once."""

    def __init__(self, post, notify, log):
        super().__init__(notify, log)
        self.post, self.confirms = post, True

    def publish(self, publication):
        super().publish(publication)
        if self.is_settled:
            self.post.take(publication)

    def connects(self):
        self.post.links.append(self)
        for publication in self.post.retained.values():
            self.post.deliver(self, publication, True)
        self.settles()


class RecordedMarket:
    """Nodes at their places, worked by the test's one thread. Their recordings are in `recordings`."""

    def __init__(self, folder, live, places=PLACES, post=None):
        self.folder, self.live, self.places, self.recordings = folder, live, places, folder / "recordings"
        self.post, self.nodes, self.controls, self.said = post or Post(), {}, {}, []

    def start(self, *names, **more):
        for name in names:
            sort, parent, child = self.places[name]
            told = {"sort": sort, "name": name, "state": str(self.folder / name), "basis": BASIS, "live": self.live, "pause": 0.01}
            settings = Settings(**{**told, "parent": parent, "child": child, "record": str(self.recordings), **more})
            control = self.controls[name] = Control() if sort == "device" else None
            links = []
            make_link = lambda *arguments, made=links: made.append(PostLink(self.post, *arguments)) or made[0]  # noqa: E731
            node = self.nodes[name] = Node(settings, control, log_to(self.said.append), make_link)
            links[0].start(node._subscriptions(), None, node._marker)
            if control is not None:
                control.start(lambda data, node=node: node.serving.offers.take(data, clock.now()), log_to(self.said.append))
            links[0].connects()
        return self

    def turns(self):
        for node in self.nodes.values():
            turn(node)

    def until(self, holds, what):
        def turned():
            self.turns()
            return holds()

        wait_until(turned, f"{what}: {self.said}")

    def offers(self, **demands):
        for name, offered in demands.items():
            self.controls[name].offers(offered)

    def settles_at(self, step, **powers):
        def holds():
            return all(self.controls[device].has(step=step, power=power) for device, power in powers.items())

        self.until(holds, f"step {step}, {powers}")

    def leaves(self, name):
        """Lets a device leave, until its parent has heard that."""
        topic = self.nodes[name].settings.own_topic("bid")
        self.controls[name].offer(b'{"leave": true}')
        self.until(lambda: self.post.retained[topic].payload[:1] == b"\x03", f"{name} leaves")

    def kill_service(self, name):
        before = self.nodes[name].serving.service
        before.kill()
        self.until(lambda: self.nodes[name].serving.service not in (None, before), f"{name} starts anew")

    def kill(self, name):
        """Ends a node as SIGKILL does: nothing is written any more."""
        node = self.nodes.pop(name)
        self.post.links.remove(node._link)
        node.serving.service.kill()
        node._store.close()

    def stop(self, *names):
        for name in names or list(self.nodes):
            node = self.nodes.pop(name)
            self.post.links.remove(node._link)
            node.serving.end("stopped")
            node._store.close()


def single(line):
    """A line as lines of one frame each, which is the other form of one that has several."""
    told = json.loads(line)
    if "frames" not in told:
        return [line]
    return [json.dumps({"at": told["at"], "what": told["what"], "frame": frame}).encode() for frame in told["frames"]]


class Lines:
    """The recordings of a folder as lines of one frame each that a test looks up, changes and writes back."""

    def __init__(self, folder, places=PLACES, steps=STEPS):
        self.folder, self.places, self.steps = Path(folder), places, steps
        self.files = {name: [one for line in data.split(b"\n")[:-1] for one in single(line)] for name, data in contents_of(folder).items()}

    def of(self, node, what, name="", **fields):
        """The places of a node's lines of this word, and if a name is given of frames of this name with these fields."""

        def is_one(file, at):
            if self.told(file, at)["what"] != what or not name:
                return self.told(file, at)["what"] == what
            frame = self.frame(file, at)
            return type(frame).__name__ == name and all(getattr(frame, of) == due for of, due in fields.items())

        files = [file for file in self.files if file.startswith(f"{node}.")]
        return [(file, at) for file in files for at in range(len(self.files[file])) if is_one(file, at)]

    def told(self, file, at):
        return json.loads(self.files[file][at])

    def frame(self, file, at):
        told = self.told(file, at)
        sort = self.places[file.split(".")[0]][0]
        return frame_of(bytes.fromhex(told["frame"]), (READS if told["what"] == "in" else WRITES)[sort], self.steps)

    def change(self, file, at, **members):
        self.files[file][at] = json.dumps({**self.told(file, at), **members}).encode()
        return self

    def change_frame(self, file, at, frame):
        return self.change(file, at, frame=frame.to_bytes().hex())

    def drop(self, file, at):
        del self.files[file][at]
        return self

    def insert(self, file, at, **members):
        self.files[file].insert(at, json.dumps({"at": "2026-01-31T06:30:00.000000Z", **members}).encode())
        return self

    def write(self):
        for path in self.folder.iterdir():
            path.unlink()
        for file, lines in self.files.items():
            (self.folder / file).write_bytes(b"".join(line + b"\n" for line in lines))
        return self.folder


def contents_of(folder):
    """What each file of a folder has, also those that are compressed, by their names without `.gz`."""
    wait_until(compressing.is_idle, "all files that have ended are compressed")
    read = {True: gzip.decompress, False: bytes}
    found = {path.name.removesuffix(".gz"): read[path.suffix == ".gz"](path.read_bytes()) for path in Path(folder).iterdir()}
    return dict(sorted(found.items()))


def files_of(folder, node):
    """The names of a node's files, without `.gz`."""
    wait_until(compressing.is_idle, "all files that have ended are compressed")
    return [path.name.removesuffix(".gz") for _, path in numbered_files(Path(folder), node)]


def descriptors():
    """How many files this process has open."""
    return len(os.listdir("/proc/self/fd"))
