#!/usr/bin/env python3
"""Runs several nodes of a market in one process: those of a site, each with a process of `live`. live_scale.py starts it.

    live_nodes.py [PROFILE]

The first line of standard input is JSON: the name of the site, and its nodes as `{"sort", "node", "basis", "broker"}`, the tables that a
file of settings has of each. Standard output has `up` once each node has its service. Then each line `figures` is answered by JSON: how
many bids the nodes were told, and which nodes have ended, and why. The nodes end when standard input does. Into the file PROFILE goes what took
how much of a processor from the first such line on.
"""

import json
import signal
import sys
import threading
import time
from pathlib import Path

# In the place of the folder of this script, whose profile.py hides that of Python.
sys.path[0] = str(Path(__file__).resolve().parent.parent / "python")

import cProfile  # noqa: E402

from cogmaula import logs  # noqa: E402
from cogmaula.live import settings_of  # noqa: E402
from cogmaula.live.children.child_manager import ChildManager  # noqa: E402
from cogmaula.live.node.node_errors import LiveError  # noqa: E402
from cogmaula.live.site.site import Site  # noqa: E402
from cogmaula.live.site.site_settings import SiteSettings  # noqa: E402

LAST_SECONDS = 20


class Nodes:
    """The site, its nodes, and what became of them."""

    def __init__(self, name, tables, profile):
        self.heard, self.ended = 0, {}
        self._file, self._profile, self._is_measured = profile, cProfile.Profile(time.thread_time), False
        self._count()
        settings = tuple(settings_of(table["sort"], table) for table in tables)
        self.site = Site(SiteSettings(name, settings[0].broker, settings), self._turned)
        self._nodes = dict(self.site.nodes)

    def _count(self):
        """Counts the bids that the nodes of the process are told."""
        take = ChildManager.take_bid

        def counted(letting, child, message, now):
            self.heard += 1
            take(letting, child, message, now)

        ChildManager.take_bid = counted

    def _turned(self):
        """Begins the profile, in the thread of the site."""
        if self._file is not None and self._is_measured:
            self._profile.enable()

    def are_up(self):
        """Whether each node has a service, or has ended."""
        return all(node.serving.service is not None or name not in self.site.nodes for name, node in self._nodes.items())

    def figures(self):
        """How many bids were heard, and who has ended."""
        ended = {name: "the lines say why" for name in self._nodes if name not in self.site.nodes}
        return {"heard": self.heard, "ended": ended | self.ended}

    def answer(self):
        """Answers standard input until it ends, and then ends the site."""
        while not self.are_up():
            time.sleep(0.1)
        print("up", flush=True)
        for line in sys.stdin:
            if line.strip() == "figures":
                self._is_measured = True
                print(json.dumps(self.figures()), flush=True)
        self.site.stop()

    def run(self):
        """Runs the site in this thread, until standard input ends."""
        threading.Thread(target=self.answer, daemon=True).start()
        try:
            self.site.run()
        except LiveError as error:
            self.ended["site"] = str(error)
            time.sleep(LAST_SECONDS)
        self._profile.disable()
        if self._file is not None:
            self._profile.dump_stats(self._file)


def main():
    logs.show("cogmaula site")
    told = json.loads(sys.stdin.readline())
    nodes = Nodes(told["name"], told["nodes"], sys.argv[1] if len(sys.argv) > 1 else None)
    signal.signal(signal.SIGTERM, lambda *_: nodes.site.stop())
    nodes.run()


if __name__ == "__main__":
    main()
