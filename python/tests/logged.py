"""A log whose lines a test takes, each as a command would show it. Its records go to pytest's `caplog` too."""

from __future__ import annotations

import logging

from cogmaula.logs import LineFormatter, NodeLog


class _Taken(logging.Handler):
    def __init__(self, take, own):
        super().__init__()
        self._take = take
        self.setFormatter(LineFormatter("", own))

    def emit(self, record):
        self._take(self.format(record))


def log_to(take, own=""):
    """A log that gives each line to a call. The lines of other nodes than `own` begin with their name."""
    logger = logging.Logger("test", logging.INFO)
    logger.parent = logging.getLogger()
    logger.addHandler(_Taken(take, own))
    return NodeLog(logger, own)


# A log that nobody reads.
QUIET = log_to(lambda _: None)
