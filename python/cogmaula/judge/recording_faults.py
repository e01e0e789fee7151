"""What is wrong with recordings, and where: a node, a file, a line, and in words why."""

from __future__ import annotations

from dataclasses import dataclass

from ..live.node.node_errors import LiveError


@dataclass(frozen=True)
class Fault:
    """The first thing that is wrong. The line counts from 1."""

    node: str
    file: str
    line: int
    why: str

    def __str__(self) -> str:
        return f"{self.file}:{self.line}: {self.node}: {self.why}"


class Faulty(LiveError):
    """The recordings are no run of a network. `fault` says where and why."""

    def __init__(self, fault: Fault) -> None:
        super().__init__(str(fault))
        self.fault = fault

    def __reduce__(self) -> tuple[type[Faulty], tuple[Fault]]:
        return type(self), (self.fault,)


class NoRecording(LiveError):
    """There is nothing to judge: no folder, or no recording in it. The message says which."""


class NoTrace(LiveError):
    """No trace of a cluster file can be made of recordings that are valid. The message says which rule is in the way."""
