"""Where the files of a market are, and how they are written."""

from __future__ import annotations

import os
from dataclasses import dataclass
from importlib.resources import files
from pathlib import Path

# The folders of a machine of a market.
ETC, STATE = "/etc/market", "/var/lib/market"
SECRET, OPEN, RUN = 0o600, 0o644, 0o755


@dataclass(frozen=True)
class Places:
    """The folders of the files of nodes, as the nodes themselves find them.

    out:  the folder that all is made in
    here: whether the files stay there
    """

    out: Path
    here: bool

    def etc(self, name: str) -> str:
        """The folder of what a node or the broker reads."""
        return str(self.out.resolve() / name) if self.here else ETC

    def state(self, name: str) -> str:
        """The folder of what a node or the broker keeps."""
        return str(self.out.resolve() / "state" / name) if self.here else f"{STATE}/{name}"


def write_file(path: Path, text: str, mode: int) -> None:
    """Writes a file whole, or leaves the one before. Raises OSError."""
    path.parent.mkdir(mode=0o700, parents=True, exist_ok=True)
    fresh = path.with_name(path.name + ".fresh")
    fresh.unlink(missing_ok=True)
    with open(os.open(fresh, os.O_WRONLY | os.O_CREAT | os.O_EXCL, mode), "w") as file:
        file.write(text)
        file.flush()
        os.fsync(file.fileno())
    os.chmod(fresh, mode)
    os.replace(fresh, path)


def text_of(name: str) -> str:
    """A file that lies beside this one, without its first lines that say what it is for."""
    return files("cogmaula.deploy").joinpath(name).read_text()
