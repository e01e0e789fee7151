"""What was proved on this machine, kept by content for all clones.

`rt ci` keeps what it passed in a store of the kit, each crate by a sum of all that its proof read: the kit, HANDLES, the crate's files and
the libraries below as they were built. script/prove.py asks that store, and keeps what it proved itself in one of its own,
${XDG_CACHE_HOME:-~/.cache}/market/proved, by the kit's calls and the same sums. It writes nothing into the kit's store: what lies there
counts as passed by the gate. An entry whose files have other sums than it names counts for nothing.
"""

import copy
import os
import shutil
from pathlib import Path
from typing import Any

# What is called of the kit's store.
CALLS = ("key", "give", "keep", "made", "mark", "is_built", "is_whole", "shrink")

# The most that the store may hold, in bytes.
MOST = 4_000_000_000

# The parts of a crate that its proof reads.
PARTS = ("src", "specs", "proofs", "c")


def place() -> str:
    """The folder of the store."""
    return str(Path(os.environ.get("XDG_CACHE_HOME") or Path.home() / ".cache") / "market" / "proved")


def has_store(kit: Any) -> bool:
    """Whether this kit keeps what it proved, by the calls that are made here."""
    known = hasattr(kit, "STORE") and hasattr(kit, "STORE_MOST") and hasattr(kit, "Kept")
    return known and all(hasattr(kit.Kept, name) for name in CALLS)


def seen_by_kit(crate: Any) -> Any:
    """The crate as the kit's store sees it: with the same sources, and with what is built below out/prove."""
    seen = copy.copy(crate)
    seen.folder = f"{crate.folder}/out/prove"
    os.makedirs(f"{seen.folder}/out", exist_ok=True)
    for part in PARTS:
        if os.path.isdir(f"{crate.folder}/{part}") and not os.path.islink(f"{seen.folder}/{part}"):
            os.symlink(f"../../{part}", f"{seen.folder}/{part}")
    return seen


def remove_links(crates: Path) -> None:
    """Removes the links by which the kit's store saw the sources of these crates: other commands of the kit refuse links in a crate."""
    for part in PARTS:
        for path in crates.glob(f"*/out/prove/{part}"):
            if path.is_symlink():
                path.unlink(missing_ok=True)


class Stores:
    """The kit's store and that of `market prove`, for the crates of one run."""

    def __init__(self, kit: Any, crates: list[Any]) -> None:
        self.crates = {str(crate.name): seen_by_kit(crate) for crate in crates}
        seen = self.crates

        class Own(kit.Kept):  # type: ignore[misc]
            """The kit's store with another place. A program counts as whole without the build by Rattle's own compiler."""

            def mark(self, crate: Any) -> Any:
                return super().mark(seen[crate.name])

            def is_whole(self, crate: Any, tests: bool, files: list[str]) -> bool:
                return files == [crate.name] if crate.is_program else bool(super().is_whole(crate, tests, files))

        every = list(self.crates.values())
        self.passed = kit.Kept(every)
        kit.STORE, kit.STORE_MOST = place(), MOST
        self.own = Own(every)
        self.passed.rlibs = self.own.rlibs

    def note(self, crate: Any) -> None:
        """Takes note of the library that was built of a crate, for the sums of those above it."""
        self.own.is_built(self.crates[crate.name])

    def take(self, crate: Any) -> bool:
        """Gives the crate what was built of it by an earlier proof of the same, and returns whether there was one."""
        crate_seen = self.crates[crate.name]
        key = self.own.key(crate_seen)
        return bool(self.own.give(crate_seen, False, key) or self.passed.give(crate_seen, False, key))

    def keep(self, crate: Any) -> None:
        """Keeps what was proved just now of a crate, unless its files or those of a crate below changed meanwhile."""
        crate_seen = self.crates[crate.name]
        if all(below.name in self.own.marks for below in crate_seen.below()):
            self.own.keep(crate_seen, False, self.own.key(crate_seen))

    def shrink(self) -> None:
        """Removes what was not used for longest, until the store is within bounds."""
        self.own.shrink()


def stores_of(kit: Any, crates: list[Any]) -> Stores | None:
    """The stores for these crates, or None if the kit has no such store or no folder can be made."""
    try:
        return Stores(kit, crates) if has_store(kit) else None
    except OSError:
        return None


def clear(crate: Any) -> None:
    """Removes what an earlier run built below out/prove."""
    for name in ("out", f"{crate.name}.rlib"):
        shutil.rmtree(f"{crate.folder}/out/prove/{name}", ignore_errors=True)
    os.makedirs(f"{crate.folder}/out/prove/out/rlib")
