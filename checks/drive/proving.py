"""Whether the order in which script/prove.py starts proofs leaves no processor idle, by a model of the proofs.

    python3 -m checks.drive.proving [PROCESSORS]

The model takes of each proof the seconds of script/seconds.txt. Half of them run on one processor, the rest on as many as it has jobs.
Processors go to the proofs of the highest priority first, and in equal parts to those of the same one. It knows nothing of memory and of libraries
that are read. The last line is 'N passed, M failed': a schedule passes if it takes at most a tenth more than what no
schedule can beat.
"""

import importlib.util
import sys
import tempfile
from dataclasses import dataclass, field
from pathlib import Path
from types import SimpleNamespace

from checks import TOP

# The part of a proof that takes one processor.
ALONE = 0.5
MOST_ABOVE = 1.1


@dataclass
class Crate:
    """A crate as script/prove.py knows it."""

    name: str
    deps: list["Crate"]
    all_below: list["Crate"] = field(init=False)

    def __post_init__(self):
        found = {}
        for dep in self.deps:
            found.update({below.name: below for below in dep.below()})
            found[dep.name] = dep
        self.all_below = list(found.values())

    def below(self):
        return self.all_below


@dataclass
class Proof:
    """A proof under way: the seconds that are left of its two parts."""

    crate: Crate
    jobs: int
    rank: int
    alone: float
    shared: float

    def most(self):
        """How many processors it can take now."""
        return 1 if self.alone > 0 else self.jobs


def crates_of(program):
    """The crates of a program, each behind those below it."""
    known = {}
    for line in (TOP / "crates.txt").read_text().splitlines():
        name, _, deps = line.partition("#")[0].partition(":")
        if name.strip():
            known[name.split()[0]] = Crate(name.split()[0], [known[word] for word in deps.replace(",", " ").split() if word in known])
    return [*known[program].below(), known[program]]


def shares(proofs, processors):
    """How many processors each proof has: first those of the highest priority, then the others, in equal parts."""
    given, left = [0.0] * len(proofs), float(processors)
    for rank in sorted({proof.rank for proof in proofs}):
        asking = {at for at, proof in enumerate(proofs) if proof.rank == rank}
        while asking and left > 1e-9:
            part = left / len(asking)
            for at in list(asking):
                more = min(part, proofs[at].most() - given[at])
                given[at] += more
                left -= more
                if proofs[at].most() - given[at] < 1e-9:
                    asking.remove(at)
    return given


def run(lanes, seconds, processors):
    """The seconds that the lanes take, and of each crate when it began."""
    now, proofs, begun = 0.0, [], {}
    while lanes.waiting or proofs:
        for crate, jobs, rank in lanes.choose():
            begun[crate.name] = now
            proofs.append(Proof(crate, jobs, rank, ALONE * seconds[crate.name], (1 - ALONE) * seconds[crate.name]))
        given = shares(proofs, processors)
        step = min((proof.alone or proof.shared) / part for proof, part in zip(proofs, given) if part > 0)
        now += step
        for proof, part in zip(proofs, given):
            if proof.alone > 0:
                proof.alone = max(0.0, proof.alone - step * part)
                proof.alone = proof.alone if proof.alone > 1e-6 else 0.0
            else:
                proof.shared -= step * part
        for proof in [proof for proof in proofs if proof.alone == 0 and proof.shared <= 1e-6]:
            proofs.remove(proof)
            lanes.end(proof.crate, True)
    return now, begun


def least_seconds(crates, seconds, processors):
    """What no schedule beats: for some crate all that is below it, by the processors, and then the longest chain from it to the top, each
    proof on as many processors as it can take."""
    chain = {crate.name: 0.0 for crate in crates}
    for crate in reversed(crates):
        chain[crate.name] += seconds[crate.name] * (ALONE + (1 - ALONE) / min(4, processors))
        for below in crate.below():
            chain[below.name] = max(chain[below.name], chain[crate.name])
    return max(sum(seconds[below.name] for below in crate.below()) / processors + chain[crate.name] for crate in crates)


def load_prove():
    """script/prove.py as a module."""
    sys.path.insert(0, str(TOP / "script"))
    spec = importlib.util.spec_from_file_location("prove", TOP / "script" / "prove.py")
    module = importlib.util.module_from_spec(spec)
    spec.loader.exec_module(module)
    return module


def leaves_no_link(kept):
    """Whether the links by which the kit's store saw the sources go, and nothing else: `rt fmt` and the gate refuse a crate with links."""
    with tempfile.TemporaryDirectory() as folder:
        crate = Path(folder) / "crates" / "some"
        (crate / "src").mkdir(parents=True)
        known = SimpleNamespace(folder=str(crate), name="some")
        seen = Path(kept.seen_by_kit(known).folder)
        had = (seen / "src").is_symlink()
        kept.remove_links(Path(folder) / "crates")
        return had and not (seen / "src").exists() and (crate / "src").is_dir()


def main(words):
    prove = load_prove()
    prove.free_memory = lambda: 1e12
    passed, failed = (1, 0) if leaves_no_link(prove.kept) else (0, 1)
    for processors in [int(word) for word in words] or [1, 2, 4, 8]:
        for program in prove.PROGRAMS:
            crates = crates_of(program)
            measured = prove.measured_seconds()
            seconds = {crate.name: measured.get(crate.name, 60.0) for crate in crates}
            took, begun = run(prove.Lanes(crates, seconds, processors, lambda _: 0), seconds, processors)
            bound = least_seconds(crates, seconds, processors)
            is_right = took <= MOST_ABOVE * bound and set(begun) == set(seconds)
            passed += is_right
            failed += not is_right
            print(f"{program} on {processors}: {took / 60:.1f} minutes, and no schedule takes less than {bound / 60:.1f}{'' if is_right else ': FAILED'}")
    print(f"{passed} passed, {failed} failed")
    return 1 if failed else 0


if __name__ == "__main__":
    sys.exit(main(sys.argv[1:]))
