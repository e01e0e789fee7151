"""Finding a proved program, and what its statuses and lines become. Never does an unproved program run."""

from __future__ import annotations

import hashlib
import os
import pickle
import re
import shutil
import stat
import subprocess
import sys
from pathlib import Path

import pytest
from conftest import CASES, EXAMPLES, TOP

from cogmaula import Basis, Invalid, MarketError, NoProgram, OutOfMemory, Place, Program, ProgramFault, Refused, TooLong, Unreadable
from cogmaula.program import LIVE_VARIABLE, VARIABLE, found_program, live_at, live_command, live_program
from cogmaula.simulation import Manual, simulate

FILE = (EXAMPLES / "balance.json").read_bytes()
REPORT = (EXAMPLES / "balance.txt").read_bytes()


def script(path, text):
    """An executable file of this text."""
    path.write_text(text)
    path.chmod(path.stat().st_mode | stat.S_IXUSR)
    return path


def pretending(tmp_path, status, text=b"", said=""):
    """A program that ends with this status after this text."""
    (tmp_path / "text").write_bytes(text)
    return Program.find(
        script(tmp_path / "program", f"#!/bin/sh\ncat >/dev/null\ncat '{tmp_path}/text'\necho '{said}' >&2\nexit {status}\n")
    )


def test_a_question_keeps_to_one_processor(tmp_path):
    """Its threads take turns. What asks keeps its own processors, and questions one after another take all of them."""
    own = os.sched_getaffinity(0)
    program = Program.find(script(tmp_path / "program", "#!/bin/sh\ngrep Cpus_allowed_list /proc/self/status\n"))
    told = [program.answer(command, b"").split()[1] for command in ("run", "bill", "trace", "ask", "check") for _ in own]
    assert {int(one) for one in told} == own
    assert os.sched_getaffinity(0) == own
    # The threads of `free` share no lock.
    assert len(own) == 1 or not program.answer("free", b"").split()[1].isdigit()


# Where it is found.


def test_a_checkout(checkout):
    assert checkout.answer("run", FILE) == REPORT
    assert re.search(r": a (proved|prebuilt) program is at hand, proved (here|by the gate elsewhere) on ", checkout.found)
    for path in (TOP, TOP / "market", TOP / "crates/market/out/market", TOP / "prebuilt/x86_64-linux/market"):
        if path.exists():
            assert Program.find(path) == checkout


def test_the_variable(checkout, monkeypatch):
    monkeypatch.setenv(VARIABLE, str(TOP))
    assert Program.find() == checkout
    monkeypatch.setenv(VARIABLE, "/nowhere/market")
    with pytest.raises(NoProgram, match="/nowhere/market does not exist"):
        Program.find()
    # What is given comes first.
    assert Program.find(TOP) == checkout


def sources(folder):
    """A checkout without a program."""
    for part in ("script", "crates/market/src", "crates/live/src"):
        shutil.copytree(TOP / part, folder / part)
    for name in ("market", "crates.txt", "VERSION"):
        shutil.copy(TOP / name, folder / name)
    return folder


def unproved_checkout(folder):
    """A checkout with a program that its stamp does not vouch for."""
    out = sources(folder) / "crates/market/out"
    out.mkdir()
    script(out / "market", "#!/bin/sh\necho ran\n")
    return folder


def prebuilt_checkout(folder):
    """A checkout whose two programs are prebuilt, by stamps that vouch for them."""
    place = sources(folder) / "prebuilt/x86_64-linux"
    place.mkdir(parents=True)
    summed = 'top="$1" && . "$1/script/program.sh" && choose_program "$2" && sources_sum'
    for name in ("market", "live"):
        text = f"#!/bin/sh\necho {name} ran\n"
        done = subprocess.run(["bash", "-c", summed, "-", str(folder), name], capture_output=True, text=True, check=True)
        program = hashlib.sha256(script(place / name, text).read_bytes()).hexdigest()
        (place / f"{name}.stamp").write_text(f"sources: {done.stdout.strip()}\nprogram: {program}\nkit: kit-1\nlibc: 2.2\ndate: 2026-12-01\n")
    return folder


def test_a_prebuilt_program_of_the_sources(tmp_path, monkeypatch):
    folder = prebuilt_checkout(tmp_path / "checkout")
    place = folder / "prebuilt/x86_64-linux"
    found = Program.find(folder)
    assert found.path == str(place / "market")
    assert found.found.endswith(": a prebuilt program is at hand, proved by the gate elsewhere on 2026-12-01 with kit-1")
    assert found.answer("run", FILE) == b"market ran\n"
    assert Program.find(place / "market") == found
    # The program of the nodes.
    monkeypatch.setattr("cogmaula.program.__file__", str(folder / "python/cogmaula/program.py"))
    monkeypatch.delenv(LIVE_VARIABLE, raising=False)
    monkeypatch.delenv(VARIABLE)
    monkeypatch.setenv("PATH", "/usr/bin:/bin")
    assert live_command() == str(place / "live")
    monkeypatch.setenv(LIVE_VARIABLE, "/opt/live")
    assert live_command() == "/opt/live"
    monkeypatch.delenv(LIVE_VARIABLE)
    # Neither is run once the sources are others.
    with (folder / "crates/market/src/main.rt").open("a") as file:
        file.write("// An edit.\n")
    (folder / "crates/live/src/more.rt").touch()
    with pytest.raises(NoProgram, match="no program is proved here"):
        Program.find(place / "market")
    assert live_command() == "live"


@pytest.mark.parametrize("place", [".", "market", "prebuilt", "prebuilt/x86_64-linux", "prebuilt/x86_64-linux/market"])
def test_the_documented_install_can_simulate(checkout, place, tmp_path, monkeypatch):
    """The package is installed elsewhere, and COGMAULA_MARKET names a checkout or a folder: `live` is found beside the market.

    At price 8 the bid is 5 - 40/9 W, less than one.
    """
    pretend_installed(tmp_path, monkeypatch)
    monkeypatch.setenv(VARIABLE, str(TOP / place))
    assert Program.find() == checkout
    assert Path(live_program()).name == "live" and live_command() == live_program()
    assert simulate([Manual("a", [(0, 5), (9, 0)])], Basis(0, 9, 10), ticks=1).ends[0].price == 8


def pretend_installed(tmp_path, monkeypatch):
    """Only the environment may name a program."""
    monkeypatch.delenv(LIVE_VARIABLE, raising=False)
    monkeypatch.setenv("PATH", "/usr/bin:/bin")
    monkeypatch.setattr("cogmaula.program.__file__", str(tmp_path / "a/b/c/program.py"))
    found_program.cache_clear()


def test_programs_of_a_folder_of_ones_own(program, tmp_path, monkeypatch):
    """A folder with both programs, named for the market or for live; `live` also beside a program that is named by `program`."""
    pretend_installed(tmp_path, monkeypatch)
    monkeypatch.delenv(VARIABLE)
    shutil.copy(program.path, tmp_path / "market")
    with pytest.raises(NoProgram, match=f"no program live is at hand: no command live is on the PATH; there is no {tmp_path}/live; .*name it by --live"):
        live_program(Program.find(tmp_path))
    script(tmp_path / "live", "#!/bin/sh\n")
    assert Program.find(tmp_path).path == str(tmp_path / "market")
    assert live_program(Program.find(tmp_path)) == live_at(str(tmp_path)) == str(tmp_path / "live")
    monkeypatch.setenv(LIVE_VARIABLE, str(tmp_path))
    assert live_program() == str(tmp_path / "live")
    monkeypatch.delenv(LIVE_VARIABLE)
    with pytest.raises(NoProgram, match=f"{VARIABLE} is not set; no command market is on the PATH; the package lies in no checkout"):
        live_program()


def test_a_prebuilt_program_of_other_bytes(tmp_path):
    folder = prebuilt_checkout(tmp_path / "checkout")
    script(folder / "prebuilt/x86_64-linux/market", "#!/bin/sh\necho market Ran\n")
    with pytest.raises(NoProgram, match="no program is proved here"):
        Program.find(folder)


def test_no_unproved_program_is_run(tmp_path):
    folder = unproved_checkout(tmp_path / "checkout")
    for path in (folder, folder / "market", folder / "crates/market/out/market"):
        with pytest.raises(NoProgram, match="no program is proved here"):
            Program.find(path)
    (folder / "crates/market/out/proved").write_text("sources: 0\nprogram: 0\nstate: 0\n")
    with pytest.raises(NoProgram, match="the sources changed since they were proved"):
        Program.find(folder)


def test_a_checkout_on_the_path_is_looked_at_as_one(tmp_path, monkeypatch):
    folder = unproved_checkout(tmp_path / "checkout")
    monkeypatch.delenv(VARIABLE)
    monkeypatch.setenv("PATH", f"{folder}:{os.environ['PATH']}")
    monkeypatch.setattr("cogmaula.program.__file__", str(tmp_path / "a/b/c/program.py"))
    with pytest.raises(NoProgram, match="no program is proved here.*the package lies in no checkout"):
        Program.find()


def test_the_checkout_of_the_package(checkout, monkeypatch):
    monkeypatch.delenv(VARIABLE)
    monkeypatch.setenv("PATH", "/usr/bin:/bin")
    assert Program.find() == checkout


def test_another_command_of_the_name(tmp_path, monkeypatch):
    script(tmp_path / "market", "#!/bin/sh\necho ran\n")
    monkeypatch.delenv(VARIABLE)
    monkeypatch.setenv("PATH", f"{tmp_path}:/usr/bin:/bin")
    monkeypatch.setattr("cogmaula.program.__file__", str(tmp_path / "a/b/c/program.py"))
    with pytest.raises(NoProgram, match="is no installed market"):
        Program.find()


def installed_below(tmp_path, program):
    """The installed command and its program below a folder, as packaging/install.sh makes them below DESTDIR."""
    text = (TOP / "packaging/market.sh").read_text()
    for name, place in {"bindir": "/usr/bin", "libexecdir": "/usr/libexec", "datadir": "/usr/share", "docdir": "/usr/share/doc/market"}.items():
        text = text.replace(f"@{name}@", place)
    for folder in ("usr/bin", "usr/libexec/market"):
        (tmp_path / folder).mkdir(parents=True)
    shutil.copy(program.path, tmp_path / "usr/libexec/market/market")
    return script(tmp_path / "usr/bin/market", text)


def test_an_installed_command(program, tmp_path, monkeypatch):
    command = installed_below(tmp_path, program)
    monkeypatch.delenv(VARIABLE)
    monkeypatch.setenv("PATH", f"{command.parent}:/usr/bin:/bin")
    found = Program.find()
    assert found.path == str(tmp_path / "usr/libexec/market/market")
    assert "the installed command" in found.found
    assert found.answer("run", FILE) == REPORT
    assert Program.find(command) == found


def test_an_installed_command_without_its_program(program, tmp_path):
    command = installed_below(tmp_path, program)
    (tmp_path / "usr/libexec/market/market").unlink()
    with pytest.raises(NoProgram, match="is no program"):
        Program.find(command)


def test_a_program_that_changed_is_not_run(program, tmp_path):
    shutil.copy(program.path, tmp_path / "market")
    found = Program.find(tmp_path / "market")
    assert found.answer("run", FILE) == REPORT
    script(tmp_path / "market", "#!/bin/sh\necho ran\n")
    with pytest.raises(NoProgram, match="changed since it was found proved"):
        found.answer("run", FILE)
    (tmp_path / "market").unlink()
    with pytest.raises(NoProgram, match="changed since it was found proved"):
        found.answer("run", FILE)


def test_what_is_no_program(tmp_path):
    (tmp_path / "text").write_bytes(b"\xff")
    for path in (tmp_path, tmp_path / "text"):
        with pytest.raises(NoProgram, match="is no program"):
            Program.find(path)


def test_it_is_looked_for_once(program):
    assert found_program() is found_program()


# Statuses and lines.


def test_a_refusal(program):
    with pytest.raises(Refused) as refused:
        program.answer("run", (CASES / "refusals/17_rising_bid.json").read_bytes())
    assert (refused.value.code, refused.value.place, refused.value.item) == (17, Place("node", (1,)), 2)


def test_every_refusal_of_the_cases(program):
    for folder in ("refusals", "shape", "order"):
        for file in (CASES / folder).glob("*.json"):
            with pytest.raises(Refused) as refused:
                program.answer("run", file.read_bytes())
            assert refused.value.answer == file.with_suffix(".stdout").read_text().strip()


PATHS = {
    Place("document"): "",
    Place("basis"): "basis",
    Place("node", (2,)): "nodes[1]",
    Place("phase", (3,)): "phases[2]",
    Place("event", (3, 1)): "phases[2].events[0]",
    Place("line", (7,)): "",
}


@pytest.mark.parametrize("place", PATHS, ids=str)
def test_paths_of_places(place):
    assert place.path == PATHS[place]


def test_too_long(program):
    with pytest.raises(TooLong) as error:
        program.answer("run", b" " * 4_194_305)
    assert error.value.limit == 4_194_304


def test_an_invalid_trace(program):
    with pytest.raises(Invalid) as error:
        program.answer("check", (CASES / "check/bid_2.stdin").read_bytes())
    assert error.value.line == 7


def test_a_bad_frame(program):
    with pytest.raises(Refused, match="refused 24 frame 0"):
        program.answer("serve", b"\x09")


def test_words_that_are_no_command(program):
    with pytest.raises(ProgramFault, match="status 2: usage: market run"):
        program.answer("ran", b"")


@pytest.mark.parametrize(
    ("status", "text", "error", "words"),
    [
        (7, b"", OutOfMemory, "lacked memory"),
        (3, b"", ProgramFault, "run ended with status 3: words"),
        (5, b"refused\n", ProgramFault, "status 5"),
        (4, b"", ProgramFault, "status 4"),
        (1, b"valid moves 1\n", ProgramFault, "status 1"),
    ],
)
def test_other_statuses(tmp_path, status, text, error, words):
    with pytest.raises(error, match=words):
        pretending(tmp_path, status, text, said="words").answer("run", FILE)


def test_a_program_that_is_ended(tmp_path):
    found = Program.find(script(tmp_path / "program", "#!/bin/sh\nkill -9 $$\n"))
    with pytest.raises(ProgramFault, match="ended by signal 9"):
        found.answer("run", b"")


def test_a_program_that_does_not_end(tmp_path):
    found = Program.find(script(tmp_path / "program", "#!/bin/sh\nexec sleep 60\n"))
    with pytest.raises(ProgramFault, match="did not end within 0.2 seconds"):
        found.answer("run", b"", timeout=0.2)


def test_a_program_that_cannot_be_started(tmp_path):
    found = Program.find(script(tmp_path / "program", "#!/nowhere/sh\n"))
    with pytest.raises(ProgramFault, match="cannot be started"):
        found.answer("run", b"")


@pytest.mark.parametrize(
    "error",
    [Refused(17, Place("node", (1,)), 2), TooLong(5), Invalid(7), Unreadable("nodes[0]", "why"), NoProgram("why")],
    ids=lambda error: type(error).__name__,
)
def test_errors_pass_between_processes(error):
    again = pickle.loads(pickle.dumps(error))
    assert isinstance(again, MarketError)
    assert (type(again), str(again), vars(again)) == (type(error), str(error), vars(error))


def test_a_program_passes_between_processes(program):
    assert pickle.loads(pickle.dumps(program)) == program


def test_the_package_lies_where_it_is_tested():
    import cogmaula

    assert Path(cogmaula.__file__).is_relative_to(TOP / "python")
    assert sys.version_info >= (3, 11)
