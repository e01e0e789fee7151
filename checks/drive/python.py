"""Whether the Python package works: its tests, its types, how much of it the tests run, and whether it installs without a network.

    python3 -m checks.drive.python [WORDS ..]      WORDS go to pytest, such as -k explain

Prints what failed, and ends with 'N passed, M failed'. Each test counts, and so do the types, the lines that tests ran, and the
installation. The tests of each file are a process of its own, side by side. A part whose packages are missing is skipped, with a line that says so.
"""

import os
import re
import shutil
import subprocess
import sys
import tempfile
from concurrent.futures import ThreadPoolExecutor
from pathlib import Path

from checks import TOP

PACKAGE = TOP / "python"
# The least share of the package's lines that the tests run, in percent.
LEAST_LINES = 90
# What each part needs, by the names of Python, and Debian's package of it.
DEBIAN = {
    "pytest": "python3-pytest",
    "hypothesis": "python3-hypothesis",
    "pandas": "python3-pandas",
    "matplotlib": "python3-matplotlib",
    "distributed": "python3-distributed",
    "mypy": "python3-mypy",
    "coverage": "python3-coverage",
    "setuptools": "python3-setuptools",
    "wheel": "python3-wheel",
    "pip": "python3-pip",
    "venv": "python3-venv",
    "ensurepip": "python3-venv",
}


def lacking(python, names):
    """Which of these packages this Python has not."""
    code = "import sys; from importlib.util import find_spec; print(*[name for name in sys.argv[1:] if find_spec(name) is None])"
    done = subprocess.run([python, "-c", code, *names], capture_output=True, text=True, check=False)
    return done.stdout.split() if done.returncode == 0 else list(names)


def choose_python():
    """The Python that has most of the packages: the one that runs this, or Debian's."""
    known = [program for program in (sys.executable, "/usr/bin/python3") if os.access(program, os.X_OK)]
    return min(known, key=lambda program: len(lacking(program, DEBIAN)))


class Part:
    """One part of the check, and what came of it."""

    def __init__(self):
        self.passed, self.failed, self.lines = 0, 0, []

    def say(self, line):
        self.lines.append(line)

    def count(self, is_right, why=""):
        self.passed += is_right
        self.failed += not is_right
        if not is_right:
            self.say(why)


def missing(python, part, what, names):
    """Whether a part is skipped since it lacks packages. Says so."""
    lacks = lacking(python, names)
    if lacks:
        part.say(f"skipped {what}: on Debian, apt-get install {' '.join(DEBIAN[module] for module in lacks)}")
    return bool(lacks)


def surroundings(work):
    """The environment of a process of the check: it leaves nothing in the repository."""
    kept = {"COVERAGE_FILE": str(work / "coverage"), "MPLCONFIGDIR": str(work / "matplotlib")}
    return {**os.environ, "COGMAULA_MARKET": str(TOP), "PYTHONDONTWRITEBYTECODE": "1", **kept}


def test_file(python, work, file, words, with_lines):
    """The tests of one file."""
    part = Part()
    runner = ["-m", "coverage", "run", "--parallel-mode", "-m"] if with_lines else ["-m"]
    command = [python, *runner, "pytest", "-o", "addopts=", "-q", "-p", "no:cacheprovider", "--tb=short", str(file), *words]
    done = subprocess.run(command, cwd=PACKAGE, env=surroundings(work), capture_output=True, text=True, check=False)
    last = done.stdout.strip().rpartition("\n")[2]
    counts = {word: int(number) for number, word in re.findall(r"(\d+) (passed|failed|error)", last)}
    part.passed += counts.get("passed", 0)
    part.failed += counts.get("failed", 0) + counts.get("error", 0)
    # 5 is what pytest says if no test has the words.
    if done.returncode not in (0, 5) and not part.failed:
        part.failed += 1
    if part.failed:
        part.say(done.stdout + done.stderr)
    return part


def look_at_types(python):
    """Whether mypy finds no fault in the types of the package."""
    part = Part()
    if missing(python, part, "the types", ["mypy"]):
        return part
    command = [python, "-m", "mypy", "--cache-dir", os.devnull]
    done = subprocess.run(command, cwd=PACKAGE, capture_output=True, text=True, check=False)
    part.count(done.returncode == 0, f"mypy --strict: {done.stdout}{done.stderr}")
    files = sorted(str(path) for folder in ("cookbook", "devices") for path in (TOP / "examples" / folder).glob("*.py"))
    settings = ["--strict", "--config-file", "pyproject.toml", "--cache-dir", os.devnull]
    done = subprocess.run([python, "-m", "mypy", *settings, *files], cwd=PACKAGE, capture_output=True, text=True, check=False)
    part.count(done.returncode == 0, f"mypy --strict of the examples: {done.stdout}{done.stderr}")
    return part


def look_at_installation(python, work):
    """Whether pip installs the package without a network, and the installed one runs from another folder."""
    part = Part()
    if missing(python, part, "the installation", ["pip", "setuptools", "wheel"]):
        return part
    sources, place = work / "sources", work / "installed"
    shutil.copytree(PACKAGE, sources, ignore=shutil.ignore_patterns("tests", "__pycache__"))
    flags = ["--quiet", "--no-build-isolation", "--no-deps", "--no-index", "--disable-pip-version-check", "--target", str(place)]
    done = subprocess.run([python, "-m", "pip", "install", *flags, str(sources)], capture_output=True, text=True, check=False)
    part.count(done.returncode == 0, f"pip install: {done.stdout}{done.stderr}")
    if done.returncode == 0:
        command = [str(place / "bin" / "cogmaula"), "explain", str(TOP / "examples" / "village.json"), "--program", str(TOP)]
        environment = {**surroundings(work), "PYTHONPATH": str(place)}
        done = subprocess.run([python, *command], cwd=work, env=environment, capture_output=True, text=True, check=False)
        part.count(done.stdout.endswith(": market run takes it\n"), f"the installed command: {done.stdout}{done.stderr}")
    return part


def look_at_page(python, work):
    """Whether the lines by which docs/PYTHON.md installs the package work in a home that has nothing yet."""
    part = Part()
    if missing(python, part, "the page's installation", ["venv", "ensurepip", "setuptools", "wheel"]):
        return part
    page = (TOP / "docs" / "PYTHON.md").read_text()
    lines = re.search(r"(?:^    .*\n)*^    python3 -m venv .*\n(?:^    .*\n)*", page, re.M)
    if lines is None:
        part.count(False, "docs/PYTHON.md has no line with python3 -m venv")
        return part
    home = work / "home"
    shutil.copytree(PACKAGE, home / "checkout" / "python", ignore=shutil.ignore_patterns("tests", "__pycache__"))
    commands = [line.strip() for line in lines[0].splitlines() if line.strip() != "./market prove"]
    script = "\n".join(["set -e", *(command if command.startswith("export") else command.replace("python3 ", f"{python} ", 1) for command in commands)])
    # No network, and nothing of the user's own home.
    environment = {**surroundings(work), "HOME": str(home), "PIP_NO_INDEX": "1", "PIP_DISABLE_PIP_VERSION_CHECK": "1"}
    done = subprocess.run(["bash", "-c", script], cwd=home / "checkout", env=environment, capture_output=True, text=True, check=False)
    # The copy is no checkout of git, so nobody knows its commit.
    due = f"cogmaula {(TOP / 'VERSION').read_text().strip()} (no commit known)\n"
    part.count(done.returncode == 0 and done.stdout.endswith(due), f"the page's installation: {done.stdout}{done.stderr}")
    return part


def look_at_lines(python, work):
    """Whether the tests ran most lines of the package."""
    part = Part()
    run = [python, "-m", "coverage"]
    subprocess.run([*run, "combine", "--quiet"], cwd=PACKAGE, env=surroundings(work), capture_output=True, check=False)
    done = subprocess.run([*run, "report"], cwd=PACKAGE, env=surroundings(work), capture_output=True, text=True, check=False)
    found = re.search(r"^TOTAL +\d+ +\d+ +(\d+)%$", done.stdout, re.M)
    share = int(found[1]) if found else 0
    part.say(f"the tests ran {share}% of the package's lines")
    part.count(share >= LEAST_LINES, f"{done.stdout}{done.stderr}at least {LEAST_LINES}% of the lines are due")
    return part


def parts(python, work, words):
    """What came of each part."""
    files = sorted([*PACKAGE.glob("tests/test_*.py"), *PACKAGE.glob("tests/*/test_*.py")])
    first = Part()
    with_tests = not missing(python, first, "the tests", ["pytest", "hypothesis"])
    with_lines = with_tests and not words and not missing(python, first, "the count of lines", ["coverage", "pandas", "matplotlib", "distributed"])
    yield first
    with ThreadPoolExecutor(max_workers=os.cpu_count() or 1) as pool:
        begun = [pool.submit(test_file, python, work, file, words, with_lines) for file in files] if with_tests else []
        if not words:
            begun += [pool.submit(look_at_types, python), pool.submit(look_at_installation, python, work), pool.submit(look_at_page, python, work)]
        for run in begun:
            yield run.result()
    if with_lines:
        yield look_at_lines(python, work)


def main(words):
    python = choose_python()
    passed = failed = 0
    with tempfile.TemporaryDirectory() as folder:
        for part in parts(python, Path(folder), words):
            for line in part.lines:
                print(line)
            passed += part.passed
            failed += part.failed
    print(f"{passed} passed, {failed} failed")
    return 1 if failed else 0


if __name__ == "__main__":
    sys.exit(main(sys.argv[1:]))
