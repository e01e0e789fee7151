"""Writes each fact that several files repeat into them from its one home, and says which file has it otherwise.

    checks/run places          compares them, beside what checks/lint/places.py compares
    checks/run places write    writes them

| Fact | Home | Made from it |
|---|---|---|
| limits | the constants of crates/*/src | checks/facts.py, python/cogmaula/program_limits.py, tables of pages and market.1 |
| kinds of node | pm_scene and pm_device; cluster.schema.json has their members and limits for checks and Python | checks/facts.py, market.1 |
| refusals | crates/pm_plan/src/refusal.rt has the numbers, script/refusals.toml the words | script/words.sh, python/cogmaula/refusals.py, pages |
| exit statuses | crates/pm_answer/src/status.rt has the numbers, script/statuses.toml the words | the same, market.1, python/cogmaula/live/node/statuses.py |

A table in a page or a script stands between a line with `table NAME` and one with `table end`, each as a comment of its file.
"""

import re
import tomllib
from collections.abc import Callable, Iterator
from dataclasses import dataclass
from functools import cache
from pathlib import Path

from checks import TOP

CRATES = TOP / "crates"
# Crates in which a constant is no limit of the market: tests, and the gates that try runs.
OTHERS = {"pm_gates", "test_clusters", "test_parts", "test_programs", "test_threads", "test_values"}
CONSTANT = re.compile(r"^(?:pub(?:\(crate\))? )?const (\w+): [iu]\w+ = ([\d_]+);", re.M)
IS_LIMIT = re.compile(r"(?:LEAST|MOST|MAX)_|.*_LIMIT$|WINDOW_SIZE$")
# The most bytes of the input of a command, in the function that tells it.
INPUT_LIMIT = re.compile(r"FileCommand::(Run|Ask|Check)\b[^=\n]*=> ([\d_]+),")
# The names of the package for limits of the code.
PACKAGE = {
    "MOST_TEMPERATURE": "TEMPERATURE_LIMIT", "MOST_NODES": "MOST_NODES", "MOST_NAME_BYTES": "MAX_NAME_BYTES", "MOST_DEPTH": "MOST_DEPTH",
    "MOST_EVENTS": "MOST_EVENTS", "MOST_CHANGES": "MOST_CHANGES", "MOST_BYTES": "FILE_LIMIT", "MOST_TARGETS": "MOST_TARGETS",
    "MOST_TARGET": "DEMAND_LIMIT", "WINDOW": "WINDOW_SIZE",
}
# What each limit of the code is of, for the page that lists all.
OF = {
    "STEPS": "steps of a market basis, at least {LEAST_STEPS}", "MOST_NODES": "nodes of a cluster, and children of a node across machines",
    "MOST_DEPTH": "concentrators on a path to the auctioneer", "WINDOW_SIZE": "unanswered numbers of a concentrator, and offers of a device",
    "PRICE_LIMIT": "a price, on either side of 0", "DEMAND_LIMIT": "a demand of a device in watts, on either side of 0",
    "SUM_LIMIT": "a sum of demands in watts, on either side of 0", "MOST_PHASES": "phases of a run", "MOST_EVENTS": "events of a phase",
    "MOST_CHANGES": "changes of a run", "MAX_POINTS": "points of a bid", "MAX_NAME_BYTES": "bytes of a name",
    "FILE_LIMIT": "bytes of a cluster file, and of the input of `run`, `trace`, `bill` and `free`", "INPUT_ASK": "bytes of the input of `ask`",
    "MOST_TARGETS": "targets of `ask`", "INPUT_CHECK": "bytes of the input of `check`",
    "STREAM_LIMIT": "bytes of a stream to `serve` or to a node", "MAX_SIZE": "devices of a demo",
    "POWER_LIMIT": "the power of a device in watts", "CAPACITY_LIMIT": "the capacity of a battery in watt-hours",
    "SPREAD_LIMIT": "the spread of a battery in steps", "TEMPERATURE_LIMIT": "a temperature, on either side of 0",
    "CHANGE_LIMIT": "what a tick adds to a temperature or takes from it", "MINUTES_LIMIT": "minutes of a tick, at least 1",
}


@cache
def text_of(path: str) -> str:
    return (TOP / path).read_text()


class Unreadable(Exception):
    """What the sources no longer have in the form that is read here."""


# The facts.


@cache
def limits() -> dict[str, tuple[int, str]]:
    """Each limit of the sources, with its number and its file."""
    found: dict[str, tuple[int, str]] = {}
    for file in sorted(CRATES.glob("*/src/**/*.rt")):
        path = str(file.relative_to(TOP))
        if file.relative_to(CRATES).parts[0] not in OTHERS:
            text = text_of(path)
            for name, number in CONSTANT.findall(text):
                if IS_LIMIT.match(name):
                    found[name] = int(number), path
            if "fn input_limit" in text:
                for name, number in INPUT_LIMIT.findall(text):
                    found[f"INPUT_{name.upper()}"] = int(number), path
    return found


def filled(text: str) -> str:
    """The text with the limits of the code for their names; `:d` leaves the commas out."""
    known = {name: number for name, (number, _) in limits().items()}
    return re.sub(r"\{([A-Z_]+)(:d)?\}", lambda match: str(known[match[1]]) if match[2] else f"{known[match[1]]:,}", text)


def told(path: str, kept: str, source: str, variant: str) -> dict[int, dict[str, str]]:
    """The words of a file by their numbers. The numbers of its variants have to be those of the code."""
    words: dict[str, dict[str, str]] = tomllib.loads(text_of(path))
    numbers = {name: int(number) for name, number in re.findall(rf"{variant}::(\w+) => (\d+),", text_of(source))}
    given = {word[kept]: int(number) for number, word in words.items() if kept in word}
    if given != numbers:
        raise Unreadable(f"{path} and {source} differ in {sorted(set(given.items()) ^ set(numbers.items()))}")
    return {int(number): {name: filled(text) for name, text in texts.items()} for number, texts in words.items()}


@cache
def refusals() -> dict[int, dict[str, str]]:
    """The words of each refusal, by its code."""
    return told("script/refusals.toml", "cause", "crates/pm_plan/src/refusal.rt", "Cause")


@cache
def statuses() -> dict[int, dict[str, str]]:
    """The words of each exit status."""
    return told("script/statuses.toml", "status", "crates/pm_answer/src/status.rt", "Status")


# Kinds of node.


@dataclass(frozen=True)
class Kind:
    """A kind of node: its word, its variant in the code, its forms with their further members, and whether it is a device."""

    word: str
    variant: str
    forms: tuple[frozenset[str], ...]
    is_device: bool


@cache
def code_of(crate: str) -> str:
    """The code of a crate, one file behind the other."""
    return "\n".join(path.read_text() for path in sorted((CRATES / crate / "src").rglob("*.rt")))


def part_of(crate: str, begin: str) -> str:
    """The part of a crate's code from these words to the next brace in the first column."""
    _, found, rest = code_of(crate).partition(begin)
    if not found:
        raise Unreadable(f"no code of {crate} has `{begin}`, which checks/lint/facts.py reads")
    return rest.partition("\n}")[0]


@cache
def kinds() -> list[Kind]:
    """The kinds that the reader of cluster files names, with the members of their rows."""
    scene = code_of("pm_scene")
    words = dict(re.findall(r'const (\w+): Member = Member\("(\w+)"', scene))
    table = {
        name: frozenset(words[word] for word in re.findall(r"\w+", members))
        for name, members in re.findall(r"static (\w+): \[Member; \d+\] = \[([^\]]*)\];", scene)
    }
    row_of = dict(re.findall(r"KindName::(\w+) => &(\w+)", part_of("pm_scene", "fn node_row(")))
    manual = re.findall(r"=> &(\w+)", part_of("pm_scene", "fn manual_row("))
    devices = set(re.findall(r"^    ([A-Z]\w+)(?: \{|,)", part_of("pm_device", "pub enum Kind "), re.M))
    found = []
    for word, variant in re.findall(r'"(\w+)" => Some\(KindName::(\w+)\)', part_of("pm_scene", "fn kind_named(")):
        rows = [row_of[variant]] if variant in row_of else manual
        found.append(Kind(word, variant, tuple(table[row] - {"name", "kind", "parent"} for row in rows), variant in devices))
    lost = devices - {kind.variant for kind in found}
    if lost:
        raise Unreadable(f"pm_device has kinds that pm_scene does not name: {', '.join(sorted(lost))}")
    return found


def ticking() -> set[str]:
    """The variants of the kinds that change at a tick."""
    return set(re.findall(r"Kind::(\w+)", part_of("pm_device", "pub fn ticks(").partition("=> true")[0]))


# What is made of them.


def rows(head: list[str], body: list[list[str]]) -> str:
    return "\n".join(f"| {' | '.join(row)} |" for row in [head, ["---"] * len(head), *body]).replace("| --- |", "|---|").replace(" --- |", "---|") + "\n"


def sentence(text: str) -> str:
    return text[0].upper() + text[1:]


def refusals_of_shell() -> str:
    lines = "".join(f"{code}|{refusal['meaning']}|{refusal['remedy']}\n" for code, refusal in refusals().items())
    return f"refusals() {{\n    cat <<'END_OF_TABLE'\n{lines}END_OF_TABLE\n}}\n"


def refusals_of_page() -> str:
    body = []
    for refusal in refusals().values():
        if "line" in refusal:
            line = f"`{refusal['line']}`" if refusal["line"].startswith("refused") else refusal["line"]
            body.append([line, refusal["meaning"] + (f": {refusal['more']}" if "more" in refusal else ""), refusal["remedy"]])
    return rows(["Line", "Meaning", "What to do"], body)


def statuses_of_help() -> str:
    lines = "".join(f"  {code}  {status['meaning']}{status.get('checkout', '')}\n" for code, status in statuses().items())
    return f"help_statuses() {{\n    cat <<END_OF_TABLE\n{lines}END_OF_TABLE\n}}\n"


def statuses_of_shell() -> str:
    lines = "".join(f'        {code}) say "{status["said"]}: {status["remedy"]}" ;;\n' for code, status in statuses().items() if "said" in status)
    return f'tell_status() {{\n    case "$1" in\n{lines}    esac\n}}\n'


def remedies_of_shell() -> str:
    lines = "".join(f'        {code}) echo "{status["remedy"]}" ;;\n' for code, status in statuses().items())
    return f'status_remedy() {{\n    case "$1" in\n{lines}        *) return 1 ;;\n    esac\n}}\n'


def statuses_of_page() -> str:
    body = [[str(code), sentence(plain(status["meaning"])), status["output"], status.get("stream", "the same")] for code, status in statuses().items()]
    return rows(["Status", "Meaning", "Standard output", "Of a stream"], body)


def statuses_of_stream() -> str:
    body = [[str(code), status["ends"], status.get("stream", status["output"])] for code, status in statuses().items() if "ends" in status]
    return rows(["Status", "Comes if", "What is written then"], body)


def plain(meaning: str) -> str:
    """A meaning without its advice."""
    return meaning.partition(": help")[0]


def statuses_of_manual() -> str:
    return "".join(f".TP\n.B {code}\n{sentence(plain(status['meaning']))}.\n" for code, status in statuses().items())


def inputs_of_manual() -> str:
    run, ask, check, stream = (f"{limits()[limit][0]:,}" for limit in ("INPUT_RUN", "INPUT_ASK", "INPUT_CHECK", "STREAM_LIMIT"))
    return f"With 4 the input has more than {run} bytes, of\n.B ask\n{ask}, of\n.B check\n{check}, of\n.B serve\nand of a node {stream}.\n"


def inputs_of_page() -> str:
    body = [
        [of, f"{limits()[name][0]:,} bytes"]
        for of, name in (
            ("`run`, `trace`, `free`, `bill`", "INPUT_RUN"), ("`ask`", "INPUT_ASK"), ("`check`", "INPUT_CHECK"),
            ("`serve`, `relay`, `auctioneer`, `device`", "STREAM_LIMIT"),
        )
    ]
    return rows(["Input of", "At most"], body)


def too_long_of_page() -> str:
    body = [
        [f"`too long, more than {limits()[name][0]} bytes`", f"the input of {commands} is too long", remedy]
        for name, commands, remedy in (
            ("INPUT_RUN", "`run`, `trace`, `bill` or `free`", "split the cluster"),
            ("INPUT_ASK", "`ask`", "split the list of targets"),
            ("INPUT_CHECK", "`check`", "split the script of the file, and judge each part's trace"),
        )
    ]
    return rows(["Other line", "Meaning", "What to do"], body)


def limits_of_page() -> str:
    body = []
    for name, of in OF.items():
        number = limits()["MOST_STEPS" if name == "STEPS" else name][0]
        body.append([filled(of), f"{number:,}"])
    return rows(["Of", "At most"], body)


def python_of(words: dict[int, str], name: str) -> str:
    return f"{name} = {{\n" + "".join(f"    {code}: {quoted(word)},\n" for code, word in words.items()) + "}\n"


def quoted(text: str) -> str:
    return f'"{text}"' if '"' not in text else repr(text)


def refusals_of_package() -> str:
    words = {code: refusal for code, refusal in refusals().items() if "rule" in refusal}
    pairs = "".join(f"    {code}: ({quoted(refusal['meaning'])}, {quoted(refusal['remedy'])}),\n" for code, refusal in words.items())
    return (
        '"""What each code of a refusal means and what to do about it, in the words of `market help CODE`, and the rule that it breaks.\n\n'
        'Made of script/refusals.toml by `checks/run places write`.\n"""\n\n'
        f"# By code: the meaning and the remedy. The program's script prints the same words.\nWORDS = {{\n{pairs}}}\n\n"
        "# What each code refuses, as a rule.\n" + python_of({code: refusal["rule"] for code, refusal in words.items()}, "RULES")
    )


def statuses_of_package() -> str:
    words = {code: status["live"] for code, status in statuses().items() if "live" in status}
    return (
        '"""What each exit status of the program `live` says of a service, for its node.\n\n'
        'Made of script/statuses.toml by `checks/run places write`.\n"""\n\n' + python_of(words, "STATUSES")
    )


def limits_of_package() -> str:
    lines = "".join(f"# {sentence(filled(OF[of]))}.\n{name} = {limits()[of][0]:_}\n" for name, of in PACKAGE.items())
    return (
        '"""The limits of the program that its schema cannot say. The program checks them; here they size parts and word messages.\n\n'
        'Made of the constants of crates/*/src by `checks/run places write`.\n"""\n\n' + lines
    )


def facts_of_checks() -> str:
    numbers = "".join(f"{name} = {number:_}\n" for name, (number, _) in sorted(limits().items()))
    ends = "".join(f"{snake(status['status'])} = {code}\n" for code, status in statuses().items() if "status" in status)
    return (
        '"""The limits of the market, the exit statuses and the kinds of node, for what makes inputs and for the judges.\n\n'
        'Made of the constants of crates/*/src by `checks/run places write`.\n"""\n\n'
        f"# Limits: the names are those of the code, and INPUT_.. is the most bytes of the input of a command.\n{numbers}\n"
        f"# Exit statuses.\n{ends}\n"
        f"# Kinds of node: those that are no device, and those that change at a tick.\nCONCENTRATORS = {named(lambda kind: not kind.is_device)}\n"
        f"TICKING = {named(lambda kind: kind.variant in ticking())}\n"
    )


def named(is_one: Callable[[Kind], bool]) -> str:
    """The words of some kinds, as a tuple of Python."""
    return "(" + ", ".join(f'"{kind.word}"' for kind in kinds() if is_one(kind)) + ")"


def kinds_of_manual() -> str:
    words = [kind.word for kind in kinds()]
    return "".join(f".BR {word} ,\n" for word in words[:-2]) + f".B {words[-2]}\nand\n.BR {words[-1]} .\n"


def snake(name: str) -> str:
    return re.sub(r"(?<!^)(?=[A-Z])", "_", name).upper()


# Where each stands.

FILES: dict[str, Callable[[], str]] = {
    "checks/facts.py": facts_of_checks,
    "python/cogmaula/program_limits.py": limits_of_package,
    "python/cogmaula/refusals.py": refusals_of_package,
    "python/cogmaula/live/node/statuses.py": statuses_of_package,
}
TABLES: dict[str, dict[str, Callable[[], str]]] = {
    "script/words.sh": {"refusals": refusals_of_shell, "help": statuses_of_help, "statuses": statuses_of_shell, "remedies": remedies_of_shell},
    "docs/CLUSTER_FILE.md": {"refusals": refusals_of_page, "lengths": too_long_of_page},
    "docs/COMMANDS.md": {"inputs": inputs_of_page, "statuses": statuses_of_page},
    "docs/SERVE.md": {"statuses": statuses_of_stream},
    "docs/DEFINITIONS.md": {"limits": limits_of_page},
    "packaging/help/market.1": {"kinds": kinds_of_manual, "statuses": statuses_of_manual, "inputs": inputs_of_manual},
}
MARKS = {".md": ("<!-- ", " -->"), ".1": ('.\\" ', "")}


def with_tables(path: str) -> str:
    """A file with its tables as they have to be. Raises Unreadable if it lacks the marks of one."""
    text = text_of(path)
    begin, end = MARKS.get(Path(path).suffix, ("# ", ""))
    for name, make in TABLES[path].items():
        first, last = f"{begin}table {name}{end}\n", f"{begin}table end{end}\n"
        head, found, rest = text.partition(first)
        _, ended, tail = rest.partition(last)
        if not found or not ended:
            raise Unreadable(f"{path} has no lines `{first.strip()}` and `{last.strip()}` around a table")
        text = head + first + make() + last + tail
    return text


def made() -> Iterator[tuple[str, str]]:
    """Each file that has a fact of another home, and what it has to be."""
    for path, make in FILES.items():
        yield path, make()
    for path in TABLES:
        yield path, with_tables(path)


def wrong() -> Iterator[tuple[str, list[str]]]:
    """What is wrong with each file."""
    for path, text in made():
        is_right = (TOP / path).exists() and text_of(path) == text
        yield path, [] if is_right else [f"{path} has a table that is not what its home says: `checks/run places write` writes it"]


def write() -> None:
    """Writes all files."""
    for path, text in made():
        (TOP / path).write_text(text)
