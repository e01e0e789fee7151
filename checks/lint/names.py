"""Whether each concept has one home: one meaning a name, one place a lemma (up to the names of its variables), one name a limit.
And whether what is written can be read: no line above 160 bytes, no clause above 100 columns, no definition named by a bare
participle, a comment on each public lemma, a first line of each file that says what it is for.

Looks at the sources, definitions and proofs of all crates, tests and comments left out. Prints a line for each finding
and ends with 'N passed, M failed'.
"""

import re
import sys
from collections import defaultdict

from checks import TOP

CRATES = TOP / "crates"

# Names that two crates use for one thing: of a plan, and of the lists of the market of cuts that it stands for.
OF_PLAN_AND_LISTS = {"is_leaf", "is_member", "parent", "phases"}

# The crates of tests alone, whose names no crate uses.
TESTS = {"test_clusters", "test_parts", "test_programs", "test_threads", "test_values"}

# Functions of code that have one name in two crates, and the one thing that the name says in both.
SAME_IN_CODE = {
    "change": "makes a change of a device",
    "clear": "the auctioneer clears",
    "close": "closes the open phase",
    "concentrator": "a concentrator",
    "fill_demand": "fills the demand of a device",
    "find_rise": "the first place of a list that rises",
    "find_too_large": "the first place of a list whose number is too large",
    "group_of": "the group of a node",
    "make_change": "makes a change of a device",
    "make_changes": "makes the changes of a phase",
    "make_phases": "makes the phases",
    "make_plan": "makes a plan of its parts",
    "no_changes": "no change of any device",
    "pass": "a concentrator passes a price on",
    "power_of": "the power of a device",
    "read_body": "reads the fields of a frame",
    "read_hello": "reads the fields of Hello",
    "run": "runs what the crate is for to its end",
    "size_at": "how many bytes a frame has, by its kind and place",
    "start_of": "a device before its first change",
    "starts": "the devices before their first change",
    "take_bid": "takes the bid that waits on a link",
    "take_price": "takes the price that waits on a link",
    "write_price": "appends the price for a child",
    "write_prices": "appends the price for each child that is not gone",
}

# The most columns of a line of a clause.
CLAUSE_LIMIT = 100

# Participles that do not end in -ed or -ing.
IRREGULAR = {
    "begun", "broken", "drawn", "given", "gone", "heard", "held", "kept", "known", "learnt", "left", "made", "met", "put", "read",
    "said", "seen", "sent", "taken", "told", "took", "written",
}

# Nouns that look like participles: what a relay announces is its announced demand, with or without limits.
NOUNS = {"announced", "clearing", "holding", "need", "setting"}

# The most bytes of a line of sources, definitions and proofs.
LINE_LIMIT = 160

# The limits that stand in pm_base: steps and phases, nodes, the window and its ring, events, changes, demands, sums.
LIMITS = {"8", "9", "256", "999", "1000", "4096", "20000", "1000000000", "256000000000"}

# Where such a number means something else.
OTHER_MEANINGS = [
    ("pm_device/specs/Kinds.antt", "the limits of the kinds' parameters"),
    ("pm_device/src/limits.rt", "the limits of the kinds' parameters"),
    ("pm_gen/specs/Nodes.antt", "the batteries of the generator"),
    ("pm_gen/src/devices.rt", "the batteries of the generator"),
    ("pm_gen/proofs/Parts.antt", "the batteries of the generator"),
    ("pm_laws/proofs/Examples.antt", "journals written out"),
    ("pm_processes/specs/WorkedAnswers.antt", "prices, indices and bytes written out"),
    ("pm_plan/specs/Causes.antt", "the numbers of causes"),
    ("pm_plan/src/refusal.rt", "the numbers of causes"),
    ("pm_scene/src/kinds.rt", "the lengths of tables"),
    ("pm_store/specs/Values.antt", "the bytes of a value"),
    ("pm_store/src/value.rt", "the bytes of a value"),
    ("pm_store/proofs/Values.antt", "the bytes of a value"),
    ("pm_frames/specs/Kinds.antt", "the first bytes of frames"),
    ("pm_frames/src/kinds.rt", "the first bytes of frames"),
    ("pm_frames/src/limits.rt", "the bytes of frames"),
    ("pm_frames/src/answers.rt", "the bytes of frames"),
    ("pm_frames/src/offer.rt", "the bytes of points"),
    ("pm_frames/specs/OfferForms.antt", "the bytes of points"),
    ("pm_frames/specs/NamedKinds.antt", "the bits of a byte"),
    ("pm_frames/proofs/OneOffer.antt", "the bytes of points"),
    ("pm_frames/proofs/offer/read_point_list/Invariants.antt", "the bytes of points"),
    ("pm_frames/proofs/OneDeviceFrame.antt", "the bytes of frames"),
    ("pm_services/src/waiting_relay.rt", "the bytes of frames"),
    ("pm_services/proofs/Learning.antt", "the bytes of frames"),
    ("pm_wire/specs/Kinds.antt", "the first bytes of frames and answers"),
    ("pm_wire/src/kinds.rt", "the first bytes of frames and answers"),
    ("pm_net/specs/SmallDevices.antt", "runs written out"),
    ("pm_system/proofs/DeepEnd.antt", "a run written out"),
    ("pm_system/proofs/DeepGiven.antt", "a run written out"),
    ("pm_system/proofs/WorkedEnd.antt", "a run written out"),
    ("pm_system/proofs/WorkedGiven.antt", "a run written out"),
    ("pm_system/specs/WorkedDeep.antt", "a run written out"),
    ("market/src/main.rt", "an exit status"),
    ("live/src/main.rt", "an exit status"),
]

# Lemmas known to stand twice, and why both stay.
KNOWN_TWICE = {
    ("pm_market/proofs/Tree.antt: below_itself", "pm_offer/proofs/Above.antt: below_self"): (
        "the lower one is new, and the upper one's crate is below the cluster, which would be proved anew"
    ),
}

DEFINITION = re.compile(r"^(?:abbrev pub|unfoldable pub|pub record|pub data|abbrev|unfoldable|record|data) (\S+)", re.M)
LEMMA = re.compile(r"^(?:pub )?([^\s:({]+) : (.*?)(?=\n\S|\Z)", re.M | re.S)
CODE_NAME = re.compile(r"^(?:pub(?:\(crate\))? )?(?:const )?(fn|struct|enum|trait) (\w+)", re.M)
CLAUSE = re.compile(r"\s*(?:requires|ensures)\*?(?: \w+)? \{")
NUMBER = re.compile(r"(?<![\w.\-])\d[\d_]*(?![\w.])")


def is_test(parts):
    """Whether a file has tests: it stands in a crate of tests alone, or below a module of that name."""
    return parts[0] in TESTS or any(part.removesuffix(".rt") == "tests" for part in parts)


def files(*kinds):
    for path in sorted(CRATES.rglob("*")):
        parts = path.relative_to(CRATES).parts
        if path.suffix in (".rt", ".antt") and parts[1] in kinds and not is_test(parts):
            yield parts[0], "/".join(parts), path.read_text()


def without_comments(text):
    return re.sub(r"(?m)^\s*(//|--).*$|#\[error\(.*\)\]", "", text)


def names_with_two_homes():
    homes = defaultdict(set)
    for crate, _, text in files("specs"):
        for name in DEFINITION.findall(text):
            homes[name.rstrip(":")].add(crate)
    for name, crates in sorted(homes.items()):
        if len(crates) > 1 and name not in OF_PLAN_AND_LISTS:
            yield f"the definition {name} is in {', '.join(sorted(crates))}: keep one, and let the other crates use it"


def names_of_code_with_two_homes():
    homes = defaultdict(set)
    for crate, _, text in files("src"):
        for sort, name in CODE_NAME.findall(text):
            homes["function" if sort == "fn" else "type", name].add(crate)
    for (sort, name), crates in sorted(homes.items()):
        if len(crates) > 1 and name not in SAME_IN_CODE and name != "main":
            yield f"the {sort} {name} is in {', '.join(sorted(crates))}: rename all except one, or list it in SAME_IN_CODE"
    for name in SAME_IN_CODE:
        if len(homes["function", name]) < 2:
            yield f"the function {name} is in one crate alone: take it out of SAME_IN_CODE"


def definitions_named_by_participles():
    for _, path, text in files("specs"):
        for name in DEFINITION.findall(text):
            is_participle = name in IRREGULAR or re.fullmatch(r"[a-z]+(ed|ing)", name)
            if is_participle and name not in NOUNS:
                yield f"{path}: the definition {name} is named by a bare participle: name what it gives"


def long_clauses():
    for _, path, text in files("src"):
        depth = 0
        for number, line in enumerate(text.split("\n"), 1):
            if depth or CLAUSE.match(line):
                depth += line.count("{") - line.count("}")
                if len(line) > CLAUSE_LIMIT:
                    yield f"{path}:{number}: a clause above {CLAUSE_LIMIT} columns: break it"


def said_alike(statement):
    """The statement with its variables numbered, so that only their names can differ from another's."""
    text = re.sub(r"\s+", " ", statement)
    variables = dict.fromkeys(word for group in re.findall(r"[({]([^():{}]+?) :", text) for word in group.split())
    for number, name in enumerate(variables):
        text = re.sub(r"(?<![\w\-'.])" + re.escape(name) + r"(?![\w\-'])", f"v{number}", text)
    return text


def lemmas_with_two_homes():
    homes = defaultdict(set)
    for crate, path, text in files("proofs"):
        for name, statement in LEMMA.findall(without_comments(text)):
            if not statement.startswith("goal.") and len(statement) > 20:
                homes[said_alike(statement)].add((crate, f"{path}: {name}"))
    for lemmas in homes.values():
        places = tuple(sorted(where for _, where in lemmas))
        if len({crate for crate, _ in lemmas}) > 1 and places not in KNOWN_TWICE:
            yield " and ".join(places) + " state one lemma: keep it in the lower crate alone"


def bare_limits():
    others = {path for path, _ in OTHER_MEANINGS}
    for crate, path, text in files("src", "specs", "proofs"):
        if crate == "pm_base" or path in others:
            continue
        for line in without_comments(text).split("\n"):
            if any(number.replace("_", "") in LIMITS for number in NUMBER.findall(line)):
                yield f"{path}: a limit without its name: write the name, or list the file in OTHER_MEANINGS: {line.strip()[:100]}"


def long_lines():
    for _, path, text in files("src", "specs", "proofs"):
        for number, line in enumerate(text.split("\n"), 1):
            if len(line.encode()) > LINE_LIMIT:
                yield f"{path}:{number}: a line above {LINE_LIMIT} bytes: break it"


def lemmas_without_words():
    for _, path, text in files("proofs"):
        if path.count("/") == 2:
            for before, name in re.findall(r"(?m)^(.*)\n\s*pub ([^\s:({]+) : ", text):
                if not before.lstrip().startswith("--"):
                    yield f"{path}: the public lemma {name} has no comment: say above it what it states"


def files_without_a_first_line():
    """A list of modules, Lib.antt, needs none."""
    for path in sorted(CRATES.rglob("*")):
        parts = path.relative_to(CRATES).parts
        mark = {".rt": "//! ", ".antt": "-- "}.get(path.suffix)
        if mark and parts[1] in ("src", "specs", "proofs") and path.name != "Lib.antt" and not path.read_text().startswith(mark):
            yield f"{'/'.join(parts)}: the first line does not say what the file is for: begin it with {mark.strip()}"


def main():
    passed, failed = 0, 0
    checks = (
        names_with_two_homes,
        names_of_code_with_two_homes,
        definitions_named_by_participles,
        lemmas_with_two_homes,
        bare_limits,
        long_lines,
        long_clauses,
        lemmas_without_words,
        files_without_a_first_line,
    )
    for check in checks:
        findings = list(check())
        for finding in findings:
            print(finding)
        failed += len(findings)
        passed += not findings
    print(f"{passed} passed, {failed} failed")
    return 1 if failed else 0


if __name__ == "__main__":
    sys.exit(main())
