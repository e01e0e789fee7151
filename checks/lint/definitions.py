"""Makes the two pages of what is proved from the sources: docs/STATEMENT.md and docs/CRATES.md.

STATEMENT has all that a reader of the theorem has to believe, beside the toolchain: it begins at the definitions that the clauses
`headline` and `refutation` of `market` name, and follows what each of them names, as its file imports it, through `specs/` of all
crates. Words of the library (`Rattle.std`, `Rattle.serde_json`) are left out. CRATES has of each crate what its first lines say, its
laws in the words of their comments, and its calls that have a contract.

    checks/run definitions          compares both pages with what the sources give, and ends with 'N passed, M failed'
    checks/run definitions write    writes both pages
"""

import re
import sys

from dataclasses import dataclass
from pathlib import Path

from checks import TOP

CRATES = TOP / "crates"
STATEMENT = TOP / "docs" / "STATEMENT.md"
CONTRACTS = TOP / "docs" / "CRATES.md"

# The clauses of the call of the program, and where they stand.
CLAUSES = ("headline", "refutation")
CALL = "pm_top/src/top.rt"

# What is read for each command, in this order: a definition is told where it is first needed.
PROMISES = ("pm_headline", "Promises")
STAGES = [
    ("`run`, `free`", ["ReadFile", "IsReport"]),
    ("`trace`", ["TellsSomeRun"]),
    ("`check`", ["ConfirmsTrace", "RefutesTrace", "RefutesFile"]),
    ("`bill`", ["TellsBill"]),
    ("`ask`", ["AnswersList"]),
    ("`demo`", ["TellsDemo"]),
    ("all", []),
]

IMPORT = re.compile(r"^(?:pub )?use Rattle\.(\w+)\.specs\.([\w.]+?)(?:\.\{([^}]*)\}| as (\w+))\s*$", re.M)
HEAD = re.compile(r"^(?:abbrev pub|unfoldable pub|pub record|pub data|abbrev|unfoldable|record|data) ([^\s:({]+)")
WORD = re.compile(r"[A-Za-z_][\w\-']*(?:\.[A-Za-z_][\w\-']*)?|◌[^\s◌]+◌")


class Definition:
    """A definition of `specs/`: its home (crate and module), its name, the comment above it, and its lines without comments."""

    def __init__(self, crate: str, module: str, name: str, comment: str) -> None:
        self.crate, self.module, self.name, self.comment = crate, module, name, comment
        self.lines: list[str] = []


def imports_of(text: str) -> tuple[dict[str, tuple[str, str]], dict[str, tuple[str, str]]]:
    """The names that a file imports, each with its crate and module; and the modules that it imports by another name."""
    names: dict[str, tuple[str, str]] = {}
    modules: dict[str, tuple[str, str]] = {}
    for crate, module, listed, other in IMPORT.findall(text):
        if other:
            modules[other] = (crate, module)
        for name in filter(None, (word.strip() for word in listed.split(","))):
            names[name] = (crate, module)
    return names, modules


def definitions_in(crate: str, module: str, text: str) -> list[Definition]:
    """The definitions of a file of `specs/`, in order."""
    found: list[Definition] = []
    comment: list[str] = []
    told = ""
    for line in text.split("\n"):
        if line.startswith("--"):
            comment.append(line.lstrip("- ").strip())
        elif line.startswith(("use ", "pub use ")):
            comment = []
        head = HEAD.match(line)
        if head:
            # What stands without a comment belongs to the definition above it.
            told = " ".join(comment) or told
            comment = []
            found.append(Definition(crate, module, head[1], told))
        elif not line.strip() or line.startswith(("--", "use ", "pub use ", "pub mod ", "infix")):
            continue
        if found and line.strip() and not line.strip().startswith("--"):
            found[-1].lines.append(line)
    return found


def words_in(text: str, names: dict[str, tuple[str, str]]) -> list[str]:
    """The names that stand in a text, with the operators among those that its file imports; a `do` stands for two of them."""
    chains = {">>=", ">>"} if re.search(r"\bdo$", text, re.M) else set()
    operators = [name for name in names if name.startswith("◌") and (name.strip("◌") in chains or re.search(rf"\s{re.escape(name.strip('◌'))}\s", text))]
    return WORD.findall(text) + operators


def read_all() -> tuple[dict[tuple[str, str, str], Definition], dict[tuple[str, str], tuple[dict, dict]]]:
    """All definitions by crate, module and name, and what each file imports."""
    by_name, imported = {}, {}
    for path in sorted(CRATES.glob("*/specs/**/*.antt")):
        crate = path.relative_to(CRATES).parts[0]
        module = path.relative_to(CRATES / crate / "specs").with_suffix("").as_posix().replace("/", ".")
        text = path.read_text()
        imported[crate, module] = imports_of(text)
        for definition in definitions_in(crate, module, text):
            by_name[crate, module, definition.name] = definition
    return by_name, imported


def roots() -> list[tuple[str, str, str]]:
    """The definitions that the two clauses name, as the file of the call imports them."""
    text = (CRATES / CALL).read_text()
    names, _ = imports_of(re.sub(r"(?m)^ghost (use .*);$", r"\1", text))
    call = text[text.index("pub fn market"):]
    found = []
    for clause in CLAUSES:
        said = re.search(r"ensures " + clause + r" \{(.*?)\n    ensures ", call, re.S)
        if said is None:
            raise SystemExit(f"the clause {clause} of `market` is missing in {CALL}")
        for word in WORD.findall(said[1]):
            if word in names and names[word][0].startswith("pm_"):
                found.append((*names[word], word))
    return found


def needed() -> list[tuple[str, list[Definition]]]:
    """For each stage the definitions that it needs beside those of the stages before it."""
    by_name, imported = read_all()
    seen: set[tuple[str, str, str]] = set()
    promised, _ = imported[PROMISES]
    stages = []
    for stage, names_of_stage in STAGES:
        todo = [(*promised.get(name, PROMISES), name) for name in names_of_stage] or roots()
        found = []
        while todo:
            key = todo.pop()
            if key in seen or key not in by_name:
                continue
            seen.add(key)
            found.append(by_name[key])
            names, modules = imported[key[0], key[1]]
            for word in words_in("\n".join(by_name[key].lines), names):
                first, _, rest = word.partition(".")
                if (key[0], key[1], word) in by_name:
                    todo.append((key[0], key[1], word))
                elif word in names:
                    todo.append((*names[word], word))
                elif first in names:
                    todo.append((*names[first], first))
                elif rest and first in modules:
                    todo.append((*modules[first], rest))
        stages.append((stage, found))
    return stages


# The pages.

MADE = "<!-- made by checks/run definitions write: change the sources, not this page -->"


def ranks() -> dict[str, int]:
    """The place of each crate in the order of crates.txt."""
    lines = (TOP / "crates.txt").read_text().split("\n")
    return {line.split(":")[0]: place for place, line in enumerate(lines) if line and line[0] != "#"}


def cell(text: str) -> str:
    """A text as the cell of a table."""
    return re.sub(r"\s+", " ", text).replace("|", "\\|").replace("<", "&lt;").strip()


def statement() -> str:
    """The page of the definitions: a table for each command and file, whose rows are definitions that share a comment."""
    rank = ranks()
    stages = needed()
    total = sum(len(definition.lines) for _, found in stages for definition in found)
    count = sum(len(found) for _, found in stages)
    parts = [
        f"# The statement, definition by definition\n\n{MADE}\n\n"
        f"The theorem of [PROOF.md](PROOF.md) rests on these {count} definitions, {total} lines without comments. Each is listed under the "
        "first command that needs it, with the comment above it in its file. Names of one row share a comment.\n"
    ]
    for stage, found in stages:
        files: dict[tuple[str, str], list[Definition]] = {}
        for definition in found:
            files.setdefault((definition.crate, definition.module), []).append(definition)
        title = "The clauses themselves" if stage == "all" else stage
        parts.append(f"## {title}\n\n{len(found)} definitions, {sum(len(definition.lines) for definition in found)} lines.\n")
        for crate, module in sorted(files, key=lambda place: (rank[place[0]], place[1])):
            path = f"crates/{crate}/specs/{module.replace('.', '/')}.antt"
            rows: dict[str, list[str]] = {}
            for definition in by_place(files[crate, module]):
                rows.setdefault(definition.comment, []).append(f"`{definition.name}`")
            lines = [f"| {', '.join(names)} | {cell(comment)} |" for comment, names in rows.items()]
            parts.append("\n".join([f"| [{crate} {module}](../{path}) | |", "|---|---|", *lines]) + "\n")
    return "\n".join(parts)


def by_place(found: list[Definition]) -> list[Definition]:
    """Definitions of one file in its order."""
    text = (CRATES / found[0].crate / "specs" / (found[0].module.replace(".", "/") + ".antt")).read_text()
    order = [head[1] for line in text.split("\n") if (head := HEAD.match(line))]
    return sorted(found, key=lambda definition: order.index(definition.name))


@dataclass(frozen=True)
class Call:
    """A public call with a contract: its name with its type, whether it is a law, and the first sentence of its comment."""

    name: str
    is_law: bool
    comment: str


OWNER = re.compile(r"^(?:pub )?(?:unsafe )?(?:trait (\w+)|impl(?:<[^{]*?>)? (?:\w+(?:<[^{]*?>)? for )?(\w+))")


def calls_in(path: Path) -> list[Call]:
    """The public calls of a source file that have clauses of what they ensure, in order. What a trait asks for is told by the trait."""
    found: list[Call] = []
    owner, is_trait, comment = "", False, []
    lines = path.read_text().split("\n")
    for place, line in enumerate(lines):
        if re.match(r"^(pub )?(impl|trait|unsafe impl)\b", line):
            named = OWNER.match(line)
            owner, is_trait = (named[1] or named[2], bool(named[1])) if named else ("", False)
        elif line.startswith("}"):
            owner, is_trait = "", False
        head = re.match(r"^( {4})?(pub )?(?:unsafe )?fn (\w+)", line)
        if line.strip().startswith("///"):
            comment.append(line.strip()[3:].strip())
        elif head and (head[2] or (is_trait and head[1])):
            contract = contract_from(lines[place:])
            if re.search(r"\bensures\b", contract):
                name = f"{owner}::{head[3]}" if head[1] and owner else head[3]
                told = re.split(r"(?<=[.])\s", " ".join(comment))[0]
                is_law = told.startswith("A law") or ("::" not in name and contract.endswith("{}"))
                found.append(Call(name, is_law, told))
            comment = []
        elif line.strip() and not line.strip().startswith(("#[", "//")):
            comment = []
    return found


def contract_from(lines: list[str]) -> str:
    """The signature and the clauses of the function that begins here, up to its body."""
    kept: list[str] = []
    for line in lines:
        kept.append(line)
        if re.fullmatch(r"\s*\{\}?", line) or line.rstrip().endswith(";"):
            break
    return "\n".join(kept).rstrip()


def contracts() -> str:
    """The page of the crates."""
    parts = [
        f"# Crate by crate\n\n{MADE}\n\n"
        "What each crate is for, by the first lines of its `lib.rt`; its laws, by their comments; and its calls that have a contract. The clauses "
        "stand at the calls. [PROOF.md](PROOF.md#crate-by-crate) says what proved means.\n"
    ]
    for crate in ranks():
        lib = CRATES / crate / "src" / "lib.rt"
        if not lib.exists():
            continue
        head = [line[3:].strip() for line in lib.read_text().split("\n") if line.startswith("//!")]
        first = " ".join(head[: head.index("")] if "" in head else head)
        parts.append(f"## {crate}\n\n[`{crate}`](../crates/{crate}/src/lib.rt): {first}\n")
        lines: list[str] = []
        for path in sorted((CRATES / crate / "src").rglob("*.rt")):
            found = calls_in(path)
            link = f"[{path.relative_to(CRATES / crate / 'src')}](../{path.relative_to(TOP)})"
            names = ", ".join(f"`{definition.name}`" for definition in found if not definition.is_law)
            if names:
                lines.append(f"- {link}: {names}")
            for definition in found:
                if definition.is_law:
                    told = re.sub(r"^A law: (.)", lambda word: word[1].upper(), definition.comment)
                    lines.append(f"- `{definition.name}` in {link}: {told.replace('<', '&lt;')}")
        if lines:
            parts.append("\n".join(lines) + "\n")
    return "\n".join(parts)


def main() -> int:
    """Writes the pages, or compares them."""
    asked = sys.argv[1:]
    made = {STATEMENT: statement(), CONTRACTS: contracts()}
    if asked == ["write"]:
        for page, text in made.items():
            page.write_text(text)
        return 0
    if asked not in ([], ["check"]):
        print(__doc__, file=sys.stderr)
        return 2
    wrong = [page for page, text in made.items() if not page.exists() or page.read_text() != text]
    for page in wrong:
        print(f"{page.relative_to(TOP)} is not what the sources give: `checks/run definitions write` makes it anew")
    print(f"{len(made) - len(wrong)} passed, {len(wrong)} failed")
    return int(bool(wrong))


if __name__ == "__main__":
    sys.exit(main())
