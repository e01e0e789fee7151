"""Whether the pages can be read: links that lead somewhere, a first page of 8 KB, short sentences, words spelt right.

    python3 -m checks.lint.pages                checks all pages
    python3 -m checks.lint.pages words          prints the mean sentence of each page and crate, the longest first
    python3 -m checks.lint.pages long N         prints each sentence above N words, with its page or source file
    python3 -m checks.lint.pages link PAGE ..   makes a link of each path that these pages name without one the first time

A page is a file in Markdown. The doc comments of crates/ are read for their sentences alone. The check prints a line for each
finding and ends with 'N passed, M failed'. It refuses

- a link inside the repository to a file that is not there, or to a heading that its page has not;
- a link that names one file and leads to another, as after a file was renamed;
- a link that goes over the end of a line, which an installed page cannot have;
- a README above 8 KB;
- a mean above 17 words a sentence, over the README and the pages of docs/, and over the doc comments of all crates;
- a path of the repository that a page names and does not link the first time. Headings, code blocks and what a command is
  given are left out;
- a report that a page quotes and that is no part of the text of an example;
- a name in ARCHITECTURE.md, the map, that no source defines;
- what codespell calls a misspelling, if codespell is there.
"""

import re
import shutil
import subprocess
import sys
from collections.abc import Callable, Iterator
from pathlib import Path

from checks import TOP
from checks.lint.prose import CODE, FENCE, LINK, blanked, comments_of, length_of, lengths_of, prose_of, sentences_of

README_LIMIT = 8192
MEAN_LIMIT = 17.0

# Folders that hold no pages of ours, beside the hidden ones.
OTHERS = {"out", "build", "__pycache__"}

# Words of the field and of the tools that codespell may take for slips.
IGNORED_WORDS = "antt,crate,crates,kok,omega,setpoint,setpoints"

FILE = re.compile(r"[\w./-]*\.(?:antt|json|md|py|rs|rt|sh|svg|toml|txt)")
PATH = re.compile(r"(?<![\w/.@:-])(?:\.{0,2}/)?[\w.@-]+(?:/[\w.@-]+)*/?(?![\w@-])")
REPORT = re.compile(r" {4,}((?:phase \d|member [\w-]+ power -?\d|limited [\w-]+ price -?\d|end phases \d).*)")


def pages() -> list[Path]:
    """All pages, the README first."""
    found = []
    for path in TOP.rglob("*.md"):
        parts = path.relative_to(TOP).parts
        if not OTHERS & set(parts) and not any(part.startswith(".") for part in parts):
            found.append(path)
    return sorted(found, key=lambda path: (path != TOP / "README.md", str(path)))


def name_of(page: Path) -> str:
    """A page as it is named from the top."""
    return str(page.relative_to(TOP))


def anchors_of(page: Path) -> set[str]:
    """The anchors of a page's headings, as the usual readers of Markdown make them."""
    found: dict[str, int] = {}
    anchors = set()
    fenced = False
    for line in page.read_text().split("\n"):
        fenced = fenced != bool(FENCE.match(line))
        heading = re.match(r"#{1,6} +(.*?)(?: #+)?$", line)
        if heading and not fenced:
            words = LINK.sub(r"\1", heading.group(1)).lower()
            slug = re.sub(r"[^\w\- ]", "", words).replace(" ", "-")
            number = found.get(slug, 0)
            found[slug] = number + 1
            anchors.add(f"{slug}-{number}" if number else slug)
    return anchors


def target_of(page: Path, link: str) -> Path:
    """The file or folder that a link of a page leads to."""
    path = link.partition("#")[0]
    return (page.parent / path).resolve() if path else page


def broken_lines(page: Path) -> Iterator[str]:
    """The links of a page that go over the end of a line."""
    text = prose_of(page.read_text())
    for found in LINK.finditer(text):
        if "\n" in found.group(0):
            yield f"{name_of(page)}:{text.count(chr(10), 0, found.start()) + 1}: a link goes over the end of a line: put it on one line"


def dead_links(page: Path) -> Iterator[str]:
    """The links of a page that lead nowhere inside the repository."""
    for found in LINK.finditer(prose_of(page.read_text())):
        link = found.group(2)
        if re.match(r"[a-z]+:", link):
            continue
        target, anchor = target_of(page, link), link.partition("#")[2]
        if not target.exists():
            yield f"{name_of(page)}: the link {link} leads to no file: correct it"
        elif not target.is_relative_to(TOP):
            yield f"{name_of(page)}: the link {link} leads out of the repository: name what is in it"
        elif anchor and (target.suffix != ".md" or anchor not in anchors_of(target)):
            yield f"{name_of(page)}: the link {link} leads to no heading of {name_of(target)}: correct it"


def misnamed_links(page: Path) -> Iterator[str]:
    """The links of a page whose words are the name of a file other than the one that they lead to."""
    for found in LINK.finditer(prose_of(page.read_text())):
        words, link = re.sub(r"[`\\]", "", found.group(1)), found.group(2)
        if not FILE.fullmatch(words) or re.match(r"[a-z]+:", link):
            continue
        target = target_of(page, link)
        if Path(words).name != target.name:
            yield f"{name_of(page)}: the link {words} leads to {target.name}: name that"


def path_named(page: Path, words: str) -> Path | None:
    """The file or folder of the repository that these words name, if they name one."""
    if words == "./market" or not re.search(r"/|\.\w+$|^[A-Z][A-Za-z]+$", words) or "://" in words:
        return None
    for folder in (page.parent, TOP):
        found = (folder / words).resolve()
        # What is built is there on some machines alone, so no page can link it.
        is_built = bool(OTHERS & set(found.parts[len(TOP.parts):]))
        if found.exists() and found.is_relative_to(TOP) and found not in (TOP, page) and not is_built:
            return found
    return None


def names_of(page: Path, text: str) -> Iterator[tuple[int, int, Path]]:
    """Where a text outside links names a path: in code the first word, elsewhere each word with a slash or an end."""
    spans = [(match.start(), match.end(), match.group(1)) for match in CODE.finditer(text)]
    for start, end, code in spans:
        found = path_named(page, code.split()[0]) if code.split() else None
        if found:
            yield start, end, found
    rest = CODE.sub(lambda match: blanked(match.group()), text)
    for match in PATH.finditer(rest):
        words = match.group().rstrip(".")
        found = path_named(page, words) if "/" in words or re.search(r"\.(md|txt|json|py|sh)$", words) else None
        if found:
            yield match.start(), match.start() + len(words), found


def unlinked(page: Path) -> list[tuple[int, int, Path]]:
    """Where a page names a path for the first time without a link."""
    text = prose_of(page.read_text())
    links = [(match.start(), target_of(page, match.group(2))) for match in LINK.finditer(text) if not re.match(r"[a-z]+:", match.group(2))]
    rest = LINK.sub(lambda match: blanked(match.group()), text)
    named = [(start, end, path) for start, end, path in names_of(page, rest)]
    events = sorted([(start, start, path, True) for start, path in links] + [(*place, False) for place in named])
    # What stands in a link counts as linked, whatever the link leads to.
    inside = [(match.start(), path) for match in LINK.finditer(text) for _, _, path in names_of(page, match.group(1))]
    events = sorted(events + [(start, start, path, True) for start, path in inside])
    seen: set[Path] = set()
    findings = []
    for start, end, path, linked in events:
        if path not in seen and not linked:
            findings.append((start, end, path))
        seen.add(path)
    return findings


def paths_without_a_link(page: Path) -> Iterator[str]:
    """A line for each path that a page names for the first time without a link."""
    text = page.read_text()
    for start, end, _ in unlinked(page):
        place = f"{name_of(page)}:{text.count(chr(10), 0, start) + 1}"
        yield f"{place}: {text[start:end]} is no link the first time: checks/run pages link {name_of(page)} makes it one"


def reports_of_no_example(page: Path) -> Iterator[str]:
    """The reports that a page quotes and that are no lines, one after another, of the text of an example."""
    texts = [path.read_text() for path in sorted((TOP / "examples").rglob("*.txt"))]
    quoted: list[str] = []
    for number, line in enumerate([*page.read_text().split("\n"), ""], 1):
        if found := REPORT.fullmatch(line):
            quoted.append(found.group(1))
        elif quoted:
            if not any("".join(f"{line}\n" for line in quoted) in text for text in texts):
                yield f"{name_of(page)}:{number - len(quoted)}: the text of no example has the report that begins '{quoted[0]}'"
            quoted = []


def names_of_no_source() -> Iterator[str]:
    """The names of functions, types and definitions on the map that nothing defines, such as one that was renamed."""
    map_page = TOP / "ARCHITECTURE.md"
    sources = [*(TOP / "crates").glob("*/src/**/*.rt"), *(TOP / "python" / "cogmaula").rglob("*.py")]
    defined = set(re.findall(r"\b(?:fn|def|class|struct|enum|trait|type|const) (\w+)", "\n".join(source.read_text() for source in sources)))
    worded = set(re.findall(r"\w+", "\n".join(path.read_text() for path in (TOP / "crates").glob("*/specs/**/*.antt"))))
    for name in sorted(set(re.findall(r"`([A-Za-z_]+(?:(?:::|\.)[A-Za-z_]+)*)`", map_page.read_text()))):
        if re.split(r"::|\.", name)[-1] not in defined | worded and not (TOP / "crates" / name).exists():
            yield f"{name_of(map_page)}: nothing in the sources has the name {name}: write what it is called now"


def relative(page: Path, path: Path) -> str:
    """The path as a link of the page has it."""
    up = len(page.parent.relative_to(TOP).parts)
    if path.is_relative_to(page.parent):
        return str(path.relative_to(page.parent))
    return "../" * up + str(path.relative_to(TOP))


def make_links(chosen: list[Path]) -> int:
    """Makes a link of each path that these pages name without one the first time."""
    made = 0
    for page in chosen:
        text = page.read_text()
        for start, end, path in reversed(unlinked(page)):
            text = f"{text[:start]}[{text[start:end]}]({relative(page, path)}){text[end:]}"
            made += 1
        page.write_text(text)
    print(f"{made} links made")
    return 0


def read_first() -> list[Path]:
    """The pages whose sentences are measured: the README and those of docs/."""
    return [page for page in pages() if page == TOP / "README.md" or page.is_relative_to(TOP / "docs")]


def sources() -> list[Path]:
    """The source files of all crates, whose doc comments are measured."""
    return sorted((TOP / "crates").glob("*/src/**/*.rt"))


def text_of(path: Path) -> str:
    """The prose of a page, or of the doc comments of a source file."""
    return comments_of(path.read_text()) if path.suffix == ".rt" else path.read_text()


def mean_of(paths: list[Path]) -> tuple[float, int]:
    """The mean sentence of these pages or sources in words, and how many sentences they have."""
    lengths = [length for path in paths for length in lengths_of(text_of(path))]
    return sum(lengths) / len(lengths), len(lengths)


def long_sentences() -> Iterator[str]:
    """A line if the mean sentence of the pages is too long, and one if that of the doc comments is."""
    for what, paths in (("the README and docs/", read_first()), ("the doc comments of crates/", sources())):
        mean, _ = mean_of(paths)
        if mean > MEAN_LIMIT:
            limit = f"above {MEAN_LIMIT:.0f}: checks/run pages long 25 lists what to split"
            yield f"the mean sentence of {what} has {mean:.1f} words, {limit}"


def long_readme() -> Iterator[str]:
    """A line if the README is too long."""
    size = (TOP / "README.md").stat().st_size
    if size > README_LIMIT:
        yield f"README.md has {size:,} bytes, above {README_LIMIT:,}: move a part to docs/"


def misspellings() -> Iterator[str]:
    """What codespell finds in the pages."""
    command = ["codespell", "--ignore-words-list", IGNORED_WORDS, *map(name_of, pages())]
    told = subprocess.run(command, cwd=TOP, capture_output=True, text=True, check=False)
    yield from told.stdout.splitlines()
    if told.returncode and not told.stdout:
        yield f"codespell ended with status {told.returncode}: {told.stderr.strip()}"


def rows_of_means() -> Iterator[tuple[float, int, str]]:
    """The mean sentence of each page and of each crate's doc comments, with the number of sentences and the name."""
    for page in pages():
        if lengths_of(text_of(page)):
            yield *mean_of([page]), name_of(page)
    crates = sorted({source.relative_to(TOP).parts[1] for source in sources()})
    for crate in crates:
        paths = [source for source in sources() if source.relative_to(TOP).parts[1] == crate]
        if any(lengths_of(text_of(path)) for path in paths):
            yield *mean_of(paths), f"crates/{crate}/src"


def print_means() -> int:
    """Prints the mean sentence of each page and of each crate's doc comments, and of those that are measured together."""
    for mean, count, name in sorted(rows_of_means(), reverse=True):
        print(f"{mean:6.1f} words in {count:4} sentences  {name}")
    for what, paths in (("README.md and docs/", read_first()), ("doc comments", sources())):
        mean, count = mean_of(paths)
        print(f"{mean:6.1f} words in {count:4} sentences  {what}")
    return 0


def print_long(limit: int) -> int:
    """Prints each sentence above so many words, of the pages and then of the doc comments."""
    for path in [*pages(), *sources()]:
        for sentence in sentences_of(text_of(path)):
            if length_of(sentence) > limit:
                print(f"{name_of(path)}: {length_of(sentence)}: {sentence}")
    return 0


def check() -> int:
    """Runs all checks, prints the findings and answers the status."""
    checks: list[Callable[[], Iterator[str]]] = [long_readme, long_sentences, names_of_no_source]
    checks += [lambda page=page: dead_links(page) for page in pages()]
    checks += [lambda page=page: misnamed_links(page) for page in pages()]
    checks += [lambda page=page: broken_lines(page) for page in pages()]
    checks += [lambda page=page: paths_without_a_link(page) for page in pages()]
    checks += [lambda page=page: reports_of_no_example(page) for page in pages()]
    if shutil.which("codespell"):
        checks.append(misspellings)
    else:
        print("skipped: the spelling of the pages: there is no codespell (Debian: codespell)")
    for what, paths in (("README.md and docs/", read_first()), ("doc comments", sources())):
        mean, count = mean_of(paths)
        print(f"mean sentence of {what}: {mean:.1f} words in {count} sentences")
    passed, failed = 0, 0
    for check in checks:
        findings = list(check())
        for line in findings:
            print(line)
        failed += len(findings)
        passed += not findings
    print(f"{passed} passed, {failed} failed")
    return 1 if failed else 0


def main() -> int:
    """Runs what the arguments ask for."""
    match sys.argv[1:]:
        case []:
            return check()
        case ["words"]:
            return print_means()
        case ["long", limit] if limit.isdigit():
            return print_long(int(limit))
        case ["link", *chosen] if chosen:
            return make_links([(TOP / path).resolve() for path in chosen])
    print("usage: checks/run pages [words | long N | link PAGE ..]", file=sys.stderr)
    return 2


if __name__ == "__main__":
    sys.exit(main())
