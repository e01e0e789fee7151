"""Builds the site of the pages by mkdocs: `make site` into build/site/html, and `checks/run site` into a folder that goes again.

    python3 -m checks.lint.site [FOLDER]

Every page of the repository is in it, at its own path, and each file that a page links: pictures as they are, sources as text.
A folder that a page links is its README, or a list of its files. The order is that of packaging/mkdocs.yml, which names each page
once. mkdocs refuses a link that leads nowhere. The last line is 'N passed, M failed'.
"""

from __future__ import annotations

import os
import re
import shutil
import subprocess
import sys
import tempfile
from collections.abc import Iterator
from pathlib import Path

from checks import TOP
from checks.lint.pages import pages
from checks.lint.prose import FENCE, LINK

# The order of the pages, and how mkdocs reads them.
ORDER = TOP / "packaging" / "mkdocs.yml"
# What a browser shows as it is; every other file gets the ending .txt, so that it is shown as text.
SHOWN = {".svg", ".png", ".md", ".html"}


def slug(words: str, separator: str) -> str:
    """The anchor of a heading, as the usual readers of Markdown make it. mkdocs.yml names this function."""
    return re.sub(r"[^\w\- ]", "", words.strip().lower()).replace(" ", separator)


def place_of(target: Path) -> str:
    """Where the site has a file or folder of the repository, from its top. mkdocs leaves out what begins with a dot."""
    name = re.sub(r"(^|/)\.", r"\1", target.relative_to(TOP).as_posix())
    if target.is_dir():
        page = "README.md" if (target / "README.md").exists() else "index.md"
        return page if target == TOP else f"{name}/{page}"
    return name if target.suffix in SHOWN else f"{name}.txt"


class Site:
    """The sources of the site: pages with links that lead to what the site has, and the files that they link."""

    def __init__(self, folder: Path) -> None:
        """Writes into this folder, which is made anew."""
        self.folder = folder
        self._linked: set[Path] = set()
        # The headings that pages link: the page, and the anchor.
        self.anchors: set[tuple[Path, str]] = set()
        shutil.rmtree(folder, ignore_errors=True)

    def write(self) -> None:
        """Writes all pages, and then what they link."""
        for page in pages():
            self._put(place_of(page), self._moved(page))
        for target in sorted(self._linked):
            place = self.folder / place_of(target)
            if target.is_dir():
                if not (target / "README.md").exists():
                    self._put(place_of(target), "".join(listing(target)))
            elif target.suffix != ".md":
                place.parent.mkdir(parents=True, exist_ok=True)
                shutil.copyfile(target, place)

    def _put(self, place: str, text: str) -> None:
        path = self.folder / place
        path.parent.mkdir(parents=True, exist_ok=True)
        path.write_text(text, encoding="utf-8")

    def _moved(self, page: Path) -> str:
        """The text of a page, with each link outside code blocks to the place in the site."""

        def moved(found: re.Match[str]) -> str:
            path, _, anchor = found[2].partition("#")
            if not path and anchor:
                self.anchors.add((page, anchor))
            if not path or re.match(r"[a-z]+:", path):
                return found[0]
            target = (page.parent / path).resolve()
            self._linked.add(target)
            if anchor:
                self.anchors.add((target, anchor))
            place = os.path.relpath(self.folder / place_of(target), (self.folder / place_of(page)).parent)
            return found[0].replace(f"({found[2]})", f"({place}{'#' + anchor if anchor else ''})")

        lines, fenced = [], False
        for line in page.read_text(encoding="utf-8").split("\n"):
            fenced = fenced != bool(FENCE.match(line))
            lines.append(line if fenced else LINK.sub(moved, line))
        return "\n".join(lines)


def listing(folder: Path) -> Iterator[str]:
    """A page for a folder without one: its name, and the files in it that the repository has."""
    name = folder.relative_to(TOP).as_posix()
    yield f"# {name}\n\n"
    kept = subprocess.run(["git", "ls-files", name], cwd=TOP, capture_output=True, text=True, check=True).stdout
    for line in kept.splitlines():
        yield f"- `{line}`\n"


def named_pages() -> list[str]:
    """The pages that mkdocs.yml names, as often as it does."""
    return re.findall(r":\s+([\w./-]+\.md)$", ORDER.read_text(encoding="utf-8"), re.M)


def faults_of_order() -> Iterator[str]:
    """A line for each page that the order of the site lacks, has twice, or has for nothing."""
    named = named_pages()
    there = {page.relative_to(TOP).as_posix() for page in pages()}
    for page in sorted(there - set(named)):
        yield f"packaging/mkdocs.yml lacks {page}: give it a place"
    for page in sorted({page for page in named if named.count(page) > 1}):
        yield f"packaging/mkdocs.yml names {page} twice: leave one place"
    for page in sorted(set(named) - there):
        yield f"packaging/mkdocs.yml names {page}, which is no page: take it out"


def faults_of_anchors(html: Path, anchors: set[tuple[Path, str]]) -> Iterator[str]:
    """A line for each linked heading that the site does not have by its anchor."""
    for page, anchor in sorted(anchors):
        name = page.relative_to(TOP)
        place = html / name.parent / ("index.html" if name.name == "README.md" else f"{name.stem}/index.html")
        if f'id="{anchor}"' not in place.read_text(encoding="utf-8"):
            yield f"{name}: the site has no heading {anchor}: see slug of checks/lint/site.py"


def build(folder: Path) -> list[str]:
    """Builds the site into folder/html from folder/pages, and answers what is wrong."""
    faults = list(faults_of_order())
    site = Site(folder / "pages")
    site.write()
    made = subprocess.run(
        ["mkdocs", "build", "--strict", "--config-file", str(ORDER), "--site-dir", str(folder / "html")],
        env=os.environ | {"PYTHONPATH": str(TOP), "SITE_PAGES": str(folder / "pages")}, capture_output=True, text=True,
    )
    if made.returncode != 0:
        return faults + [line for line in made.stderr.splitlines() if "WARNING" in line or "rror" in line]
    return faults + list(faults_of_anchors(folder / "html", site.anchors))


def main(arguments: list[str]) -> int:
    """Builds, prints a line for each fault, and the last line of a check."""
    if shutil.which("mkdocs") is None:
        print("skipped: mkdocs is not there")
        print("0 passed, 0 failed")
        return 0
    with tempfile.TemporaryDirectory() as kept_nowhere:
        faults = build(Path(arguments[0] if arguments else kept_nowhere).resolve())
    for fault in faults:
        print(fault)
    print(f"{len(pages())} passed, {len(faults)} failed")
    return 1 if faults else 0


if __name__ == "__main__":
    sys.exit(main(sys.argv[1:]))
