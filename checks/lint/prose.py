"""The sentences of a page in Markdown, or of the doc comments of a source file, and how long they are."""

import re
from collections.abc import Iterator

LINK = re.compile(r"!?\[((?:[^\[\]]|\[[^\]]*\])*)\]\(([^()\s]+)\)")
CODE = re.compile(r"`([^`\n]+)`")
FENCE = re.compile(r"^ *(```|~~~)")
DOC_COMMENT = re.compile(r"\s*//[/!] ?(.*)")


def blanked(text: str) -> str:
    """As many blanks, and the same lines."""
    return re.sub(r"[^\n]", " ", text)


def prose_of(text: str) -> str:
    """The text with code blocks, comments and headings blanked out, so that all places stay where they are."""
    kept: list[str] = []
    fenced, code, blank, item = False, False, True, False
    for line in re.sub(r"<!--.*?-->", lambda match: blanked(match.group()), text, flags=re.S).split("\n"):
        if FENCE.match(line):
            fenced, line = not fenced, blanked(line)
        elif fenced or line.startswith("#"):
            line, item = blanked(line), False
        elif line.startswith("    ") and not item and (blank or code):
            code = True
            kept.append(blanked(line))
            continue
        code = code and not line.strip()
        # What is indented below an item of a list belongs to it.
        item = bool(re.match(r" *([-*]|\d+\.) ", line)) or (item and (line.startswith("  ") or not line.strip()))
        blank = not line.strip()
        kept.append(line)
    return "\n".join(kept)


def blocks_of(text: str) -> Iterator[str]:
    """The paragraphs and items of a text, without tables, pictures and code blocks."""
    block: list[str] = []
    for line in [*prose_of(text).split("\n"), ""]:
        line = line.lstrip("> ") if line.startswith(">") else line
        begins = re.match(r" *([-*]|\d+\.) (?:\[[ x]\] )?", line)
        if (not line.strip() or begins or line.startswith("|")) and block:
            yield " ".join(block)
            block = []
        if line.strip() and not line.startswith("|") and not line.startswith("!["):
            block.append(line[begins.end() :] if begins else line.strip())


def sentences_of(text: str) -> Iterator[str]:
    """The sentences of a text. A piece of code is one word, and the full stop behind an initial ends none."""
    for block in blocks_of(text):
        words = CODE.sub("code", LINK.sub(r"\1", block))
        words = re.sub(r"\*\*?|\.{2,}", "", words)
        for sentence in re.split(r"(?:(?<![A-Z])|(?<=\d [A-Z]))[.?!][)\"*]*(?=\s|$)", words):
            if re.search(r"\w", sentence):
                yield sentence.strip()


def length_of(sentence: str) -> int:
    """How many words a sentence has."""
    return len(re.findall(r"[^\s]*\w[^\s]*", sentence))


def lengths_of(text: str) -> list[int]:
    """The words of each sentence of a text."""
    return [length_of(sentence) for sentence in sentences_of(text)]


def comments_of(source: str) -> str:
    """The doc comments of a source file as one text: each is a paragraph of its own, or several."""
    found: list[str] = []
    for line in source.split("\n"):
        comment = DOC_COMMENT.fullmatch(line)
        if comment:
            found.append(comment.group(1))
        elif found and found[-1]:
            found.append("")
    return "\n".join(found)
