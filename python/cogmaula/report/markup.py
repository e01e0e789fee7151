"""The page of a report: one text in HTML that needs no script and names no address."""

from __future__ import annotations

from collections.abc import Iterable, Sequence
from html import escape

# A table of so many rows is printed on one page.
MOST_UNBROKEN = 20

STYLE = """
:root { color-scheme: light dark; --paper: #fff; --ink: #1a1a1a; --soft: #5a5a5a; --line: #d9d9d9; --head: #f4f4f4; --link: #00548a;
  --bad: #b3400a; --good: #00664a; --warn: #fdf3d8; --blue: #0072b2; }
@media (prefers-color-scheme: dark) { :root { --paper: #16181a; --ink: #e8e8e8; --soft: #a9adb1; --line: #3c4043; --head: #222629;
  --link: #7cc0f2; --bad: #ff9a62; --good: #5fd0a5; --warn: #3a3115; --blue: #4aa8e0; } }
* { box-sizing: border-box; }
body { margin: 0 auto; max-width: 80rem; padding: 1rem; color: var(--ink); background: var(--paper);
  font: 1rem/1.45 system-ui, "DejaVu Sans", sans-serif; }
h1 { font-size: 1.5rem; margin: .2rem 0; overflow-wrap: anywhere; }
h2 { font-size: 1.2rem; margin: 2rem 0 .4rem; border-bottom: 1px solid var(--line); }
h3 { font-size: 1rem; margin: 1rem 0 .2rem; overflow-wrap: anywhere; }
p { max-width: 44rem; margin: .4rem 0; }
a { color: var(--link); }
nav a { display: inline-block; padding: .3rem .7rem .3rem 0; }
.soft, figcaption, caption { color: var(--soft); }
.small { font-size: .85rem; }
.large { font-size: 1.4rem; font-weight: 600; overflow-wrap: anywhere; }
.bad { color: var(--bad); font-weight: 600; }
.good { color: var(--good); font-weight: 600; }
.warning { background: var(--warn); border-left: .3rem solid var(--bad); padding: .4rem .7rem; max-width: none; }
.cards { display: grid; grid-template-columns: repeat(auto-fit, minmax(min(100%, 17rem), 1fr)); gap: .8rem; margin: 1rem 0; }
.cards section { border: 1px solid var(--line); border-radius: .4rem; padding: .5rem .8rem; min-width: 0; }
.cards h2 { font-size: 1rem; margin: 0 0 .3rem; border: 0; }
.cards table { width: 100%; }
.facts { display: grid; grid-template-columns: repeat(auto-fill, minmax(min(100%, 10rem), 1fr)); gap: .6rem; margin: 1rem 0; padding: 0; }
.facts div { border: 1px solid var(--line); border-radius: .4rem; padding: .5rem .7rem; }
.facts dt { color: var(--soft); font-size: .85rem; }
.facts dd { margin: 0; font-size: 1.1rem; overflow-wrap: anywhere; }
main { display: grid; grid-template-columns: minmax(0, 1fr); grid-auto-flow: row dense; gap: 0 3rem; }
@media (min-width: 66rem) { main { grid-template-columns: repeat(2, minmax(0, 1fr)); } section.wide-part { grid-column: 1 / -1; } }
.beside { display: grid; grid-template-columns: repeat(auto-fit, minmax(min(100%, 30rem), 1fr)); gap: 1rem 2rem; align-items: start; }
.beside > * { min-width: 0; }
figure { margin: .5rem 0; max-width: 42rem; }
figure svg { display: block; width: 100%; height: auto; }
figure.detailed > div { overflow-x: auto; }
figure svg text { fill: currentColor; }
figcaption { font-size: .9rem; }
.wide { overflow-x: auto; max-width: 100%; max-height: 36rem; overflow-y: auto; margin: .5rem 0; }
table { border-collapse: collapse; font-variant-numeric: tabular-nums; font-size: .9rem; }
.wide table { min-width: min(100%, 20rem); }
main section:not(.wide-part) .wide :is(th, td), .beside .wide :is(th, td) { padding: .2rem .3rem; font-size: .82rem; }
.beside .wide thead th, main section:not(.wide-part) .wide thead th { min-width: 2.5rem; }
.wide tbody th { white-space: normal; overflow-wrap: anywhere; min-width: 8.2rem; }
main section:not(.wide-part) .wide tbody th { min-width: 4.5rem; }
caption { text-align: left; padding: .2rem 0; }
th, td { padding: .2rem .6rem; text-align: right; white-space: nowrap; border-bottom: 1px solid var(--line); }
thead th { white-space: normal; vertical-align: bottom; }
.wide thead th { position: sticky; top: 0; background: var(--head); z-index: 1; }
section.wide-part > .wide thead th, section.wide-part > details .wide thead th { min-width: 4.5rem; }
th:first-child, td:first-child { text-align: left; padding-left: .2rem; }
tbody th { font-weight: normal; }
.wide tbody th { position: sticky; left: 0; background: var(--paper); }
tr.sum > * { border-top: 2px solid var(--line); font-weight: 600; background: var(--paper); }
.wide tr.sum > * { position: sticky; bottom: 0; }
caption { caption-side: top; position: sticky; left: 0; white-space: normal; max-width: 80vw; }
summary { cursor: pointer; padding: .4rem 0; color: var(--link); }
footer { margin-top: 2.5rem; border-top: 1px solid var(--line); font-size: .85rem; color: var(--soft); overflow-wrap: anywhere; }
@media (max-width: 30rem) { th, td { padding: .2rem .3rem; } .wide thead th { min-width: 3.2rem; } .wide table { font-size: .8rem; }
  .wide tbody th { white-space: normal; overflow-wrap: anywhere; min-width: 7.5rem; } .facts { grid-template-columns: 1fr 1fr; }
  figure.detailed svg { min-width: 34rem; } }
@media print {
  :root { color-scheme: light; --paper: #fff; --ink: #000; --soft: #444; --line: #bbb; --head: #eee; --link: #000; --bad: #8a2f00;
    --good: #00553d; --warn: #fff; --blue: #0072b2; }
  @page { margin: 14mm; }
  body { padding: 0; font-size: 10pt; max-width: none; }
  nav { display: none; }
  details:not([open]) > summary { list-style: none; color: var(--soft); }
  details:not([open]) > summary::after { content: ": folded, so not printed. Open it first."; }
  main { display: block; }
  h2 { margin-top: 1.2rem; }
  figure { max-width: 12.5cm; }
  figure.detailed { max-width: 15.5cm; }
  /* A border at the edge of the paper's area would be cut off. */
  .cards, .facts { padding-right: 1px; gap: .4rem; margin: .6rem 0; }
  .cards { grid-template-columns: repeat(3, minmax(0, 1fr)); }
  .facts { grid-template-columns: repeat(4, minmax(0, 1fr)); }
  .facts dd { font-size: 10pt; }
  .facts div { padding: .3rem .5rem; }
  .wide { overflow: visible; max-height: none; }
  .wide th, .wide td, .wide tr.sum > *, .wide tbody th, .wide thead th, caption { position: static; }
  table, main section:not(.wide-part) .wide :is(th, td) { font-size: 8pt; }
  th, td, main section:not(.wide-part) .wide :is(th, td) { padding: .1rem .3rem; }
  thead { display: table-header-group; }
  tr, figure, .cards section, .facts div, .warning, .wide.short, footer { break-inside: avoid; }
  h1, h2, h3, caption { break-after: avoid; }
  footer { break-before: avoid; margin-top: 1.2rem; }
  /* No row stands alone before or behind the end of a page. */
  tbody tr:nth-child(-n + 3) { break-after: avoid; }
  tbody tr:nth-last-child(-n + 3) { break-before: avoid; }
  .beside { display: block; }
  .beside > * { margin-bottom: 1rem; }
  p { orphans: 3; widows: 3; }
}
""".strip()


def page(title: str, body: Iterable[str]) -> str:
    """A whole page."""
    head = (
        '<!DOCTYPE html>\n<html lang="en">\n<head>\n<meta charset="utf-8">\n'
        '<meta name="viewport" content="width=device-width, initial-scale=1">\n'
        f"<title>{escape(title)}</title>\n<style>\n{STYLE}\n</style>\n</head>\n<body>\n"
    )
    return head + "\n".join(body) + "\n</body>\n</html>\n"


def heading(text: str, level: int) -> str:
    """A heading of this level, from 1."""
    return f"<h{level}>{escape(text)}</h{level}>"


def section(name: str, title: str, is_wide: bool, *them: str) -> str:
    """A part of the page with a heading that links lead to. On a wide screen two parts that are not wide are side by side."""
    style = ' class="wide-part"' if is_wide else ""
    return "\n".join([f'<section id="{name}"{style}>', f"<h2>{escape(title)}</h2>", *them, "</section>"])


def contents(sections: Iterable[tuple[str, str]]) -> str:
    """Links to the sections."""
    links = "".join(f'<a href="#{name}">{escape(title)}</a> ' for name, title in sections)
    return f'<nav aria-label="Contents">{links}</nav>'


def parts(them: Iterable[str]) -> str:
    """The parts of the page, side by side if there is room."""
    return "<main>\n" + "\n".join(them) + "\n</main>"


def words(text: str, style: str = "") -> str:
    """A paragraph."""
    kind = f' class="{style}"' if style else ""
    return f"<p{kind}>{escape(text)}</p>"


def facts(pairs: Iterable[tuple[str, str]]) -> str:
    """Short facts, each below its name."""
    return '<dl class="facts">' + "".join(f"<div><dt>{escape(name)}</dt><dd>{escape(value)}</dd></div>" for name, value in pairs) + "</dl>"


def figure(svg: str, caption: str, told: str, *, is_detailed: bool = False) -> str:
    """A figure with its caption; `told` says in words what it shows, for readers who do not see it.

    is_detailed: whether it has small text, so that a narrow screen scrolls it rather than making it smaller
    """
    style = ' class="detailed"' if is_detailed else ""
    scrolled = ' tabindex="0"' if is_detailed else ""
    return f'<figure{style}><div role="img" aria-label="{escape(told)}"{scrolled}>{svg}</div><figcaption>{escape(caption)}</figcaption></figure>'


def cards(them: Iterable[tuple[str, str]]) -> str:
    """Short answers beside each other, each below its question."""
    return '<div class="cards">' + "".join(f"<section><h2>{escape(title)}</h2>{body}</section>" for title, body in them) + "</div>"


def plain_table(head: Sequence[str], rows: Iterable[Sequence[str]]) -> str:
    """A small table without a caption."""
    top = "".join(f'<th scope="col">{escape(title)}</th>' for title in head)
    return f"<table><thead><tr>{top}</tr></thead><tbody>" + "".join(f"<tr>{row_of(row)}</tr>" for row in rows) + "</tbody></table>"


def beside(*them: str) -> str:
    """Pieces side by side if there is room, else one below another."""
    return '<div class="beside">' + "\n".join(f"<div>{body}</div>" for body in them) + "</div>"


def table(caption: str, head: Sequence[str], rows: Iterable[Sequence[str]], sums: Iterable[Sequence[str]] = ()) -> str:
    """A table whose first column names its rows; `sums` are rows at its end that stand out."""
    top = "".join(f'<th scope="col">{escape(title)}</th>' for title in head)
    lines = [f"<tr>{row_of(row)}</tr>" for row in rows] + [f'<tr class="sum">{row_of(summed)}</tr>' for summed in sums]
    style = "wide short" if len(lines) <= MOST_UNBROKEN else "wide"
    # A keyboard can scroll what has the focus.
    return (
        f'<div class="{style}" tabindex="0" role="region" aria-label="{escape(caption)}"><table><caption>{escape(caption)}</caption>'
        f"<thead><tr>{top}</tr></thead><tbody>\n" + "\n".join(lines) + "\n</tbody></table></div>"
    )


def row_of(cells: Sequence[str]) -> str:
    """The cells of a row, the first of which names it."""
    return f'<th scope="row">{escape(cells[0])}</th>' + "".join(f"<td>{escape(cell)}</td>" for cell in cells[1:])


def folded(title: str, *them: str) -> str:
    """Pieces that the reader opens."""
    return f"<details><summary>{escape(title)}</summary>" + "\n".join(them) + "</details>"
