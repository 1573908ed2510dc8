"""Pages of pictures: the answers of a run as HTML that needs nothing from elsewhere."""
import html
from collections import Counter
from typing import Iterator, List, Optional, Sequence

from .formats import FIGURES, Answer, End, Figure, Refused, Stop, Verdict, WitnessFigure, join_words
from .maps import edges_of
from .pictures import STYLE, Labels, Style, require_look, sketch, styles_of, variable
from .runs import Run

CARDS = 300  # on a page of `pages`
MOST_ANSWERS = 10 * CARDS  # on such a page, where few of them have cards

PAGE = """<!DOCTYPE html>
<html lang="en">
<head>
<meta charset="utf-8">
<meta name="viewport" content="width=device-width, initial-scale=1">
<meta name="color-scheme" content="light dark">
<title>{title}</title>
<style>
:root{{{light}}}
@media (prefers-color-scheme:dark){{:root{{{dark}}}}}
@media print{{:root{{{light}}}figure{{break-inside:avoid}}}}
body{{margin:0;padding:1.5rem;background:var(--page);color:var(--text);font:15px/1.45 {font}}}
h1{{font-size:1.3rem;margin:0 0 .2rem}}
p{{margin:0 0 1rem;color:var(--soft)}}
a{{color:var(--dot)}}
nav{{margin:0 0 1rem}}
code{{font-family:monospace;color:var(--text)}}
main{{display:flex;flex-wrap:wrap;gap:1rem;align-items:flex-start}}
figure{{margin:0;padding:.6rem;background:var(--ground);border:1px solid var(--card);border-radius:6px;max-width:100%;box-sizing:border-box}}
svg{{display:block;max-width:100%;height:auto}}
figcaption{{padding-top:.4rem;color:var(--soft);font-size:.87rem;max-width:60rem}}
.bare figcaption{{padding:0}}
details{{margin:0 0 1rem}}
details,summary,.fault figcaption{{color:var(--warn)}}
summary{{cursor:pointer}}
</style>
</head>
<body>
<h1>{title}</h1>
<p>{made}</p>
{nav}{refusals}<main>
{cards}</main>
{nav}</body>
</html>
"""


def page(result: Run, figures: Sequence[Figure] = (), side: Optional[float] = None, labels: Labels = True,
         style: Style = ()) -> str:
    """A run as one HTML page, as text, that needs nothing from elsewhere.

    `result` is a `Run`. Each figure has its picture and a caption, and so has each count line its caption; all refusals
    are folded into one line with their count. For `verify` give the `figures` of its input: each is shown with its
    verdict, without a picture where it names a vertex that it does not have. The page is light or dark as its reader's
    browser asks. `side`, `labels` and `style` are as for `picture`. A run of thousands of records makes a page that is
    slow to open: `pages` makes several.
    """
    return _page(result, result.answers, 0, figures, side, labels, style, "")


def pages(result: Run, figures: Sequence[Figure] = (), side: Optional[float] = None, labels: Labels = True,
          style: Style = (), cards: int = CARDS) -> Iterator[str]:
    """A run as HTML pages of up to `cards` pictures or lines each, as `page` makes one.

    They name each other as links: the first is called index.html, and the others page-2.html, page-3.html and so on.
    """
    answers = result.answers
    cuts = _cuts([not _is_folded(answer, figures) for answer in answers], cards)
    for k, (start, end) in enumerate(zip(cuts, cuts[1:])):
        yield _page(result, answers[start:end], start, figures, side, labels, style, _nav(k, cuts))


def page_name(k: int) -> str:
    """The name of the file for page k of `pages`, counted from 0."""
    return f"page-{k + 1}.html" if k else "index.html"


def _is_folded(answer: Answer, figures: Sequence[Figure]) -> bool:
    """Whether an answer is a refusal that has no figure to be shown with."""
    return isinstance(answer, Refused) and not figures


def _cuts(has_card: Sequence[bool], cards: int) -> List[int]:
    """Where each page begins in the answers, and where the last one ends."""
    cuts, shown = [0], 0
    for k, is_card in enumerate(has_card):
        if shown + is_card > cards or k - cuts[-1] >= MOST_ANSWERS:
            cuts.append(k)
            shown = 0
        shown += is_card
    return [*cuts, len(has_card)]


def _nav(k: int, cuts: Sequence[int]) -> str:
    """The links on page k of those that begin at these places in the answers."""
    count = len(cuts) - 1
    if count < 2:
        return ""
    shown = sorted({0, count - 1, *range(max(0, k - 4), min(count, k + 5))})
    links = [f"<b>{i + 1}</b>" if i == k else f'<a href="{page_name(i)}">{i + 1}</a>' for i in shown]
    return f"<nav>Page {' '.join(links)} of {count}: answers {cuts[k] + 1:,} to {cuts[k + 1]:,}</nav>\n"


def _page(result: Run, answers: Sequence[Answer], start: int, figures: Sequence[Figure], side: Optional[float],
          labels: Labels, style: Style, nav: str) -> str:
    """A page of the answers from the one at `start` on."""
    style = styles_of(style)
    require_look(side, labels)
    refused = [answer for answer in answers if isinstance(answer, Refused) and _is_folded(answer, figures)]
    cards = []
    for k, answer in enumerate(answers, start):
        if isinstance(answer, FIGURES):
            cards.append(_card(_caption(answer), answer, side, labels, style))
        elif isinstance(answer, (Refused, Verdict)) and k < len(figures):
            caption = f"{_caption(figures[k])}: {join_words(answer.name, *answer.numbers)}"
            cards.append(_card(caption, figures[k], side, labels, style, "" if answer.name == "yes" else "fault"))
        elif not _is_folded(answer, figures):
            cards.append(_card(str(answer), None, side, labels, style))
    colours = {tone: ";".join(f"--{name}:{colour}" for name, colour in STYLE[tone].items()) for tone in ("light", "dark")}
    return PAGE.format(title=f"pigale {result.job}", made=_made(result), nav=nav, refusals=_refusals(refused),
                       cards="".join(cards), font=STYLE["font"], **colours)


def _made(result: Run) -> str:
    last = result.blocks[-1] if result.blocks else None
    if isinstance(last, End):
        done = f"{last.records:,} record{'' if last.records == 1 else 's'}, {last.refused:,} refused"
    else:
        done = f"it ended with status {result.status}{f' ({last})' if isinstance(last, Stop) else ''}"
    return f"A run of <code>pigale {html.escape(result.job)}</code>: {html.escape(done)}."


def _refusals(refused: List[Refused]) -> str:
    """The refusals folded into one line, which says how many there are by their names."""
    if not refused:
        return ""
    names = ", ".join(f"{count:,} {html.escape(name)}" for name, count in Counter(r.name for r in refused).most_common())
    lines = "<br>\n".join(html.escape(str(answer)) for answer in refused)
    return f"<details><summary>{len(refused):,} refused: {names}</summary>\n{lines}\n</details>\n"


def _caption(figure: Figure) -> str:
    if isinstance(figure, WitnessFigure):
        kind = {"K5": "K5", "K33": "K3,3"}[figure.kind]
        return f"{figure.number}: a subdivision of {kind} in {figure.graph6}"
    vertices, edges = len(figure.lists), len(edges_of(figure.lists))
    return f"{figure.number}: {figure.job}, {vertices} {'vertex' if vertices == 1 else 'vertices'}, {edges} edge{'s' * (edges != 1)}"


def _card(caption: str, figure: Optional[Figure], side: Optional[float], labels: Labels, style: Style, kind: str = "") -> str:
    words = html.escape(caption)
    body = ""
    if figure is not None:
        try:
            width, height, body = sketch(figure, side, labels, style, variable)
        except ValueError:
            kind = "fault"
    if not body:
        return f'<figure class="bare {kind}"><figcaption>{words}</figcaption></figure>\n'
    return (f'<figure class="{kind}"><svg viewBox="0 0 {width} {height}" width="{width}" height="{height}" role="img" '
            f'aria-label="{words}">\n{body}</svg><figcaption>{words}</figcaption></figure>\n').replace(' class=""', "")
