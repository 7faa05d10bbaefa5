"""The pictures of a page that draws runs, as one picture in SVG that stands alone."""
from __future__ import annotations

import re

__all__ = ["svg_of"]

_PARTS = re.compile(
    r'<h[23]>(?P<head>[^<]*)</h[23]>|<div class="strip"><div class="side">(?P<side><svg .*?</svg>)</div><div class="time">(?P<time><svg .*?</svg>)</div></div>', re.S,
)
_SIZE = re.compile(r'<svg [^>]*?width="(\d+)" height="(\d+)"')
_HEAD, _GAP = 30, 12
# what a page's style says of text and shapes; the rest is of HTML
_OF_HTML = re.compile(r"(?<![.\w])(?:body|h1|h2|h3|pre|code|td|th|dd|dt|p|table|caption|svg)\b|\.(?:facts|note|story|key|strip|side|time|wide|two|card|script|mono)\b|\*")


def _rules(page: str) -> str:
    """The rules of the page's style that pictures need, in the colours of a light page, and without variables, which few readers of SVG know."""
    style = page[page.index("<style>") + 7 : page.index("</style>")]
    plain = re.sub(r"@media[^{]*\{(?:[^{}]*\{[^{}]*\})*[^{}]*\}", "", style)
    colours: dict[str, str] = dict(re.findall(r"--(\w+):([^;{}]+)", plain[: plain.index("}")]))
    rules = []
    for selectors, text in re.findall(r"([^{}]+)\{([^{}]*)\}", plain):
        if selectors.strip() == ":root" or text.startswith("--") or _OF_HTML.search(selectors):
            continue
        if "var(--c)" not in text and "var(--t)" not in text:
            rules.append(f"{selectors.strip()}{{{text}}}")
            continue
        for hart in range(8):
            at = ",".join(f".h{hart} {it}" for it in selectors.strip().split(","))
            rules.append(f"{at}{{{text.replace('var(--c)', f'var(--h{hart})').replace('var(--t)', f'var(--t{hart})')}}}")
    return re.sub(r"var\(--(\w+)\)", lambda found: colours[found[1]], "\n".join(rules))


def _placed(picture: str, left: int, top: int) -> str:
    return f'<svg x="{left}" y="{top}"{picture[4:]}'.replace("; the table below has each of them</title>", "</title>", 1)


def svg_of(page: str) -> str:
    """The picture of a page's strips, one below the other, under the headings that stand before them on a page of two runs."""
    body, width, top, head = [], 0, 0, ""
    for found in _PARTS.finditer(page):
        if found["head"] is not None:
            head = found["head"]
            continue
        sizes = [tuple(map(int, match.groups())) for match in map(_SIZE.match, (found["side"], found["time"])) if match]
        if head and "<h2>What both begin with</h2>" in page:
            body.append(f'<text class="head" x="0" y="{top + 18}">{head}</text>')
            top += _HEAD
        head = ""
        body += [_placed(found["side"], 0, top), _placed(found["time"], sizes[0][0], top)]
        width, top = max(width, sizes[0][0] + sizes[1][0]), top + max(sizes[0][1], sizes[1][1]) + _GAP
    defs = page[page.index("<defs>") : page.index("</defs>") + 7]
    return (
        f'<svg xmlns="http://www.w3.org/2000/svg" width="{width}" height="{top}" viewBox="0 0 {width} {top}" font-family="\'DejaVu Sans Mono\', monospace">'
        f"<style>{_rules(page)}\ntext.head{{font-size:15px;font-weight:700}}</style>{defs}"
        f'<rect width="{width}" height="{top}" fill="#fff"/>{"".join(body)}</svg>\n'
    )
