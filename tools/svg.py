"""Pieces of an SVG picture that reads on light and on dark paper: texts, shapes, arrows and bars."""

import math
from html import escape

# on light and on dark paper
COLOURS = {
    "paper": ("#ffffff", "#0d1117"),
    "ink": ("#1f2328", "#e6edf3"),
    "faint": ("#6e7781", "#8b949e"),
    "slot": ("#54aeff", "#388bfd"),
    "proposal": ("#0969da", "#58a6ff"),
    "state": ("#1a7f37", "#3fb950"),
    "vote": ("#8250df", "#bc8cff"),
    "notice": ("#9a6700", "#e3b341"),
    "refused": ("#cf222e", "#ff7b72"),
}
# what is drawn has the colour of the class around it, or of its own
STYLE = """
text { font: 11px "DejaVu Sans", Verdana, sans-serif; fill: currentColor; paint-order: stroke; stroke-width: 3px; stroke-linejoin: round }
.large { font-size: 14px }
.small { font-size: 9px }
.strong { font-weight: bold }
.middle { text-anchor: middle }
.line, .arrow, .bar { stroke: currentColor; fill: none }
.line { stroke-width: 1.4px }
.arrow { stroke-width: 1.3px; opacity: 0.85 }
.crowd .arrow { stroke-width: 0.9px; opacity: 0.6 }
.arrow:hover { stroke-width: 3px; opacity: 1 }
.state .arrow { stroke-dasharray: 8 3 }
.vote .arrow { stroke-dasharray: 2.5 2.5 }
.notice .arrow { stroke-dasharray: 10 3 2.5 3 }
.full { fill: currentColor }
.full.bar { stroke: none; opacity: 0.3 }
.dashed { stroke-dasharray: 4 3 }
"""
SHAPES = {
    "opening": "M0-7V7M-4-7H4M-4 7H4",
    "submit": "M-5-5H5L0 4z",
    "relay": "M-5 4H5L0-5z",
    "begin": "M-5 0a5 5 0 1 0 10 0a5 5 0 1 0-10 0z",
    "hear": "M-3 0a3 3 0 1 0 6 0a3 3 0 1 0-6 0z",
    "advance": "M-4.5-4.5H4.5V4.5H-4.5z",
    "run on": "M-6-5L0 0L-6 5zM0-5L6 0L0 5z",
    "crash": "M-6-6L6 6M-6 6L6-6",
    "no record": "M-4-4L4 4M-4 4L4-4",
}
# an arrow ends so far before the middle of what it points at
NEAR = 4


def decimal(value):
    return f"{value:.1f}".removesuffix(".0")


def node(name, *inside, **attributes):
    words = [name]
    for key, value in attributes.items():
        shown = decimal(value) if isinstance(value, float) else escape(str(value))
        words.append(f'{key.strip("_").replace("_", "-")}="{shown}"')
    return f"<{' '.join(words)}>{''.join(inside)}</{name}>" if inside else f"<{' '.join(words)}/>"


def title(text):
    """What a browser shows of the node around it, under the mouse."""
    return node("title", escape(text))


def at(x, y):
    return f"translate({decimal(x)} {decimal(y)})"


def text(words, x, y, style):
    return node("text", escape(words), x=x, y=y, class_=style)


def shape(name, x, y, hollow):
    return node("path", d=SHAPES[name], transform=at(x, y), class_=f"line {'hollow' if hollow else 'full'}")


def line(x, to, y):
    return node("path", d=f"M{decimal(x)} {decimal(y)}H{decimal(to)}", class_="line faint")


def bar(x, to, y, half, style, *inside):
    return node("rect", *inside, x=x, y=y - half, width=to - x, height=2 * half, rx=half, class_=f"bar slot {style}")


def open_bar(x, to, y, half, *inside):
    """One that goes on."""
    corner = min(half, to - x)
    path = f"M{decimal(to)} {decimal(y - half)}H{decimal(x + corner)}a{decimal(corner)} {half} 0 0 0 0 {2 * half}H{decimal(to)}"
    return node("path", *inside, d=path, class_="bar slot dashed")


def arrow(sort, start, end):
    """Its line has the colour of the class around it, its head that of the sort."""
    (x, y), (to_x, to_y) = start, end
    part = 1 - NEAR / math.sqrt((to_x - x) ** 2 + (to_y - y) ** 2)
    path = f"M{decimal(x)} {decimal(y)}L{decimal(x + (to_x - x) * part)} {decimal(y + (to_y - y) * part)}"
    return node("path", d=path, class_="arrow", marker_end=f"url(#{sort})")


def heads(sorts):
    """A head for the arrows of each sort: it cannot take the colour of its line."""
    drawn = []
    for sort in sorts:
        head = node("path", d="M0 0L8 3.5L0 7z", class_=f"{sort} full")
        size = {"markerWidth": 8, "markerHeight": 7, "refX": 7, "refY": 3.5}
        drawn.append(node("marker", head, id=sort, orient="auto", markerUnits="userSpaceOnUse", **size))
    return node("defs", *drawn)


def colours(paper):
    """A class for each colour; texts keep lines off, and what is hollow hides what it stands on."""
    rules = [f".{name} {{ color: {pair[paper]} }}" for name, pair in COLOURS.items()]
    ground = COLOURS["paper"][paper]
    return "\n".join([*rules, f"text {{ stroke: {ground} }}", f".hollow {{ fill: {ground} }}"])


def picture(name, width, height, sorts, drawn):
    size = {"width": width, "height": height, "viewBox": f"0 0 {decimal(width)} {decimal(height)}"}
    style = node("style", STYLE, colours(0), "\n@media (prefers-color-scheme: dark) {\n", colours(1), "\n}\n")
    paper = node("rect", width="100%", height="100%", class_="paper full")
    lines = ["", title(name), style, heads(sorts), paper, *drawn, ""]
    return node("svg", "\n".join(lines), xmlns="http://www.w3.org/2000/svg", role="img", **size) + "\n"
