"""The charts of a compression report: bars, as elements whose widths tell amounts, and networks, as SVG pictures."""

import math
from typing import NamedTuple

from .checker import Network, Pair
from .figures import Member, Product
from .markup import Markup, joined, tag

MOST_BARS = 16
MOST_LABELS = 48
MOST_ARROWS = 120
MOST_LINES = 2_000
LONG_NAME = 8
"""More letters have more room, and the circle less."""
LETTER = 0.75
"""How wide a letter is, as a part of its height."""


class Point(NamedTuple):
    x: float
    y: float


def short(value: int) -> str:
    """A number in four digits and a letter, as 48.51 M."""
    for power, letter in ((18, "E"), (15, "P"), (12, "T"), (9, "G"), (6, "M"), (3, "k")):
        if value >= 10**power:
            return f"{value / 10**power:.4g} {letter}"
    return str(value)


def bar(part: float, when: str, text: str) -> Markup:
    """One bar that takes this part of its room, with a text behind it."""
    style = f"width:{max(100 * part, 0.3 if part else 0):.2f}%"
    return tag("span", tag("i", class_=when, style=style), tag("small", text), class_="bar")


def gross_chart(products: list[Product]) -> Markup:
    """The gross before and after of the products that have most of it."""
    shown = sorted(products, key=lambda product: product.before.gross, reverse=True)[:MOST_BARS]
    most = max([1, *(product.before.gross for product in shown), *(product.after.gross for product in shown)])
    rows = [
        tag(
            "div",
            tag("span", product.name, class_="name"),
            tag(
                "span",
                bar(product.before.gross / most, "before", short(product.before.gross)),
                bar(product.after.gross / most, "after", short(product.after.gross)),
            ),
            class_="row",
        )
        for product in shown
    ]
    return tag("div", *rows, class_="bars", role="img", aria_label="Gross notional before and after, by product")


def reduction_chart(members: list[Member]) -> Markup:
    """How many members have their gross fall by how much."""
    parts = [member.reduction for member in members if member.before.gross]
    counts = [sum(part < 0 for part in parts)]
    counts += [sum(step <= int(10 * part) < step + 1 and part >= 0 for part in parts) for step in range(9)]
    counts.append(sum(part >= 0.9 for part in parts))
    names = ["it grows", *(f"{10 * step} to {10 * step + 10} %" for step in range(10))]
    most = max([1, *counts])
    rows = [
        tag("div", tag("span", name, class_="name"), tag("span", bar(count / most, "after", str(count))), class_="row")
        for name, count in zip(names, counts)
        if count or name != names[0]
    ]
    return tag("div", *rows, class_="bars thin", role="img", aria_label="How many members have their gross fall by how much")


def towards(start: Point, end: Point, distance: float) -> Point:
    """The point at this distance from the start, on the way to the end."""
    whole = math.dist(start, end) or 1.0
    return Point(start.x + (end.x - start.x) * distance / whole, start.y + (end.y - start.y) * distance / whole)


def arc(start: Point, end: Point, shrink: float) -> str:
    """The path of a line that bends a little, and ends in front of the point where it leads."""
    across = Point((start.x + end.x) / 2 + 0.12 * (end.y - start.y), (start.y + end.y) / 2 - 0.12 * (end.x - start.x))
    begin, stop = towards(start, across, shrink), towards(end, across, shrink)
    return f"M{begin.x:.1f} {begin.y:.1f}Q{across.x:.1f} {across.y:.1f} {stop.x:.1f} {stop.y:.1f}"


def line(pair: Pair, width: float, points: dict[int, Point], is_arrow: bool) -> Markup:
    start, end = points[pair[0]], points[pair[1]]
    if is_arrow:
        return tag("path", d=arc(start, end, 9 + width), stroke_width=f"{width:.2f}", marker_end="url(#arrow)")
    return tag("path", d=f"M{start.x:.1f} {start.y:.1f}L{end.x:.1f} {end.y:.1f}", stroke_width=f"{width:.2f}")


def label(name: str, point: Point, turn: float, size: int) -> Markup:
    """A name beside its point, along the way out of the circle, and never upside down."""
    is_left = turn > math.pi
    degrees = math.degrees(turn) + (90 if is_left else -90)
    out = towards(point, Point(0, 0), -14)
    transform = f"translate({out.x:.1f} {out.y:.1f}) rotate({degrees:.1f})"
    return tag("text", name, transform=transform, font_size=size, text_anchor="end" if is_left else "start", dominant_baseline="central")


def arrow_head() -> Markup:
    head = tag("path", d="M0 0L10 5L0 10z")
    marker = tag(
        "marker", head, id="arrow", viewBox="0 0 10 10", refX=8, refY=5, markerWidth=12, markerHeight=12, markerUnits="userSpaceOnUse", orient="auto"
    )
    return tag("defs", marker)


def network_chart(network: Network, names: list[str], shown: list[int], most: int, title: str) -> Markup:
    """A network on a circle of the members that are shown; `most` is the amount of the widest line."""
    turns = {member: 2 * math.pi * at / max(len(shown), 1) for at, member in enumerate(shown)}
    has_labels = len(shown) <= MOST_LABELS
    longest = max((len(names[member]) for member in shown), default=0) if has_labels else 0
    radius = 150 if longest > LONG_NAME else 200
    points = {member: Point(radius * math.sin(turn), -radius * math.cos(turn)) for member, turn in turns.items()}
    greatest = sorted(network.items(), key=lambda row: row[1], reverse=True)[:MOST_LINES]
    is_arrow = len(greatest) <= MOST_ARROWS
    opacity = 0.7 if is_arrow else max(0.08, 0.5 * MOST_ARROWS / len(greatest))
    lines = [line(pair, 0.6 + 4 * amount / most, points, is_arrow) for pair, amount in greatest]
    size = 17 if len(shown) <= MOST_LABELS / 2 else 14
    dots = [
        tag("circle", tag("title", names[member]), cx=f"{x:.1f}", cy=f"{y:.1f}", r=6 if has_labels else 3)
        for member, (x, y) in points.items()
    ]
    labels = [label(names[member], points[member], turns[member], size) for member in shown] if has_labels else []
    half = round(radius + 20 + LETTER * size * longest)
    return tag(
        "svg",
        arrow_head(),
        tag("g", *lines, class_="lines", stroke_opacity=f"{opacity:.2f}"),
        tag("g", *dots),
        tag("g", *labels),
        viewBox=f"{-half} {-half} {2 * half} {2 * half}",
        role="img",
        aria_label=title,
    )


def network_charts(product: Product, names: list[str]) -> Markup:
    """A product's network before and after, the same member at the same place in both."""
    shown = sorted({member for pair in [*product.old, *product.new] for member in pair})
    most = max([1, *product.old.values(), *product.new.values()])
    figures = []
    for when, network, sums in (("before", product.old, product.before), ("after", product.new, product.after)):
        chart = network_chart(network, names, shown, most, f"The network of {product.name} {when}")
        caption = f"{when.capitalize()}: pairs {sums.lines:,}, gross {sums.gross:,}."
        if len(network) > MOST_LINES:
            caption += f" The {MOST_LINES:,} greatest pairs are drawn."
        figures.append(tag("figure", chart, tag("figcaption", caption)))
    return joined(*figures)
