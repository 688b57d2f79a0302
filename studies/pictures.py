"""The pictures of the study: the share of the excess that each way of compression takes away, by what an experiment changes."""

from typing import Callable

from certified import WAYS, Figures
from experiments import Row, Spread, removed, spreads
from matplotlib.axes import Axes
from matplotlib.figure import Figure

COLOURS = {"bilateral": "#999999", "conservative": "#0072b2", "hybrid": "#009e73", "free": "#d55e00"}
MARKERS = {"bilateral": "s", "conservative": "o", "hybrid": "^", "free": "D"}


def curve(axes: Axes, found: dict[float, Spread], label: str, colour: str, marker: str) -> None:
    """The means as a line, and the least and the most over the seeds as a band around it."""
    values = list(found)
    axes.fill_between(values, [found[it].least for it in values], [found[it].most for it in values], color=colour, alpha=0.12, linewidth=0)
    axes.plot(values, [found[it].mean for it in values], color=colour, marker=marker, markersize=4, linewidth=1.5, label=label)


def draw_removed(axes: Axes, rows: list[Row], label: str) -> None:
    """The share of the excess that each way takes away."""
    for way in WAYS:
        curve(axes, removed(rows, way), way, COLOURS[way], MARKERS[way])
    axes.set_ylim(-0.03, 1.05)
    axes.set_ylabel("share of the excess that goes")
    finish(axes, label)


def draw_left(axes: Axes, rows: list[Row], label: str) -> None:
    """What is left of the gross behind each way, and the floor that no way passes."""

    def left(way: str) -> Callable[[Figures], float]:
        return lambda figures: figures.after(way) / figures.gross

    for way in WAYS:
        curve(axes, spreads(rows, left(way)), way, COLOURS[way], MARKERS[way])
    floor = spreads(rows, lambda figures: figures.floor / figures.gross)
    axes.plot(list(floor), [it.mean for it in floor.values()], color="black", linestyle=":", linewidth=1.5, label="floor M")
    axes.set_ylim(-0.03, 1.05)
    axes.set_ylabel("share of the gross that is left")
    finish(axes, label)


def finish(axes: Axes, label: str) -> None:
    axes.set_xlabel(label)
    axes.grid(alpha=0.25)
    axes.spines[["top", "right"]].set_visible(False)


def picture(count: int) -> tuple[Figure, list[Axes]]:
    """A picture with so many charts side by side."""
    figure = Figure(figsize=(4.6 * count, 3.6), layout="constrained")
    return figure, [figure.add_subplot(1, count, at + 1) for at in range(count)]


def intermediation_picture(rows: list[Row]) -> Figure:
    figure, (left, right) = picture(2)
    draw_left(left, rows, "share of the notional that lies in chains")
    draw_removed(right, rows, "share of the notional that lies in chains")
    left.legend(frameon=False, fontsize=8)
    return figure


def tolerance_picture(parts: list[Row], falls: list[Row], customers: list[Row]) -> Figure:
    figure, (left, middle, right) = picture(3)
    draw_removed(left, parts, "share of the members that take part")
    draw_removed(middle, falls, "most that a pair falls by, in means of a pair's amount")
    middle.set_xscale("symlog", base=2, linthresh=0.25)
    middle.set_xlim(left=-0.04)
    middle.set_xticks([0, 0.25, 0.5, 1, 2, 4, 8, 16], ["0", "1/4", "1/2", "1", "2", "4", "8", "16"])
    draw_removed(right, customers, "share by which a customer's amount may fall")
    left.legend(frameon=False, fontsize=8)
    return figure


def roles_picture(growth: list[Row], dealers: list[Row]) -> Figure:
    figure, (left, right) = picture(2)
    draw_removed(left, growth, "members whose pairs may grow in hybrid mode")
    left.set_xscale("symlog", base=2, linthresh=2)
    left.set_xlim(left=-0.3)
    left.set_xticks([0, 2, 4, 8, 16, 32, 64], ["0", "2", "4", "8", "16", "32", "64"])
    draw_removed(right, dealers, "share of the notional between dealers")
    left.legend(frameon=False, fontsize=8, loc="lower right")
    return figure


def shape_picture(tail: list[Row], netted: list[Row]) -> Figure:
    figure, (left, right) = picture(2)
    draw_removed(left, tail, "exponent of the amounts' power law")
    draw_removed(right, netted, "share of the pairs that are netted before")
    left.legend(frameon=False, fontsize=8, loc="lower right")
    return figure
