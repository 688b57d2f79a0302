#!/usr/bin/env python3
"""Draws docs/pictures/network.svg: a product of the generated market in examples/market, before and after a compression in hybrid mode.

    docs/network.py > docs/pictures/network.svg

It solves the market with the program that was built, or that COMPRESS_CLI names. It needs nothing beside Python."""

import os
import subprocess
import sys
import tempfile
from pathlib import Path

ROOT = Path(__file__).resolve().parents[1]
sys.path.insert(0, str(ROOT / "tools"))
sys.dont_write_bytecode = True

from delkwoan.charts import network_chart
from delkwoan.client import found_program
from delkwoan.compressions import compression_of
from delkwoan.figures import Compression, Product, Sums
from delkwoan.markup import Markup, joined, tag
from delkwoan.report import chosen_of

MARKET = ROOT / "examples/market"
SIZE, GAP, FOOT = 480, 40, 76
"""The width of a circle with its names, the space between two, and the height of the words below."""
STYLE = """
svg { font-family: system-ui, "DejaVu Sans", sans-serif; }
.lines path { fill: none; stroke: #1a5fb4; }
marker path { fill: #1a5fb4; }
circle, text { fill: #1f2328; }
@media (prefers-color-scheme: dark) {
  .lines path { stroke: #78aeed; }
  marker path { fill: #78aeed; }
  circle, text { fill: #e6edf3; }
}
"""


def compressed() -> Compression:
    """The market's compression."""
    roster, trades = str(MARKET / "roster.csv"), str(MARKET / "trades.csv")
    with tempfile.TemporaryDirectory() as folder:
        proposal = os.path.join(folder, "proposal.txt")
        with open(proposal, "wb") as output:
            subprocess.run([found_program(), "solve", roster, trades, "hybrid"], stdout=output, check=True)
        return compression_of(roster, trades, proposal)


def words(x: int, y: int, text: str, size: int = 20) -> Markup:
    return tag("text", text, x=x, y=y, font_size=size, text_anchor="middle")


def figures(sums: Sums) -> str:
    return f"{sums.lines} pairs, {sums.trades} trades, gross {sums.gross / 1e6:.1f} million"


def drawn(names: list[str], product: Product) -> Markup:
    shown = sorted({member for pair in [*product.old, *product.new] for member in pair})
    most = max(*product.old.values(), *product.new.values())
    parts = []
    for place, (when, network, sums) in enumerate((("Before", product.old, product.before), ("After", product.new, product.after))):
        left = place * (SIZE + GAP)
        chart = network_chart(network, names, shown, most, f"The network of {product.name}, {when.lower()}")
        parts += [tag("svg", chart, x=left, y=0, width=SIZE, height=SIZE)]
        parts += [words(left + SIZE // 2, SIZE + 24, when), words(left + SIZE // 2, SIZE + 48, figures(sums), 16)]
    width = 2 * SIZE + GAP
    parts.append(words(width // 2, SIZE + FOOT - 6, "Each member's net position is the same in both.", 16))
    title = tag("title", f"What {len(shown)} members owe each other in one product, before and after a compression")
    return tag("svg", title, tag("style", Markup(STYLE)), *parts, xmlns="http://www.w3.org/2000/svg", viewBox=f"0 0 {width} {SIZE + FOOT}")


def main() -> None:
    compression = compressed()
    product = chosen_of(compression.products, None)
    assert product is not None
    print(joined(drawn([member.name for member in compression.groups[0].members], product)))


if __name__ == "__main__":
    main()
