"""The command compress-report: a page with the figures and charts of a compression, and the same figures as CSV.

The compression is that of a trade file by a proposal, or what changed between two texts of `compress_cli replay`: one from
before it and one from after it. The network is shown of the product that is named, or else of the one whose gross falls most.
"""

import csv
import io
from pathlib import Path
from typing import NoReturn

from . import checker
from .compressions import compression_of, replays_compared
from .ending import Stop, run, write_file
from .figures import Compression, Product, rows_of
from .page import Source, page_of
from .words import Once, Words, flag, plain


def words() -> Words:
    parser = Words(
        "compress-report",
        "Writes OUTPUT.html, one page with the figures and charts of a compression, and OUTPUT.csv with the same figures. "
        "It does not check the proposal.",
        [
            "[--product NAME] [--mode MODE] [--about FILE] ROSTER TRADES PROPOSAL OUTPUT",
            "--replay [--product NAME] [--mode MODE] [--about FILE] ROSTER BEFORE AFTER OUTPUT",
        ],
    )
    product = "the product whose network is shown; the one whose gross falls most where it is absent"
    parser.add_argument("--product", metavar="NAME", action=Once, help=product)
    flag(parser, "--replay", "compare two texts of `compress_cli replay`, from before a cycle and from after it")
    mode = "the mode that was asked for, which no file tells: conservative, hybrid or free"
    parser.add_argument("--mode", metavar="MODE", action=Once, choices=checker.MODES, help=mode)
    about = "what is told about the roster's names, as LEIs and currencies; ROSTER.about.csv where it is absent"
    parser.add_argument("--about", metavar="FILE", action=Once, help=about)
    parser.add_argument("roster", metavar="ROSTER", type=plain, help="the members, the products and the operator")
    parser.add_argument("old", metavar="TRADES", type=plain, help="the trades, or, by --replay, the text from before")
    parser.add_argument("new", metavar="PROPOSAL", type=plain, help="the proposal, or, by --replay, the text from after")
    parser.add_argument("output", metavar="OUTPUT", type=plain, help="the names of the files that are written, without .html and .csv")
    return parser


def figures_text(compression: Compression) -> str:
    text = io.StringIO()
    rows = csv.writer(text, lineterminator="\n")
    rows.writerow(["of", "name", "currency", "figure", "before", "after"])
    rows.writerows(rows_of(compression))
    return text.getvalue()


def chosen_of(products: list[Product], name: str | None) -> Product | None:
    """The product with this name, or, without one, the one whose gross falls most."""
    if name is None:
        return sorted(products, key=lambda product: product.after.gross - product.before.gross)[0] if products else None
    for product in products:
        if product.name == name:
            return product
    raise Stop(2, f"no such product: {name}")


def totals(compression: Compression) -> str:
    """The gross before and after, of each currency."""
    told = []
    for group in compression.groups:
        before, after = group.total()
        told.append(f"gross {before.gross} before, {after.gross} after" + (f" in {group.currency}" if group.currency else ""))
    return "; ".join(told) or "no products"


def main(line: list[str]) -> int:
    given = words().parse_args(line)
    read = replays_compared if given.replay else compression_of
    compression = read(given.roster, given.old, given.new, given.about)
    roster, old, new = (Path(name).name for name in (given.roster, given.old, given.new))
    source = Source(roster, old, new, given.replay, given.mode, chosen_of(compression.products, given.product))
    write_file(Path(given.output + ".html"), page_of(compression, source).encode(errors="replace"))
    write_file(Path(given.output + ".csv"), figures_text(compression).encode())
    print(f"{given.output}.html and {given.output}.csv: {totals(compression)}")
    return 0


def command() -> NoReturn:
    run(main)
