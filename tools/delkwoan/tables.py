"""The tables of a compression report, and how its figures are written."""

from typing import Sequence

from .figures import Between, Member, Product
from .markup import Markup, joined, tag


def part(value: float) -> str:
    return f"{100 * value:.1f} %"


def fall(before: int, after: int) -> str:
    """By which part a figure falls."""
    return part(1 - after / before) if before else "-"


def soft(*text: str) -> Markup:
    return tag("p", *text, class_="soft")


def amount(value: int) -> Markup:
    """A number, which goes to the next line as a whole; one that is longer than a line is broken behind a thousand."""
    return tag("span", Markup(f"{value:,}".replace(",", ",<wbr>")), class_="number")


def card(name: str, *text: str) -> Markup:
    return tag("div", name, tag("b", *text), class_="card")


def cell(label: str, text: str, **attributes: object) -> Markup:
    return tag("td", text, data_label=label, **attributes)


def pair_cell(label: str, before: int, after: int) -> Markup:
    """The figure before in the upper line, and the one after in the lower line."""
    return cell(label, joined(tag("span", f"{before:,}"), tag("b", f"{after:,}")))


def table(kind: str, heads: Sequence[str], rows: Sequence[Sequence[Markup]]) -> Markup:
    """A `broad` or a `narrow` table, whose rows are cards where the page has no room for it."""
    head = tag("thead", tag("tr", *(tag("th", name, scope="col") for name in heads)))
    return tag("div", tag("table", head, tag("tbody", *(tag("tr", *row) for row in rows))), class_=f"wide {kind}")


def product_row(product: Product) -> list[Markup]:
    before, after = product.before, product.after
    return [
        tag("th", product.name, scope="row"),
        pair_cell("Gross", before.gross, after.gross),
        cell("Fall", fall(before.gross, after.gross)),
        pair_cell("Excess", before.excess, after.excess),
        cell("Excess that went", fall(before.excess, after.excess)),
        pair_cell("M", before.floor, after.floor),
        pair_cell("Bilateral", before.bilateral, after.bilateral),
        pair_cell("Pairs", before.lines, after.lines),
        pair_cell("Trades", before.trades, after.trades),
    ]


def between_row(pairs: Between) -> list[Markup]:
    return [
        tag("th", pairs.roles, scope="row"),
        pair_cell("Gross", pairs.before[0], pairs.after[0]),
        cell("Fall", fall(pairs.before[0], pairs.after[0])),
        pair_cell("Pairs", pairs.before[1], pairs.after[1]),
    ]


def member_row(member: Member, lei: str | None) -> list[Markup]:
    name = tag("th", member.name, *([tag("small", lei)] if lei else []), scope="row")
    stays = {} if member.nets_kept == member.nets else {"class_": "wrong"}
    return [
        name,
        pair_cell("Gross", member.before.gross, member.after.gross),
        cell("Fall", fall(member.before.gross, member.after.gross)),
        pair_cell("Counterparties", member.before.counterparties, member.after.counterparties),
        pair_cell("Pairs", member.before.lines, member.after.lines),
        cell("Nets that stay", f"{member.nets_kept} of {member.nets}", **stays),
    ]
