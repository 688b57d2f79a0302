"""The page of a compression report."""

from importlib.resources import files
from typing import NamedTuple

from . import charts
from .figures import Compression, Group, Product
from .markup import Markup, joined, tag
from .moments import moment_text
from .replayed import Execution
from .tables import amount, between_row, card, fall, member_row, product_row, soft, table


class Source(NamedTuple):
    """What a report is made from: the names of its files, the mode that was told, and whose network is shown."""

    roster: str
    old: str
    new: str
    is_replay: bool
    mode: str | None
    chosen: Product | None


MODES = {
    "conservative": "no pair's amount grows, as the conservative mode has it",
    "hybrid": "only amounts between dealers grow, as the hybrid mode has it",
    "free": "amounts grow which are not between dealers, as the free mode alone allows",
}


def cards(group: Group) -> Markup:
    before, after = group.total()
    kept, nets = (sum(counts) for counts in ([m.nets_kept for m in group.members], [m.nets for m in group.members]))
    return tag(
        "div",
        card("Gross before", amount(before.gross)),
        card("Gross after", amount(after.gross)),
        card("Fall of the gross", fall(before.gross, after.gross)),
        card("Excess above M", amount(before.excess), " → ", amount(after.excess)),
        card("Share of the excess that went", fall(before.excess, after.excess)),
        card("Trades", amount(before.trades), " → ", amount(after.trades)),
        card("Pairs", amount(before.lines), " → ", amount(after.lines)),
        card("Nets that stay", f"{kept:,} of {nets:,}"),
        class_="cards",
    )


STACKED = "In each cell the figure before stands above the one after."


def products_of(group: Group) -> Markup:
    key = soft("Gross notional", tag("i", class_="key before"), "before", tag("i", class_="key"), "after")
    if len(group.products) > charts.MOST_BARS:
        key = joined(key, soft(f"The {charts.MOST_BARS} products of the greatest gross; the table has all {len(group.products)}."))
    heads = ["Product", "Gross", "Fall", "Excess", "Excess that went", "M", "Bilateral", "Pairs", "Trades"]
    return joined(
        tag("h3", "Products"),
        key,
        charts.gross_chart(group.products),
        soft(
            "M is the sum of the positive net positions: no network with the same net positions has less gross. The excess is the "
            "gross above M. The bilateral figure is what is left if each two members net what they owe each other. A pair is a seller "
            "and a buyer with an amount between them. ",
            STACKED,
        ),
        table("broad", heads, [product_row(product) for product in group.products]),
    )


def members_of(group: Group, leis: dict[str, str]) -> Markup:
    parts = [
        tag("h3", "Dealers and customers"),
        soft("What lies between members of these roles. ", STACKED),
        table("narrow", ["Between", "Gross", "Fall", "Pairs"], [between_row(pairs) for pairs in group.between]),
        tag("h3", "Members"),
        soft("Members by the fall of their gross:"),
        charts.reduction_chart(group.members),
        soft(
            "What a member owes and is owed together, with how many counterparties, in how many pairs; and in how many of its "
            "products its net position stays. ",
            STACKED,
        ),
    ]
    for role in ("dealer", "customer"):
        rows = [member_row(member, leis.get(member.name)) for member in group.members if member.role == role]
        if rows:
            parts.append(table("narrow", [f"{role.capitalize()}s", "Gross", "Fall", "Counterparties", "Pairs", "Nets that stay"], rows))
    return joined(*parts)


def about_currencies(compression: Compression) -> list[Markup]:
    """What the totals add up, where that is not plain."""
    if len(compression.groups) > 1:
        return [soft("Each currency stands by itself: amounts of different ones are not added up.")]
    if compression.groups and not compression.groups[0].currency and len(compression.products) > 1:
        return [soft("No currency is told of any product: the sums over products add up amounts as if all were of one.")]
    return []


def origin(source: Source) -> Markup:
    if source.is_replay:
        return soft(
            f"The live trades of {source.old} and of {source.new}, two texts of ",
            tag("code", "replay"),
            f" over the roster {source.roster}. What lies between them may be more than a compression: where nets moved, there "
            "were other trades too.",
        )
    return soft(
        f"Trades of {source.old}, and the proposal {source.new}, over the roster {source.roster}. The figures are computed from "
        "the trades and the proposal's rows; whether the proposal is right is told by ",
        tag("code", "check"),
        ". The trades after it are those that its plan leaves.",
    )


def date_of(execution: Execution) -> str:
    """When it was asked for, where that is known."""
    return f", {moment_text(execution.moment)}" if execution.moment else ""


def mode_and_cycles(compression: Compression, source: Source) -> list[Markup]:
    order = list(MODES)
    parts = [f"Mode: {source.mode}. " if source.mode else "", f"Of the amounts, {MODES[compression.mode]}."]
    if source.mode and order.index(compression.mode) > order.index(source.mode):
        parts.append(" That is more than the mode allows.")
    told = [
        f"Cycle {it.cycle}, version {it.version}, executed at position {it.position}{date_of(it)}: {it.ended:,} trades ended, "
        f"{it.cut:,} were cut, {it.made:,} were made."
        for it in compression.executions
    ]
    if source.is_replay and not told:
        told = ["No cycle was executed between the two texts."]
    return [tag("p", *parts), *(tag("p", text) for text in told)]


def network_of(compression: Compression, chosen: Product) -> Markup:
    names = [member.name for member in compression.groups[0].members]
    return joined(
        tag("h2", f"The network of {chosen.name}"),
        tag("div", charts.network_charts(chosen, names), class_="pair"),
        soft(
            "A line leads from a member that owes to the one that is owed, with an arrow where there are few; its width tells "
            "the amount. A member stands at the same place in both pictures."
        ),
    )


def group_part(group: Group, compression: Compression) -> Markup:
    title = f"In {group.currency}" if group.currency else "Products without a currency"
    head = [tag("h2", title)] if len(compression.groups) > 1 or group.currency else []
    return joined(*head, cards(group), products_of(group), members_of(group, compression.about.leis))


def page_of(compression: Compression, source: Source) -> str:
    """The page as the text of an HTML file that needs no other file."""
    style = Markup(files("delkwoan").joinpath("style.css").read_text(encoding="utf-8"))
    head = tag(
        "head",
        tag("meta", charset="utf-8"),
        tag("meta", name="viewport", content="width=device-width, initial-scale=1"),
        tag("title", "Compression report"),
        tag("style", style),
    )
    body = tag(
        "body",
        tag("h1", "Compression report"),
        origin(source),
        *mode_and_cycles(compression, source),
        *about_currencies(compression),
        *(group_part(group, compression) for group in compression.groups),
        *([network_of(compression, source.chosen)] if source.chosen else []),
    )
    return f"<!doctype html>\n{tag('html', head, body, lang='en')}\n"
