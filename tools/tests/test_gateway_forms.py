"""The forms of the gateway's page: what is read is shown, what is wrong is said of its field, and nothing is sent by mistake."""

from pathlib import Path

from browsing import PHONE, InBrowser, Page

AMOUNTS = [
    ("25m", "25000000"), ("25,000,000", "25000000"), ("25 000 000", "25000000"), ("1.5bn", "1500000000"), ("2.5k", "2500"), ("0007", "7"),
    ("1,50,000", None), ("25.0", None), ("1,5m", None), ("25.000.000", None), ("-5", None), ("25mm", None), ("25m x", None), ("1e6", None),
]
"""What is typed, and the amount of the trade that comes of it, or none."""
NARROW = "\u202f"
READ = "return document.querySelector('form[aria-label=\"A new trade\"] output').textContent"
FAULTS = "return [...document.querySelectorAll('.fault')].filter((it) => it.textContent).map((it) => `${it.parentElement.querySelector('label').textContent}: ${it.textContent}`)"
CUT = """
const seen = (it) => it.getClientRects().length > 0 && !it.closest(".unseen, .skip");
return [...document.querySelectorAll("main p, main li, main td, main dt, main dd, main b, main text, header *")].filter(seen).filter((it) => {
  const box = it.getBoundingClientRect();
  return box.right > innerWidth + 1 || box.left < -1 || (it.scrollWidth > it.clientWidth + 1 && getComputedStyle(it).display !== "inline");
}).map((it) => it.outerHTML.slice(0, 200));
"""
"""What goes over the window's side, or has more text than room."""


class Forms(InBrowser):
    def fill(self, page: Page, **fields: str) -> None:
        for label, value in {"Other party": "B", "Product": "P", "Amount": "10", "Day": "2026-03-02", **fields}.items():
            page.type(label.replace("_", " "), value)

    def lines(self) -> list[str]:
        self.kill()
        return [it.line for it in self.records()]

    def test_amounts(self) -> None:
        self.serve()
        page = self.page("A")
        for text, amount in AMOUNTS:
            self.fill(page, Amount=text)
            if amount is None:
                page.press("Allege")
                page.shows("Amount: This is no whole number, as 25000000, 25,000,000 or 25m.")
                self.assertEqual(page.run(READ), "")
                continue
            full = f"{int(amount):,}".replace(",", NARROW)
            self.assertIn(page.run(READ), (f"= {full}", "" if len(text) < 4 else None), text)
            page.press("Allege")
            if text == "25,000,000" or text == "25 000 000":
                page.shows("The same trade once more?")
                page.press("Back", "dialog button")
                continue
            page.shows(f"A owes B {full} of P, 2026-03-02. B has to affirm it.")
        self.assertEqual(self.lines(), [f"TRADE A B P {amount} 2026-03-02" for amount in ("25000000", "1500000000", "2500", "7")])

    def test_the_same_trade_once_more_is_asked_about(self) -> None:
        self.serve()
        page = self.page("A")
        for answer in ("", "Back", "Allege another"):
            self.fill(page)
            page.press("Allege")
            if answer:
                page.shows("Trade 1 has the same terms, and is alleged")
                page.press(answer, "dialog button")
                page.until(lambda: not page.run("return document.querySelector('dialog').open"), "an answer")
        page.shows("Trade 2 is alleged")
        self.assertEqual(self.lines(), ["TRADE A B P 10 2026-03-02"] * 2)

    def test_what_is_wrong_is_said_of_its_field(self) -> None:
        self.serve()
        page = self.page("A")
        for fields, wanted in (
            ({"Other party": ""}, "Other party: This is missing."),
            ({"Product": ""}, "Product: This is missing."),
            ({"Amount": ""}, "Amount: This is missing."),
            ({"Other party": "NOBODY"}, "Other party: no member has this name (unknown-member)"),
            ({"Other party": "A"}, "Other party: this is yourself (own-trade)"),
            ({"Product": "NONE"}, "Product: no product has this name (unknown-product)"),
            ({"Amount": "2000000bn"}, "Amount: more than 1,000,000,000,000,000, the most of one trade (amount-over)"),
            ({"Amount": "0"}, "Amount: this can't be (bad-line)"),
            ({"Other party": "b"}, "Other party: this can't be (bad-line)"),
            ({"Product": "a b"}, "Product: this can't be"),
            ({"Day": "2031-06-30"}, "Day: not before the product's maturity, 2031-06-30 (matured)"),
        ):
            with self.subTest(fields=fields):
                self.fill(page, **fields)
                page.press("Allege")
                page.until(lambda: page.run(FAULTS) == [wanted], wanted)
                self.assertEqual(page.run("return document.activeElement.labels[0].textContent"), wanted.partition(":")[0])
        self.assertEqual(self.lines(), [])

    def test_alleged_by_another_way(self) -> None:
        """The page says which trades it knows to be its own, and all others are within reach."""
        self.serve()
        caller = self.caller("A")
        page = self.page("A")
        self.fill(page)
        page.press("Allege")
        page.shows("1 trade alleged in this browser waits for the other party, under My trades.")
        for amount in range(250):
            self.assertEqual(caller.say(f"TRADE A {'BC'[amount % 2]} P {amount + 1000} 2026-03-02").status, 200)
        page.shows("250 of 250, 1 to 100 shown")
        page.shows("Of those below this page does not know who alleged them")
        for first in ("101 to 200", "201 to 250"):
            page.press("Next page of Trades to affirm")
            page.shows(f"250 of 250, {first} shown")
        page.type("Filter", "1249")
        page.shows("1 of 250")
        page.press("Affirm trade 251")
        page.shows("You alleged trade 251: the other party has to affirm it.")
        page.go("Tolerances")
        page.go("Book")
        page.shows("2 trades alleged in this browser wait for the other party, under My trades.")


class LongNames(InBrowser):
    """Names of 16 letters, amounts of 15 digits, and a currency, on a telephone."""

    def test_nothing_is_cut(self) -> None:
        self.roster = self.folder / "names.csv"
        names = ["FIRST-DEALER-16X", "SECOND-DEALER-16", "THIRD-MEMBER-16X"]
        rows = [f"{name},dealer,K{place}" for place, name in enumerate(names)]
        self.roster.write_text("\n".join(["name,role,key", *rows, "OPS,operator,KO", "INDEX-SERIES-39X,product,2031-06-30", ""]))
        Path(self.folder / "names.about.csv").write_text("name,currency\nINDEX-SERIES-39X,EUR\n")
        self.start("--seats", "5")
        self.open("--roster", self.roster)
        callers = [self.caller() for _ in names]
        for caller, name, key in zip(callers, names, ("K0", "K1", "K2")):
            self.assertEqual(caller.sign_in(name, key).status, 201)
        operator = self.caller("OPS")
        amounts = (900_000_000_000_000, 800_000_000_000_000)
        for place, amount in enumerate(amounts):
            self.assertEqual(callers[place].say(f"TRADE {names[place]} {names[place + 1]} INDEX-SERIES-39X {amount} 2026-03-02").status, 200)
            self.assertEqual(callers[place + 1].say(f"AFFIRM {place + 1}").status, 200)
        page = self.page(size=PHONE)
        page.type("Name", names[1])
        page.type("Key", "K1")
        page.press("Sign in")
        page.shows("You are owed 100\u202f000\u202f000\u202f000\u202f000 EUR: long")
        self.assertEqual(page.run(CUT), [])
        for line in ("FREEZE 2026-03-31", "PROPOSE 1 free"):
            self.assertEqual(operator.say(line).status, 200)
        page.go("Proposal")
        page.shows(f"INDEX-SERIES-39X: {names[0]} owes {names[1]}")
        self.assertEqual(page.run(CUT), [])
