"""Roster and trade files, right ones and ones with each fault, with the line that a check ends with."""

ROSTER = b"name,role,key\nA,dealer,KA\nB,dealer,KB\nC,customer,KC\nOPS,operator,KO\nP,product,2031-06-30\n"
TRADES = b"seller,buyer,product,amount\nA,B,P,10\nB,C,P,10\n"
PROPOSAL = b"product P 20 20 10 20\nrow A B 10\nrow B C 10\npot A 2\npot B 1\npot C 0\nbound 20\nend 1\n"
FREE = b"product P 20 10 10 20\nrow A C 10\npot A 1\npot B 0\npot C 0\nbound 10\nend 1\n"
"""The middle steps out, though its neighbour is a customer: right in free mode alone."""
LONG = b"x" * 67_108_865


def many(role: str, count: int) -> bytes:
    last = "2031-06-30" if role == "product" else "K"
    return ("name,role,key\n" + "".join(f"N{at},{role},{last}\n" for at in range(count))).encode()


def dealers(count: int) -> bytes:
    return many("customer", 190) + "".join(f"D{at},dealer,K\n" for at in range(count)).encode()


def filled(count: int, amount: int) -> bytes:
    return b"seller,buyer,product,amount\n" + f"A,B,P,{amount}\n".encode() * count


ROSTER_FAULTS: list[tuple[bytes, bytes]] = [
    (b"", b"roster row 1: columns"),
    (b"\n\r\n\r", b"roster row 1: columns"),
    (b"\xef\xbb\xbf", b"roster row 1: columns"),
    (b"\xef\xbb" + ROSTER, b"roster row 1: columns"),
    (b"name,role\n", b"roster row 1: columns"),
    (b"name,role,key,\n", b"roster row 1: columns"),
    (b"name,role,Key\n", b"roster row 1: columns"),
    (b" name,role,key\n", b"roster row 1: columns"),
    (b'"name","role","key"\nA,dealer\n', b"roster row 2: columns"),
    (ROSTER + b"D,dealer\n", b"roster row 7: columns"),
    (ROSTER + b"D,dealer,KD,\n", b"roster row 7: columns"),
    (ROSTER + b"\n\n,\n", b"roster row 7: columns"),
    (ROSTER + b'"D\n,dealer,KD\n', b"roster row 7: columns"),
    (ROSTER + b'"', b"roster row 7: columns"),
    (ROSTER + b"d,dealer,KD\n", b"roster row 7: bad-name"),
    (ROSTER + b",dealer,KD\n", b"roster row 7: bad-name"),
    (ROSTER + b"ABCDEFGHIJKLMNOPQ,dealer,KD\n", b"roster row 7: bad-name"),
    (ROSTER + b'D"D",dealer,KD\n', b"roster row 7: bad-name"),
    (ROSTER + b'"D"",",dealer,KD\n', b"roster row 7: bad-name"),
    (ROSTER + b"D\xc3\x84,dealer,KD\n", b"roster row 7: bad-name"),
    (ROSTER + b"D,dealer,kd\n", b"roster row 7: bad-name"),
    (ROSTER + b"D,operator,\n", b"roster row 7: bad-name"),
    (ROSTER + b"D,Dealer,kd\n", b"roster row 7: bad-role"),
    (ROSTER + b"D,,KD\n", b"roster row 7: bad-role"),
    (ROSTER + b"Q,product,2031-02-29\n", b"roster row 7: bad-day"),
    (ROSTER + b"Q,product,2031-2-28\n", b"roster row 7: bad-day"),
    (ROSTER + b"Q,product,2031-13-01\n", b"roster row 7: bad-day"),
    (ROSTER + b"Q,product,2031-00-01\n", b"roster row 7: bad-day"),
    (ROSTER + b"Q,product,1900-02-29\n", b"roster row 7: bad-day"),
    (ROSTER + b"Q,product,0000-02-30\n", b"roster row 7: bad-day"),
    (ROSTER + b"Q,product,2031-06-30 \n", b"roster row 7: bad-day"),
    (ROSTER + b"P,product,2031-06-31\n", b"roster row 7: bad-day"),
    (ROSTER + b"A,dealer,KD\n", b"roster row 7: twice"),
    (ROSTER + b"A,product,2031-06-30\n", b"roster row 7: twice"),
    (ROSTER + b"P,customer,KP\n", b"roster row 7: twice"),
    (ROSTER + b"OPS,dealer,KD\n", b"roster row 7: twice"),
    (ROSTER + b"OPS2,operator,KD\n", b"roster row 7: twice"),
    (many("customer", 257), b"roster row 258: row-limit"),
    (many("dealer", 65), b"roster row 66: row-limit"),
    (many("product", 65), b"roster row 66: row-limit"),
    (dealers(64) + b"N9,customer,K\n", b"roster row 256: twice"),
    (dealers(65), b"roster row 256: row-limit"),
    (LONG, b"roster: too-long"),
]

TRADE_FAULTS: list[tuple[bytes, bytes]] = [
    (b"", b"trades row 1: columns"),
    (b"buyer,seller,product,amount\n", b"trades row 1: columns"),
    (ROSTER, b"trades row 1: columns"),
    (TRADES + b"A,B,P\n", b"trades row 4: columns"),
    (TRADES + b"A,B,P,1,\n", b"trades row 4: columns"),
    (TRADES + b"A,X,P,1\n", b"trades row 4: unknown-name"),
    (TRADES + b"OPS,B,P,1\n", b"trades row 4: unknown-name"),
    (TRADES + b"A,B,A,1\n", b"trades row 4: unknown-name"),
    (TRADES + b"A,B,,1\n", b"trades row 4: unknown-name"),
    (TRADES + b"A,A,Q,1\n", b"trades row 4: unknown-name"),
    (TRADES + b"A,A,P,0\n", b"trades row 4: same-party"),
    (TRADES + b"A,B,P,0\n", b"trades row 4: bad-amount"),
    (TRADES + b"A,B,P,\n", b"trades row 4: bad-amount"),
    (TRADES + b"A,B,P,01\n", b"trades row 4: bad-amount"),
    (TRADES + b"A,B,P,-1\n", b"trades row 4: bad-amount"),
    (TRADES + b"A,B,P,1 \n", b"trades row 4: bad-amount"),
    (TRADES + b"A,B,P,1.0\n", b"trades row 4: bad-amount"),
    (TRADES + b"A,B,P,1000000000000001\n", b"trades row 4: bad-amount"),
    (TRADES + b"A,B,P," + b"9" * 5000 + b"\n", b"trades row 4: bad-amount"),
    (TRADES + b"A,B,P," + "\u0661".encode() + b"\n", b"trades row 4: bad-amount"),
    (filled(1001, 10**15), b"trades row 1002: gross-limit"),
    (filled(1000, 10**15) + b"B,A,P,1\n", b"trades row 1002: gross-limit"),
    (filled(100_000, 1) + b"no,trade\n", b"trades row 100002: row-limit"),
    (LONG, b"trades: too-long"),
]

RIGHT: list[tuple[bytes, bytes]] = [
    (ROSTER, TRADES),
    (ROSTER[:-1], TRADES[:-1]),
    (b"\xef\xbb\xbf" + ROSTER, b"\xef\xbb\xbf" + TRADES),
    (ROSTER.replace(b"\n", b"\r\n"), TRADES.replace(b"\n", b"\r")),
    (ROSTER.replace(b"\n", b"\n\r\n\r"), b"\n\r\r" + TRADES.replace(b"\n", b"\n\n")),
    (ROSTER.replace(b"A,dealer,KA", b'"A","dealer","KA"'), TRADES.replace(b"A,B,P,10", b'"A","B",P,"10"')),
    (ROSTER.replace(b"A,dealer,KA", b'"A",dealer,"K"A'), TRADES.replace(b"A,B,P,10", b'""A,B,P,"1"0')),
    (ROSTER.replace(b"OPS,operator,KO\n", b""), TRADES.replace(b"B,C,P,10", b"B,C,P,4\nB,C,P,6")),
    (ROSTER.replace(b"2031-06-30", b"0000-02-29"), TRADES),
    (ROSTER.replace(b"2031-06-30", b"9999-12-31"), TRADES),
]
"""Forms of the same roster and the same trades, for which PROPOSAL is right in conservative mode."""

LINES: list[tuple[bytes, str, int, bytes, bytes]] = [
    (PROPOSAL, "conservative", 0, b"yes", b""),
    (PROPOSAL, "hybrid", 0, b"yes", b""),
    (PROPOSAL, "free", 1, b"no P open A C", b""),
    (FREE, "free", 0, b"yes", b""),
    (FREE, "hybrid", 1, b"no P above A C", b""),
    (FREE.replace(b"pot C 0", b"pot C 1"), "free", 1, b"no P slack A C", b""),
    (FREE.replace(b"pot C 0", b"pot C -1"), "free", 1, b"no P open A C", b""),
    (FREE.replace(b"10 20\n", b"10 19\n"), "free", 1, b"no P figures", b""),
    (PROPOSAL.replace(b"row A B 10", b"row A B 11"), "conservative", 1, b"no P above A B", b""),
    (PROPOSAL.replace(b"row A B 10", b"row A B 11"), "hybrid", 1, b"no P net A", b""),
    (PROPOSAL.replace(b"row B C 10", b"row B C 9"), "conservative", 1, b"no P net B", b""),
    (PROPOSAL.replace(b"pot A 2", b"pot A 3"), "hybrid", 1, b"no P open A B", b""),
    (PROPOSAL.replace(b"pot A 2", b"pot A 3"), "conservative", 0, b"yes", b""),
    (PROPOSAL.replace(b"pot A 2", b"pot A 1"), "conservative", 1, b"no P slack A B", b""),
    (PROPOSAL.replace(b"pot C 0", b"pot C 1"), "conservative", 1, b"no P slack B C", b""),
    (PROPOSAL.replace(b"P 20 20 10 20", b"P 21 20 10 20"), "conservative", 1, b"no P figures", b""),
    (PROPOSAL.replace(b"P 20 20 10 20", b"P 20 19 10 20"), "conservative", 1, b"no P figures", b""),
    (PROPOSAL.replace(b"P 20 20 10 20", b"P 20 20 0 20"), "conservative", 1, b"no P figures", b""),
    (PROPOSAL.replace(b"P 20 20 10 20", b"P 20 20 10 0"), "conservative", 1, b"no P figures", b""),
    (PROPOSAL.replace(b"bound 20", b"bound 19"), "conservative", 1, b"no P figures", b""),
    (
        PROPOSAL.replace(b"bound 20", b"bound 19").replace(b"pot A 2", b"pot A 1"),
        "conservative",
        1,
        b"no P slack A B",
        b"",
    ),
    (b"", "hybrid", 3, b"", b"proposal row 1: bad-line"),
    (b"\n" + PROPOSAL, "hybrid", 3, b"", b"proposal row 1: bad-line"),
    (PROPOSAL.replace(b"product P", b"product Q"), "hybrid", 3, b"", b"proposal row 1: bad-line"),
    (PROPOSAL.replace(b"row A B 10", b"row A C 10"), "hybrid", 1, b"no P above A C", b""),
    (PROPOSAL.replace(b"row A B 10", b"row B A 10"), "hybrid", 1, b"no P net A", b""),
    (PROPOSAL.replace(b"row A B 10", b"row C B 10"), "hybrid", 3, b"", b"proposal row 3: bad-line"),
    (PROPOSAL.replace(b"row B C 10", b"row A B 10"), "hybrid", 3, b"", b"proposal row 3: bad-line"),
    (PROPOSAL.replace(b"row B C 10", b"row B B 10"), "hybrid", 3, b"", b"proposal row 3: bad-line"),
    (PROPOSAL.replace(b"row B C 10", b"row B OPS 10"), "hybrid", 3, b"", b"proposal row 3: bad-line"),
    (PROPOSAL.replace(b"row B C 10", b"row B C 0"), "hybrid", 3, b"", b"proposal row 3: bad-line"),
    (PROPOSAL.replace(b"row B C 10", b"row B C 999999999999999991"), "hybrid", 3, b"", b"proposal row 3: bad-line"),
    (PROPOSAL.replace(b"pot B 1\n", b""), "hybrid", 3, b"", b"proposal row 5: bad-line"),
    (PROPOSAL.replace(b"pot B 1", b"pot B -0"), "hybrid", 3, b"", b"proposal row 5: bad-line"),
    (PROPOSAL.replace(b"pot B 1", b"pot B 1000001"), "hybrid", 3, b"", b"proposal row 5: bad-line"),
    (PROPOSAL.replace(b"pot B 1", b"row C B 1"), "hybrid", 3, b"", b"proposal row 5: bad-line"),
    (PROPOSAL.replace(b"pot C 0\n", b""), "hybrid", 3, b"", b"proposal row 6: bad-line"),
    (PROPOSAL.replace(b"bound 20", b"bound -20"), "hybrid", 3, b"", b"proposal row 7: bad-line"),
    (PROPOSAL.replace(b"end 1", b"end 0"), "hybrid", 3, b"", b"proposal row 8: bad-line"),
    (PROPOSAL.replace(b"end 1\n", b""), "hybrid", 3, b"", b"proposal row 8: bad-line"),
    (PROPOSAL[:-1], "hybrid", 3, b"", b"proposal row 8: bad-line"),
    (PROPOSAL + b"\n", "hybrid", 3, b"", b"proposal row 9: bad-line"),
    (PROPOSAL + b"x", "hybrid", 3, b"", b"proposal row 9: bad-line"),
    (LONG, "hybrid", 3, b"", b"proposal: too-long"),
]
"""Proposals for ROSTER and TRADES: the mode, the status, the answer, and the line on the errors."""
