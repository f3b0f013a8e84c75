#!/usr/bin/env python3
"""The cases of the program call_cases: the vectors for the two calls of an evaluation, and the inputs of the readings of the change requests W-203 (E1 to E19)
and W-209 (L1 to L6 and L8).

    python3 tools/call_cases.py PATH/vectors-02

reads first-w209.txt and second-w209.txt there, and writes crates/call_cases/stdin, the calls, and crates/call_cases/stdout, what the program must print. The
answers to the vectors are the vectors' own. Those to the inputs of the readings stand beside them here; they were written by hand from the change requests
and the readings. None was taken from what a program printed. The gate doesn't run this script.

Unless said otherwise: client 192.0.2.129, domain example.com, sender user@example.com, HELO helo.example, receiver empty, t 7, a name buffer of 253 bytes and
a text buffer of 500. Entries have a lifetime of 300 seconds. A text is the first item of its entry from place 12 and the name's length on, so an exp argument
after `v=spf1 -all exp=` in the only entry, of example.com, stands at 39.
"""

import pathlib
import sys

sys.dont_write_bytecode = True

from scope_cases import AAAA, CLIENT, MX, OTHER, PTR, REV, SPF, TXT, A, R, absent, failed, hexed, need, packed, store, table_of

CRATE = pathlib.Path(__file__).resolve().parent.parent / "crates" / "call_cases"

# The number of vectors of each call.
VECTORS = {"first": 600, "second": 400}

# The lengths of the program's buffers: for a line, an argument, a table, and those that it lends.
LINE, ARGUMENT, TABLE, NAME, TEXT = 140000, 1024, 65536, 512, 1024

# The largest number of the machine.
MOST = 2**64 - 1

given, printed = [], []


def heading(text):
    given.append("# " + text)
    printed.append("# " + text)


def case(arguments, expected):
    """A call, its name and arguments, and the answer."""
    words = [str(argument) for argument in arguments]
    name, text = int(words[1]), int(words[2]) if words[0] == "second" else 0
    need(name <= NAME and text <= TEXT, "a lent buffer is too long")
    need(all(len(word) <= 2 * ARGUMENT for word in words[:-1]) and len(words[-1]) <= 2 * TABLE, "an argument is too long")
    given.append(" ".join(words))
    printed.append(expected)


# The vectors.


def vectors(path, call, words, answer_of):
    """The vectors of a file, each with this number of words; the level and the scope leave the input."""
    lines = path.read_text(encoding="ascii").splitlines()
    need(len(lines) == VECTORS[call], "not", VECTORS[call], "vectors in", path.name)
    heading(path.name)
    for line in lines:
        (name, level, scope, *rest), answer = (part.split(" ") for part in line.split(" => "))
        need((name, level, scope) == (call, "W-209", "0") and len(rest) == words, "no vector:", line[:80])
        case([name, *rest], answer_of(answer))


def first_answer(answer):
    need(len(answer) == 8, "no answer of the first call:", *answer)
    return " ".join(answer)


def second_answer(answer):
    need(len(answer) == 3, "no answer of the second call:", *answer)
    return " ".join(answer)


# The inputs of the readings.


def mail(client="192.0.2.129", domain="example.com", sender="user@example.com", helo="helo.example", receiver="", t=7):
    return [packed(client), *map(hexed, (domain, sender, helo, receiver)), t]


def written(text):
    """What stands for a buffer in an answer: `.` stays, and is a buffer that does; so does `-`, which is an empty text."""
    return text if text in (".", "-") else hexed(text)


def first(expected, *entries, name=253, **others):
    """The first call; the answer's sixth word is the name."""
    table = table_of(entries)
    *counted, text, place, length = expected.split(" ")
    if (place, length) != ("0", "0"):
        need(table[: int(place)].lower().endswith(b"exp="), "no exp argument at", place)
    case(["first", name, *mail(**others), hexed(table)], " ".join([*counted, written(text), place, length]))


def second(expected, place, length, *entries, name=253, text=500, **others):
    """The second call; after the answer's second word comes the text or name."""
    number, where, rest = expected.split(" ", 2)
    words = ["second", name, text, place, length, *mail(**others), hexed(table_of(entries))]
    case(words, f"{number} {where} {written(rest)}")


def lasting(lifetime, one):
    """An entry with a lifetime, as it stands in a table."""
    data = table_of([one])
    return data[:5] + lifetime.to_bytes(4, "little") + data[9:]


# A record that fails with an explanation, in an entry of 48 bytes, and the same of b.x. The argument e.example has 9 bytes.
FAILS, FAILS_TOO = (TXT(name, "v=spf1 -all exp=e.example") for name in ("example.com", "b.x"))
# The explanation and its text.
WHY = TXT("e.example", "no mail from %{d}")
TEXT_OF_FAILS = "3 . no mail from example.com"


def buffers():
    heading("E1: the first call gives 23 for its name buffer, the second for either buffer")
    first("23 . 0 0 0 . 0 0", FAILS, name=252)
    first("3 . 0 0 300 example.com 39 9", FAILS, name=253)
    second("23 . .", 39, 9, FAILS, text=499)
    second("23 . .", 39, 9, FAILS, name=252)
    second("23 . .", 0, 0, FAILS, text=499)
    second("23 . .", 0, 0, FAILS, name=252)
    second("7 16 e.example", 39, 9, FAILS, name=253, text=500)

    heading("E14: what stays; the name buffer is written for 3 and 7 by the first call, for 7 by the second, which writes the text buffer for 3")
    for name in (253, 254, 300):
        first("3 . 0 0 300 example.com 39 9", FAILS, name=name)
        first("7 16 0 0 0 example.com 0 0", name=name)
        first("2 . 0 0 300 . 0 0", R("v=spf1 +all"), name=name)
        first("6 . 0 0 300 . 0 0", R("v=spf1 moo"), name=name)
        first("5 . 0 0 300 . 0 0", failed("TXT", "example.com"), name=name)
        first("25 48 0 0 0 . 0 0", FAILS, b"\0", name=name)
    for name, text in ((253, 500), (300, 600)):
        second("7 16 e.example", 39, 9, FAILS, name=name, text=text)
        second(TEXT_OF_FAILS, 39, 9, FAILS, WHY, name=name, text=text)
        second("3 . " + 500 * "y", 39, 9, FAILS, TXT("e.example", 500 * "y"), name=name, text=text)
        second("3 . -", 39, 9, FAILS, TXT("e.example", 501 * "y"), name=name, text=text)
        second("3 . -", 39, 9, FAILS, absent("TXT", "e.example"), name=name, text=text)
        second("3 . -", 0, 0, FAILS, WHY, name=name, text=text)
        second("28 . .", 39, 10, FAILS, WHY, name=name, text=text)
        second("25 48 .", 39, 9, FAILS, b"\0", name=name, text=text)


def domains():
    below = TXT("b.x", "v=spf1 -all exp=e.%{d}")
    redirects = R("v=spf1 redirect=b.x")

    heading("E2: the second call is given the failing record's domain, which d shows; 22 is about it")
    first("3 . 1 0 300 b.x 73 6", redirects, below)
    second("7 16 e.b.x", 73, 6, redirects, below, domain="b.x")
    second("3 . b.x", 73, 6, redirects, below, TXT("e.b.x", "%{d}"), domain="b.x")
    second("28 . .", 73, 6, redirects, below, domain="example.com")
    second("28 . .", 31, 6, below, domain=255 * "d")
    second("22 . .", 31, 6, below, domain=256 * "d")

    heading("E3: the first call has the counts, and the second the question or the text")
    counted = R("v=spf1 exists:g.x -all exp=e.example")
    first("3 . 1 1 300 example.com 50 9", counted, absent("A", "g.x"))
    second("7 16 e.example", 50, 9, counted, absent("A", "g.x"))
    second(TEXT_OF_FAILS, 50, 9, counted, absent("A", "g.x"), WHY)

    heading("E4: the second call's domain is lowered and one dot dropped, and d shows it so")
    second("7 16 e.example", 39, 9, FAILS, domain="Example.COM.")
    second(TEXT_OF_FAILS, 39, 9, FAILS, WHY, domain="Example.COM.")
    second("7 16 why.example.com", 39, 8, R("v=spf1 -all exp=why.%{d}"), domain="EXAMPLE.com")
    second("28 . .", 39, 9, FAILS, domain="example.com..")
    second("28 . .", 39, 9, FAILS, domain=".example.com")

    heading("E9: a malformed or single-label domain has no record, and 0 and 0 give an empty text for any domain")
    com = TXT("com", "v=spf1 -all exp=e.example")
    first("0 . 0 0 0 . 0 0", com, domain="com")
    second("28 . .", 31, 9, com, domain="com")
    second("28 . .", 31, 9, com, domain="com.")
    second("28 . .", 39, 9, FAILS, domain="example..com")
    second("28 . .", 39, 9, FAILS, domain="")
    for domain in ("com", "com.", "example..com", "example.com..", "", ".", "no name", 255 * "d"):
        second("3 . -", 0, 0, com, FAILS, domain=domain)
        second("3 . -", 0, 0, domain=domain)

    heading("E12: the domain and exp of the record whose mechanism failed; the domain is lowered and has no trailing dot")
    outer, inner = R("v=spf1 redirect=B.x exp=a.a"), TXT("b.x", "v=spf1 -all exp=c.c")
    first("3 . 1 0 300 b.x 81 3", outer, inner)
    second("7 16 c.c", 81, 3, outer, inner, domain="b.x")
    first("3 . 2 0 300 c.x 0 0", outer, TXT("b.x", "v=spf1 redirect=c.X. exp=b.b"), TXT("c.x", "v=spf1 -all"))
    first("3 . 1 0 300 example.com 47 3", R("v=spf1 -include:i.x exp=a.a"), TXT("i.x", "v=spf1 +all exp=c.c"))
    first("3 . 1 0 300 example.com 0 0", R("v=spf1 -include:i.x"), TXT("i.x", "v=spf1 +all exp=c.c"))
    first("3 . 1 0 300 example.com 51 3", R("v=spf1 include:i.x -all exp=a.a"), TXT("i.x", "v=spf1 -all exp=c.c"))
    first("3 . 0 0 300 example.com 39 9", FAILS, domain="Example.COM.")


def places():
    heading("E5: the place of the domain-spec's first byte, counted from the table's, and the domain-spec's length")
    first("3 . 0 0 300 example.com 39 9", FAILS)
    second("7 16 e.example", 39, 9, FAILS)
    second(TEXT_OF_FAILS, 39, 9, FAILS, WHY)
    for place, length in ((16, 9), (0, 9), (35, 9), (35, 13), (39, 13), (38, 9), (40, 9), (39, 8), (39, 10), (40, 8)):
        second("28 . .", place, length, FAILS)
    first("3 . 0 0 300 example.com 34 9", R("v=spf1 EXP=e.example -all"))
    second("7 16 e.example", 34, 9, R("v=spf1 EXP=e.example -all"))

    heading("E6: only 0 and 0 mean none; a domain-spec has at least two bytes")
    second("28 . .", 0, 9, FAILS)
    second("28 . .", 39, 0, FAILS)
    second("3 . -", 0, 0, FAILS)
    second("28 . .", 0, 9, R("v=spf1 -all"))
    second("28 . .", 34, 0, R("v=spf1 -all"))
    first("3 . 0 0 300 example.com 39 2", R("v=spf1 -all exp=%%"))
    second("7 16 %", 39, 2, R("v=spf1 -all exp=%%"))
    first("3 . 0 0 300 example.com 39 2", R("v=spf1 -all exp=.a"))
    second("3 . -", 39, 2, R("v=spf1 -all exp=.a"))

    heading("E7: the record need not have failed")
    first("2 . 0 0 300 . 0 0", R("v=spf1 +all exp=e.example"))
    second("7 16 e.example", 39, 9, R("v=spf1 +all exp=e.example"))
    second("7 16 e.example", 34, 9, R("v=spf1 exp=e.example"))
    second("7 16 e.example", 47, 9, R("v=spf1 redirect=b.x exp=e.example"))

    heading("E8: 28, and not 7, if the domain's TXT entry isn't in the table")
    second("28 . .", 39, 9, FAILS, domain="other.x")
    second("28 . .", 39, 9)
    second("28 . .", 39, 9, A("example.com", OTHER))

    heading("E10: no record is selected, or it isn't accepted")
    second("28 . .", 39, 9, R("v=spf1 -all exp=e.example", "v=spf1 -all"))
    second("28 . .", 52, 9, R("v=spf1 -all", "v=spf1 -all exp=e.example"))
    second("28 . .", 39, 9, R("v=spf1 -all exp=e.example", "v=spf1 -all exp=e.example"))
    second("28 . .", 39, 9, failed("TXT", "example.com"))
    second("28 . .", 39, 9, absent("TXT", "example.com"))
    second("28 . .", 39, 9, R())
    second("28 . .", 39, 9, R("v=spf1 -all exp=e.example moo"))
    second("28 . .", 39, 9, R("v=spf1 -all exp=e.example exp=e.example"))
    second("28 . .", 40, 9, R("v=spf10 -all exp=e.example"))
    second("7 16 e.example", 46, 9, R("other", "v=spf1 -all exp=e.example"))
    second("7 16 e.example", 39, 9, R("v=spf1 -all exp=e.example", "v=spf10 -all"))

    heading("E11: the domain is written for a fail without exp too")
    first("3 . 0 0 300 example.com 0 0", R("v=spf1 -all"))
    second("3 . -", 0, 0, R("v=spf1 -all"))

    heading("E15: the argument is handed out as it stands; a malformed target gives an empty text")
    first("3 . 0 0 300 example.com 39 4", R("v=spf1 -all exp=a..b"))
    second("3 . -", 39, 4, R("v=spf1 -all exp=a..b"))

    heading("E16: the second call judges the table that it is given")
    first("3 . 0 0 300 example.com 58 9", A("q.x", OTHER), FAILS)
    second("7 16 e.example", 58, 9, A("q.x", OTHER), FAILS)
    second("28 . .", 39, 9, A("q.x", OTHER), FAILS)
    second("7 16 e.example", 39, 9, FAILS, A("q.x", OTHER))
    second(TEXT_OF_FAILS, 39, 9, FAILS, A("q.x", OTHER), WHY)
    second("28 . .", 39, 9, WHY, FAILS)

    heading("E17: places and lengths are any numbers")
    for place, length in ((MOST, 9), (39, MOST), (MOST, MOST), (MOST - 8, 9), (39, MOST - 38), (0, MOST), (MOST, 0), (2**32 + 39, 9), (39, 2**32 + 9)):
        second("28 . .", place, length, FAILS)

    heading("E18: the place decides, not the bytes")
    second("28 . .", 79, 9, FAILS, FAILS_TOO)
    second("28 . .", 39, 9, FAILS, FAILS_TOO, domain="b.x")
    second("7 16 e.example", 39, 9, FAILS, FAILS_TOO)
    second("7 16 e.example", 79, 9, FAILS, FAILS_TOO, domain="b.x")


def questions():
    heading("E13: p's questions for the target and for the text are the second call's")
    target, text = R("v=spf1 -all exp=%{p}.x"), TXT("e.example", "%{p}")
    first("3 . 0 0 300 example.com 39 6", target)
    second("7 12 " + REV, 39, 6, target)
    second("7 16 unknown.x", 39, 6, target, absent("PTR", REV))
    first("3 . 0 0 300 example.com 39 9", FAILS, text)
    second("7 12 " + REV, 39, 9, FAILS, text)
    second("3 . unknown", 39, 9, FAILS, text, absent("PTR", REV))

    heading("E19: 20, 21, 22, 23, 24, 25 or 26, 28")
    long = {"sender": 321 * "s", "helo": 256 * "h", "domain": 256 * "d", "name": 252}
    over, malformed = b"\0" * 65536, [FAILS, b"\0"]
    for number in (20, 21, 22, 23):
        first(f"{number} . 0 0 0 . 0 0", *malformed, **long)
        second(f"{number} . .", 40, 9, *malformed, text=499, **long)
        second(f"{number} . .", 0, 0, *malformed, text=499, **long)
        long.pop(next(iter(long)))
    second("23 . .", 40, 9, over, text=499)
    second("24 . .", 40, 9, over)
    first("25 48 0 0 0 . 0 0", *malformed)
    second("25 48 .", 40, 9, *malformed)
    second("25 48 .", 0, 0, *malformed)
    first("26 48 0 0 0 . 0 0", FAILS, FAILS)
    second("26 48 .", 40, 9, FAILS, FAILS)
    second("26 48 .", 0, 0, FAILS, FAILS)
    second("26 48 .", 40, 9, FAILS, FAILS, b"\0")
    second("28 . .", 40, 9, FAILS)


def lifetimes():
    def given_50(text):
        """The record of example.com, with a lifetime of 50."""
        return lasting(50, R(text))

    heading("L1: every entry that was found counts: of a, mx, ptr and exists, of hosts, included and redirected records; void and failed ones, matched or not")
    asks = given_50("v=spf1 a:g.x ?all")
    first("1 . 1 1 7 . 0 0", asks, lasting(7, absent("A", "g.x")))
    first("1 . 1 1 7 . 0 0", asks, lasting(7, A("g.x")))
    first("5 . 1 0 7 . 0 0", asks, lasting(7, failed("A", "g.x")))
    first("1 . 1 0 7 . 0 0", asks, lasting(7, A("g.x", OTHER)))
    first("2 . 1 0 7 . 0 0", asks, lasting(7, A("g.x", CLIENT)))
    first("2 . 1 0 7 . 0 0", lasting(7, A("g.x", CLIENT)), asks)
    first("2 . 1 0 50 . 0 0", asks, lasting(51, A("g.x", CLIENT)))
    first("2 . 1 0 50 . 0 0", asks, lasting(50, A("g.x", CLIENT)))
    first("2 . 1 0 49 . 0 0", asks, lasting(49, A("g.x", CLIENT)))
    first("0 . 0 0 7 . 0 0", lasting(7, absent("TXT", "example.com")))
    first("0 . 0 0 7 . 0 0", lasting(7, R("no record")))
    first("5 . 0 0 7 . 0 0", lasting(7, failed("TXT", "example.com")))
    first("6 . 0 0 7 . 0 0", lasting(7, R("v=spf1 moo")))
    first("2 . 1 0 9 . 0 0", given_50("v=spf1 include:i.x -all"), lasting(9, TXT("i.x", "v=spf1 +all")))
    first("3 . 1 0 9 example.com 0 0", given_50("v=spf1 include:i.x -all"), lasting(9, TXT("i.x", "v=spf1 -all")))
    first("6 . 1 0 9 . 0 0", given_50("v=spf1 include:i.x -all"), lasting(9, absent("TXT", "i.x")))
    first("3 . 1 0 9 b.x 0 0", lasting(9, R("v=spf1 redirect=b.x")), lasting(50, TXT("b.x", "v=spf1 -all")))
    first("3 . 1 0 9 b.x 0 0", given_50("v=spf1 redirect=b.x"), lasting(9, TXT("b.x", "v=spf1 -all")))
    first("2 . 2 0 8 . 0 0", given_50("v=spf1 include:i.x a:g.x"), lasting(9, TXT("i.x", "v=spf1 -all")), lasting(8, A("g.x", CLIENT)))
    first("2 . 2 0 9 . 0 0", given_50("v=spf1 include:i.x a:g.x"), lasting(9, TXT("i.x", "v=spf1 -all")), lasting(10, A("g.x", CLIENT)))
    first("3 . 1 1 7 example.com 0 0", given_50("v=spf1 mx -all"), lasting(7, absent("MX", "example.com")))
    hosts = lasting(60, MX("example.com", (10, "h0.x"), (20, "h1.x")))
    first("3 . 1 0 7 example.com 0 0", given_50("v=spf1 mx -all"), hosts, lasting(70, A("h0.x", OTHER)), lasting(7, A("h1.x", OTHER)))
    first("3 . 1 1 7 example.com 0 0", given_50("v=spf1 mx -all"), hosts, lasting(7, absent("A", "h0.x")), lasting(70, A("h1.x", OTHER)))
    first("5 . 1 0 7 . 0 0", given_50("v=spf1 mx -all"), hosts, lasting(7, failed("A", "h0.x")), lasting(1, A("h1.x", CLIENT)))
    validated = lasting(60, PTR(REV, "h.example.com"))
    first("2 . 1 0 7 . 0 0", given_50("v=spf1 ptr -all"), validated, lasting(7, A("h.example.com", CLIENT)))
    first("3 . 1 0 7 example.com 0 0", given_50("v=spf1 ptr -all"), validated, lasting(7, failed("A", "h.example.com")))
    first("3 . 1 0 7 example.com 0 0", given_50("v=spf1 ptr -all"), lasting(7, failed("PTR", REV)))
    first("3 . 1 1 7 example.com 0 0", given_50("v=spf1 ptr -all"), lasting(7, absent("PTR", REV)))
    first("2 . 1 0 7 . 0 0", given_50("v=spf1 exists:g.x -all"), lasting(7, A("g.x", OTHER)))
    voids = [lasting(seconds, absent("A", name)) for name, seconds in (("a.x", 9), ("b.x", 8), ("c.x", 7), ("d.x", 1))]
    first("6 . 3 3 7 . 0 0", given_50("v=spf1 exists:a.x exists:b.x exists:c.x exists:d.x"), *voids)

    heading("L2: the missing question adds nothing; 0 if nothing was found")
    first("7 1 1 0 50 g.x 0 0", asks)
    first("7 16 0 0 0 example.com 0 0")
    first("7 16 0 0 0 example.com 0 0", lasting(7, A("g.x", CLIENT)))
    first("7 1 1 0 7 h0.x 0 0", given_50("v=spf1 mx -all"), lasting(7, MX("example.com", (10, "h0.x"), (20, "h1.x"))))
    first("7 1 1 0 8 h1.x 0 0", given_50("v=spf1 mx -all"), hosts, lasting(8, A("h0.x", OTHER)))
    first("7 16 1 0 50 i.x 0 0", given_50("v=spf1 include:i.x -all"))
    first("7 12 1 0 50 " + REV + " 0 0", given_50("v=spf1 ptr -all"))

    heading("L3: nothing was asked; refusals")
    for domain in ("com", "com.", "example..com", ".example.com", "", "."):
        first("0 . 0 0 0 . 0 0", asks, lasting(7, TXT("com", "v=spf1 -all")), domain=domain)
    first("20 . 0 0 0 . 0 0", asks, sender="")
    first("21 . 0 0 0 . 0 0", asks, helo=256 * "h")
    first("22 . 0 0 0 . 0 0", asks, domain=256 * "d")
    first("23 . 0 0 0 . 0 0", asks, name=252)
    first("24 . 0 0 0 . 0 0", b"\0" * 65536)
    first("25 0 0 0 0 . 0 0", b"\0")
    # The two entries before have 34 and 19 bytes.
    first("26 53 0 0 0 . 0 0", given_50("v=spf1 -all"), lasting(7, A("g.x", CLIENT)), lasting(60, R("v=spf1 -all")))

    heading("L4: passed over: hosts behind a match or of an answer over ten, the other family, kind 99, names 11 and on, what comes after a match or limit")
    passed = lasting(60, MX("example.com", (10, "ok.x"), (20, "h.x")))
    first("2 . 1 0 50 . 0 0", given_50("v=spf1 mx -all"), passed, lasting(70, A("ok.x", CLIENT)), lasting(1, A("h.x", OTHER)))
    crowd = [(10, f"h{number}.x") for number in range(11)]
    addresses = [lasting(1, A(host, CLIENT)) for _, host in crowd]
    first("6 . 1 0 50 . 0 0", given_50("v=spf1 mx -all"), lasting(60, MX("example.com", *crowd)), *addresses)
    first("2 . 1 0 1 . 0 0", given_50("v=spf1 mx -all"), lasting(60, MX("example.com", *crowd[:10])), *addresses)
    other = "2001:db8::1"
    first("3 . 1 0 50 example.com 0 0", given_50("v=spf1 a:g.x -all"), lasting(60, A("g.x", OTHER)), lasting(1, AAAA("g.x", other)))
    first("2 . 1 0 50 . 0 0", given_50("v=spf1 a:g.x -all"), lasting(1, A("g.x", OTHER)), lasting(60, AAAA("g.x", other)), client=other)
    first("3 . 0 0 50 example.com 0 0", lasting(1, SPF("example.com", "v=spf1 +all")), given_50("v=spf1 -all"))
    first("3 . 0 0 50 example.com 0 0", given_50("v=spf1 -all"), lasting(1, SPF("example.com", "v=spf1 +all")))
    first("7 16 0 0 0 example.com 0 0", lasting(1, SPF("example.com", "v=spf1 +all")))
    names = [f"n{number}.example.com" for number in range(11)]
    pointers = lasting(60, PTR(REV, *names))
    wrong = [lasting(70, A(name, OTHER)) for name in names[:10]]
    first("3 . 1 0 50 example.com 0 0", given_50("v=spf1 ptr -all"), pointers, *wrong, lasting(1, A(names[10], CLIENT)))
    first("2 . 1 0 50 . 0 0", given_50("v=spf1 ptr -all"), pointers, lasting(70, A(names[0], CLIENT)), lasting(1, A(names[1], CLIENT)))
    first("2 . 0 0 50 . 0 0", given_50("v=spf1 ip4:192.0.2.129 a:g.x -all"), lasting(1, A("g.x", CLIENT)))
    first("6 . 10 0 40 . 0 0", given_50("v=spf1" + 10 * " a:g.x" + " a:k.x"), lasting(40, A("g.x", OTHER)), lasting(1, A("k.x", CLIENT)))
    first("3 . 0 0 50 example.com 0 0", lasting(1, A("g.x", CLIENT)), given_50("v=spf1 -all"), lasting(1, TXT("b.x", "v=spf1 -all")))

    heading("L5: p asks all of the first ten names, also after the current domain was found; its void and failed answers count too")
    shows, shown = given_50("v=spf1 exists:%{p}.g.x -all"), lasting(80, A("example.com.g.x", OTHER))
    both = lasting(60, PTR(REV, "example.com", "h.example.com"))
    current = lasting(70, A("example.com", CLIENT))
    first("2 . 1 0 7 . 0 0", shows, both, current, lasting(7, A("h.example.com", OTHER)), shown)
    first("2 . 1 0 7 . 0 0", shows, both, current, lasting(7, absent("A", "h.example.com")), shown)
    first("2 . 1 0 7 . 0 0", shows, both, current, lasting(7, failed("A", "h.example.com")), shown)
    first("7 1 1 0 50 h.example.com 0 0", shows, both, current, shown)
    eleven = lasting(60, PTR(REV, "example.com", *names[:10]))
    first("2 . 1 0 50 . 0 0", shows, eleven, current, *wrong[:9], lasting(1, A(names[9], CLIENT)), shown)
    unknown = lasting(80, A("unknown.g.x", OTHER))
    first("2 . 1 0 7 . 0 0", shows, lasting(7, absent("PTR", REV)), unknown)
    first("2 . 1 0 7 . 0 0", shows, lasting(7, failed("PTR", REV)), unknown)
    first("7 12 1 0 50 " + REV + " 0 0", shows, unknown)

    heading("L6: an explanation's entries and p's for it never count, and the second call has no lifetime")
    explained = given_50("v=spf1 -all exp=e.x")
    first("3 . 0 0 50 example.com 39 3", explained, lasting(7, TXT("e.x", "no mail")))
    second("3 . no mail", 39, 3, explained, lasting(7, TXT("e.x", "no mail")))
    second("7 16 e.x", 39, 3, explained)
    first("3 . 0 0 50 example.com 39 3", explained, lasting(7, TXT("e.x", "%{p}")), lasting(7, absent("PTR", REV)))
    second("3 . unknown", 39, 3, explained, lasting(7, TXT("e.x", "%{p}")), lasting(7, absent("PTR", REV)))
    first("3 . 0 0 50 example.com 39 6", given_50("v=spf1 -all exp=%{p}.x"), lasting(7, absent("PTR", REV)))
    second("7 16 unknown.x", 39, 6, given_50("v=spf1 -all exp=%{p}.x"), lasting(7, absent("PTR", REV)))

    heading("L8: lifetimes are little-endian numbers from 0 to 4294967295, any for any status")
    most = 4294967295
    for lifetime in (0, 1, 255, 256, 65535, 65536, 16777216, 67305985, 2147483647, 2147483648, most):
        first(f"2 . 0 0 {lifetime} . 0 0", lasting(lifetime, R("v=spf1 +all")))
        first(f"0 . 0 0 {lifetime} . 0 0", lasting(lifetime, absent("TXT", "example.com")))
        first(f"5 . 0 0 {lifetime} . 0 0", lasting(lifetime, failed("TXT", "example.com")))
        first(f"3 . 0 0 {lifetime} example.com 0 0", lasting(lifetime, R("v=spf1 -all")))
        first(f"7 1 1 0 {lifetime} g.x 0 0", lasting(lifetime, R("v=spf1 a:g.x")))
    pairs = (0, 1), (255, 256), (65535, 65536), (255, 65536), (16777215, 16777216), (2147483647, 2147483648), (0, most), (1, most), (most - 1, most)
    for less, more in pairs:
        first(f"2 . 1 0 {less} . 0 0", lasting(less, R("v=spf1 a:g.x")), lasting(more, A("g.x", CLIENT)))
        first(f"2 . 1 0 {less} . 0 0", lasting(more, R("v=spf1 a:g.x")), lasting(less, A("g.x", CLIENT)))
    first(f"2 . 1 0 {most} . 0 0", lasting(most, R("v=spf1 a:g.x")), lasting(most, A("g.x", CLIENT)))


def main(path):
    vectors(path / "first-w209.txt", "first", 8, first_answer)
    vectors(path / "second-w209.txt", "second", 11, second_answer)
    for section in (buffers, domains, places, questions, lifetimes):
        section()
    need(all(line.isascii() and len(line) < LINE for line in given + printed), "a line is too long or not ASCII")
    store(CRATE, given, printed)
    print(sum(not line.startswith("#") for line in given), "cases")


if __name__ == "__main__":
    need(len(sys.argv) == 2, __doc__)
    main(pathlib.Path(sys.argv[1]))
