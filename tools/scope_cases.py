#!/usr/bin/env python3
"""The cases of the program scope_cases: those of the scope paper's sections "Both sides of each line" and "Errors that look right", and the inputs of the list of
readings (Q1 to Q53); and the inputs of the readings of the change requests, by their numbers (W-201: A1 to A12; W-207: K1, in place of Q18 and Q46; K2
has those of Q38; W-204: V1 to V7, which amend Q23; W-209: L1 to L8 and L11).

    python3 tools/scope_cases.py

writes crates/scope_cases/stdin, the cases, and crates/scope_cases/stdout, what the program must print; and in crates/check_host the example of the check
program. Each expected line stands beside its case; it was written by hand from the scope paper, the change requests and the readings, and none was taken
from what a program printed. The gate doesn't run this script.

Unless said otherwise: client 192.0.2.129, domain example.com, sender user@example.com, HELO helo.example, receiver empty, t 7, and a lifetime of 300 in each
entry. The expected answer of a check is number, kind or place (`.` where absent), lookups, voids, lifetime, and for 3 and 7 the text or name, which the
program prints on a line of its own. The lifetime is 0 for a refusal and where no entry was consulted: a malformed or single-label domain, or a 7 for the
outermost TXT question.
"""

import ipaddress
import pathlib
import sys

sys.dont_write_bytecode = True

from table_layouts import KINDS, NEW, little, refusal

CRATES = pathlib.Path(__file__).resolve().parent.parent / "crates"

# The lengths of the program's buffers for a line, a record or text, and an argument of an expansion.
LINE, TEXT, ARGUMENT = 20000, 8192, 1024

# The lifetime of an entry that is given none.
LIFETIME = 300

given, printed, labels = [], [], []


def need(condition, *why):
    if not condition:
        sys.exit(" ".join(map(str, why)))


def octets(text):
    """The bytes of a text; bytes stay what they are."""
    return text if isinstance(text, bytes) else text.encode("ascii")


def hexed(text):
    return octets(text).hex() or "-"


def store(crate, given, printed):
    """The cases of a program, and what it must print, beside its sources."""
    (crate / "stdin").write_text("\n".join(given) + "\n", encoding="ascii")
    (crate / "stdout").write_text("\n".join(printed) + "\n", encoding="ascii")


def packed(address):
    """An address as its octets in hex."""
    return ipaddress.ip_address(address).packed.hex()


# Entries of a table: kind, status and name, the items, and the lifetime if it isn't the usual one.


def A(name, *addresses):
    return "A", 0, name, [ipaddress.IPv4Address(address).packed for address in addresses]


def AAAA(name, *addresses):
    return "AAAA", 0, name, [ipaddress.IPv6Address(address).packed for address in addresses]


def PTR(name, *names):
    return "PTR", 0, name, names


def MX(name, *hosts):
    return "MX", 0, name, [little(preference) + octets(host) for preference, host in hosts]


def TXT(name, *texts):
    return "TXT", 0, name, texts


def SPF(name, *texts):
    return "SPF", 0, name, texts


def failed(kind, name):
    return kind, 2, name, []


def absent(kind, name):
    """No such name."""
    return kind, 3, name, []


def R(*texts):
    return TXT("example.com", *texts)


def lasting(lifetime, one):
    """An entry with a lifetime of its own."""
    return *one, lifetime


def entry(kind, status, name, items, lifetime=LIFETIME):
    number = KINDS.get(kind, kind)
    body = little(number) + bytes([status]) + little(lifetime, NEW) + bytes([len(name)]) + octets(name)
    body += b"".join(little(len(item)) + octets(item) for item in items)
    return little(len(body)) + body


def table_of(entries):
    """A table; an entry that is given as bytes stands as it is."""
    return b"".join(one if isinstance(one, bytes) else entry(*one) for one in entries)


def input_of(
    entries, client="192.0.2.129", domain="example.com", sender="user@example.com", helo="helo.example", receiver="", t="7"
):
    """The input of a check: six lines and the table."""
    return b"".join(octets(line) + b"\n" for line in (client, domain, sender, helo, receiver, t)) + table_of(entries)


# Kinds of cases.


def heading(text):
    given.append("# " + text)
    printed.append("# " + text)


def case(kind, label, expected, *words):
    line = " ".join([kind, label, *map(str, words)])
    need(label not in labels, "two cases have the label", label)
    need(len(line) <= LINE, label, "is too long")
    labels.append(label)
    given.append(line)
    printed.append(label + " " + expected)


def record(label, expected, text):
    need(len(text) <= TEXT, label, "is too long")
    case("record", label, expected, hexed(text))


def term(label, expected, text, place):
    need(len(text) <= TEXT, label, "is too long")
    case("term", label, expected, hexed(text), place)


def match(label, expected, client, network, length):
    case("match", label, expected, packed(client), packed(network), length)


def expand(
    label, expected, text, form="domain-spec", client="192.0.2.129", domain="example.com", sender="user@example.com", p=""
):
    need(max(map(len, (domain, sender, p))) <= ARGUMENT and len(text) <= TEXT, label, "is too long")
    case("expand", label, expected, form, packed(client), *map(hexed, (domain, sender, p, text)))


def table_in(text):
    """The table of an input: what follows its six lines."""
    return b"".join(octets(text).split(b"\n", 6)[6:])


def stated(number, where):
    """What an answer says of the table: its refusal, or None."""
    return (int(number), None if where == "." else int(where)) if number in ("24", "25", "26") else None


def answer(label, expected, text):
    """The expected answer to an input as the program prints it: for 3 and 7 there is a second line, which may be empty. The table, where the answer comes to
    depend on it, is refused as the answer says, or not at all."""
    if expected == "input":
        return expected
    words = expected.split(" ", 5)
    number, where, *counted = words[:5]
    need(len(counted) == 3 and all(map(str.isdigit, counted)), label, "has no counts and lifetime")
    if number not in ("20", "21", "22", "23"):
        need(refusal(table_in(text)) == stated(number, where), label, "has a table that is refused otherwise")
    return " ".join(words[:5]) + "\n" + "".join(words[5:]) if number in ("3", "7") else expected


def check(label, expected, *entries, **arguments):
    check_input(label, expected, input_of(entries, **arguments))


def check_input(label, expected, text):
    case("check", label, answer(label, expected, text), hexed(text))


def wide(label, expected, count, byte, front, rest):
    """The input of a check that is front, so many of a byte, and rest, held chunk by chunk."""
    text = octets(front) + count * octets(byte) + octets(rest)
    case("wide", label, answer(label, expected, text), count, ord(byte), hexed(front), hexed(rest))


def listing(label, text, *terms):
    """What the record printer prints of its input: the header and a line for each term."""
    unlisted(label, "\n".join(("at term sign arg four six", *terms)), text)


def unlisted(label, expected, text):
    """The same for a refusal, which has no header."""
    need(len(text) <= TEXT, label, "is too long")
    case("listing", label, expected, hexed(text))


def lent(label, expected, *entries, name=253, text=500, zeros=0, **arguments):
    given_input = input_of(entries, **arguments)
    case("lent", label, answer(label, expected, given_input + bytes(zeros)), name, text, zeros, hexed(given_input))


def in_grammar(label, *texts):
    """Records of one term that are accepted: the answer is the place just after the version."""
    for number, text in enumerate(texts, 1):
        record(f"{label}-in-{number}", "accepted 6", "v=spf1 " + text)


def outside(label, *texts):
    """Records whose only term is outside the grammar: 32, and `|` in the text marks its place."""
    for number, text in enumerate(texts, 1):
        need(text.count("|") == 1, label, "needs one mark in", text)
        record(f"{label}-out-{number}", f"refused 32 at {7 + text.index('|')}", "v=spf1 " + text.replace("|", ""))


# The name of the PTR question of 192.0.2.129.
REV = "129.2.0.192.in-addr.arpa"
# An address that is not the client's, and the client's.
OTHER, CLIENT = "10.0.0.1", "192.0.2.129"
# A record that fails with an explanation.
FAILS = R("v=spf1 -all exp=e.example")


def explains(label, expected, text, **arguments):
    """A fail with this explanation text; nothing is expected where the text comes to be empty."""
    check(label, "3 . 0 0 300 " + expected if expected else "3 . 0 0 300", FAILS, TXT("e.example", text), **arguments)


# The scope paper, "Both sides of each line".


def both_sides():
    heading("both sides of each line: records")
    record("line-version", "accepted 6", "v=spf1")
    term("line-version-no-terms", "end", "v=spf1", 6)
    check("line-version-check", "1 . 0 0 300", R("v=spf1"))
    record("line-version-10", "refused 31 at 0", "v=spf10 -all")
    check("line-version-10-check", "0 . 0 0 300", R("v=spf10 -all"))
    record("line-ip4-32", "accepted 6", "v=spf1 ip4:192.0.2.0/32")
    record("line-ip4-33", "refused 32 at 22", "v=spf1 ip4:192.0.2.0/33")
    record("line-ip4-032", "refused 32 at 22", "v=spf1 ip4:192.0.2.0/032")
    check("line-ip4-32-same", "2 . 0 0 300", R("v=spf1 ip4:192.0.2.129/32 -all"))
    check("line-ip4-32-next", "3 . 0 0 300", R("v=spf1 ip4:192.0.2.128/32 -all"))
    check("line-ip4-33-check", "6 . 0 0 300", R("v=spf1 ip4:192.0.2.129/33 -all"))
    record("line-ip6-128", "accepted 6", "v=spf1 ip6:2001:db8::/128")
    record("line-ip6-129", "refused 32 at 24", "v=spf1 ip6:2001:db8::/129")
    check("line-ip6-128-same", "2 . 0 0 300", R("v=spf1 ip6:2001:db8::/128 -all"), client="2001:db8::")
    check("line-ip6-128-next", "3 . 0 0 300", R("v=spf1 ip6:2001:db8::/128 -all"), client="2001:db8::1")
    record("line-modifier-ip4", "accepted 6", "v=spf1 ip4=192.0.2.1")
    term("line-modifier-ip4-term", "7 20 ip4 . =192.0.2.1 . .", "v=spf1 ip4=192.0.2.1", 6)
    check("line-modifier-ip4-ignored", "3 . 0 0 300", R("v=spf1 ip4=192.0.2.129 -all"))
    record("line-modifier-sign", "refused 32 at 8", "v=spf1 -x=y")
    record("line-redirect-twice", "refused 33 at 40", "v=spf1 redirect=a.example exp=b.example redirect=c.example")
    check("line-redirect-twice-check", "6 . 0 0 300", R("v=spf1 redirect=a.example exp=b.example redirect=c.example"))
    record("line-top-label-1", "refused 32 at 18", "v=spf1 a:example.1")
    record("line-top-label-1-1", "accepted 6", "v=spf1 a:example.1-1")
    check("line-top-label-1-1-check", "7 1 1 0 300 example.1-1", R("v=spf1 a:example.1-1 -all"))
    record("line-digits-0", "refused 32 at 18", "v=spf1 exists:%{d0}.example")
    record("line-digits-02", "accepted 6", "v=spf1 exists:%{d02}.example")
    check("line-digits-02-check", "7 1 1 0 300 example.com.example", R("v=spf1 exists:%{d02}.example -all"))
    record("line-ip6-seven-groups", "accepted 6", "v=spf1 ip6:1:2:3:4:5:6:7::")
    record("line-ip6-eight-groups", "refused 32 at 26", "v=spf1 ip6:1:2:3:4:5:6:7:8::")

    heading("both sides of each line: macros of source document 001")
    strong = {"sender": "strong-bad@email.example.com", "domain": "email.example.com"}
    expand("line-macro-lr", "ok bad.strong", "%{lr-}", **strong)
    expand("line-macro-l1r", "ok strong", "%{l1r-}", **strong)
    expand("line-macro-d2r", "ok example.email", "%{d2r}", **strong)
    expand("line-macro-lr-explanation", "ok bad.strong", "%{lr-}", form="explanation", **strong)
    expand("line-macro-l1r-explanation", "ok strong", "%{l1r-}", form="explanation", **strong)
    expand("line-macro-d2r-explanation", "ok example.email", "%{d2r}", form="explanation", **strong)

    heading("both sides of each line: 192.0.2.129 against 192.0.2.0")
    match("line-match-24", "1", CLIENT, "192.0.2.0", 24)
    match("line-match-25", "0", CLIENT, "192.0.2.0", 25)
    match("line-match-0", "1", CLIENT, "192.0.2.0", 0)
    match("line-match-0-far", "1", CLIENT, "63.255.253.126", 0)
    # "families never match each other".
    match("line-match-0-family", "0", CLIENT, "::192.0.2.129", 0)
    check("line-match-24-check", "2 . 0 0 300", R("v=spf1 ip4:192.0.2.0/24 -all"))
    check("line-match-25-check", "3 . 0 0 300", R("v=spf1 ip4:192.0.2.0/25 -all"))
    check("line-match-0-check", "2 . 0 0 300", R("v=spf1 ip4:63.255.253.126/0 -all"))
    check("line-match-0-family-check", "3 . 0 0 300", R("v=spf1 ip6:::/0 -all"))

    heading("both sides of each line: ten redirects in a chain, eleven")
    chain = [TXT(f"r{n}.example", f"v=spf1 redirect=r{n + 1}.example") for n in range(1, 10)]
    first, fails = R("v=spf1 redirect=r1.example"), "v=spf1 -all"
    check("line-redirects-10", "3 . 10 0 300", first, *chain, TXT("r10.example", fails))
    eleven = [first, *chain, TXT("r10.example", "v=spf1 redirect=r11.example")]
    check("line-redirects-11", "6 . 10 0 300", *eleven, TXT("r11.example", fails))
    # "the eleventh in the whole check isn't begun": its TXT isn't asked.
    check("line-redirects-11-unasked", "6 . 10 0 300", *eleven)

    heading("both sides of each line: two void exists, three")
    void = absent("A", "a.b")
    check("line-voids-2", "3 . 2 2 300", R("v=spf1 exists:a.b exists:a.b -all"), void)
    check("line-voids-3", "6 . 3 3 300", R("v=spf1 exists:a.b exists:a.b exists:a.b -all"), void)


# The scope paper, "Errors that look right".


def look_right():
    heading("errors that look right: a length of 33 reduced by the machine's shift to 1")
    # "a length over the width matches nothing": 255.0.0.0 agrees with the client in one bit.
    match("right-33-one-bit", "0", CLIENT, "255.0.0.0", 33)
    match("right-33-other-bit", "0", CLIENT, "1.0.0.0", 33)
    match("right-33-same", "0", CLIENT, CLIENT, 33)
    match("right-32-same", "1", CLIENT, CLIENT, 32)
    match("right-1", "1", CLIENT, "255.0.0.0", 1)
    match("right-64", "0", CLIENT, CLIENT, 64)
    match("right-65", "0", CLIENT, "255.0.0.0", 65)
    match("right-256", "0", CLIENT, CLIENT, 256)
    match("right-280", "0", CLIENT, CLIENT, 280)
    match("right-129", "0", "2001:db8::1", "2001:db8::1", 129)
    match("right-128", "1", "2001:db8::1", "2001:db8::1", 128)
    match("right-ip6-192", "0", "2001:db8::1", "2001:db8::1", 192)
    match("right-ip6-65", "1", "2001:db8::1", "2001:db8:0:0:7fff::", 65)
    match("right-ip6-65-out", "0", "2001:db8::1", "2001:db8:0:0:8000::", 65)
    check("right-33-check", "6 . 0 0 300", R("v=spf1 ip4:255.0.0.0/33 ?all"))

    heading("errors that look right: an included fail taken as this record's fail")
    includes = R("v=spf1 include:i.example ?all")

    def included(label, expected, text):
        check("right-include-" + label, expected, includes, TXT("i.example", text))

    included("fail", "1 . 1 0 300", "v=spf1 -all")
    included("softfail", "1 . 1 0 300", "v=spf1 ~all")
    included("neutral", "1 . 1 0 300", "v=spf1 ?all")
    included("no-match", "1 . 1 0 300", "v=spf1")
    included("pass", "2 . 1 0 300", "v=spf1 +all")
    included("permerror", "6 . 1 0 300", "v=spf1 moo")
    included("none", "6 . 1 0 300", "no record")
    check("right-include-temperror", "5 . 1 0 300", includes, failed("TXT", "i.example"))
    # "Fail at the outermost check, or through redirects only, fetches exp": e.example, which is missing, isn't asked.
    included("fail-exp", "1 . 1 0 300", "v=spf1 -all exp=e.example")
    check("right-include-fail-then-fail", "3 . 1 0 300", R("v=spf1 include:i.example -all"), TXT("i.example", "v=spf1 -all exp=e.example"))
    check("right-include-pass-minus", "3 . 1 0 300", R("v=spf1 -include:i.example +all"), TXT("i.example", "v=spf1 +all"))
    check("right-include-redirect-fail", "1 . 2 0 300", includes, TXT("i.example", "v=spf1 redirect=r.example"), TXT("r.example", "v=spf1 -all"))

    heading("errors that look right: a redirect to a domain without a record answered neutral")
    redirects = R("v=spf1 redirect=r.example")
    check("right-redirect-absent", "6 . 1 0 300", redirects, absent("TXT", "r.example"))
    check("right-redirect-empty", "6 . 1 0 300", redirects, TXT("r.example"))
    check("right-redirect-other-text", "6 . 1 0 300", redirects, TXT("r.example", "v=spf10 -all"))
    # A record without a match is neutral; a failed question is temperror.
    check("right-redirect-neutral", "1 . 1 0 300", redirects, TXT("r.example", "v=spf1"))
    check("right-redirect-failed", "5 . 1 0 300", redirects, failed("TXT", "r.example"))

    heading("errors that look right: a match found before a later bad term was read")
    record("right-bad-term", "refused 32 at 15", "v=spf1 +all moo")
    check("right-bad-term-check", "6 . 0 0 300", R("v=spf1 +all moo"))
    check("right-bad-term-ip4", "6 . 0 0 300", R("v=spf1 ip4:192.0.2.129 ip4:192.0.2.0/33"))
    check("right-bad-term-redirects", "6 . 0 0 300", R("v=spf1 +all redirect=a.b redirect=c.d"))
    check("right-bad-term-nothing-asked", "6 . 0 0 300", R("v=spf1 a:a.b moo"))
    check("right-bad-term-included", "6 . 1 0 300", R("v=spf1 include:i.example +all"), TXT("i.example", "v=spf1 +all moo"))

    heading("errors that look right: over-long names cut by bytes, not labels")
    # A label of 60 bytes and its dot: 61.
    label = "y" * 60 + "."
    check("right-name-253", "7 1 1 0 300 " + label * 4 + "abcde.com", R("v=spf1 exists:" + label * 4 + "abcde.com -all"))
    check("right-name-254", "7 1 1 0 300 " + label * 3 + "abcdef.com", R("v=spf1 exists:" + label * 4 + "abcdef.com -all"))
    check("right-name-315", "7 1 1 0 300 " + label * 3 + "abcdef.com", R("v=spf1 exists:" + label * 5 + "abcdef.com -all"))
    check("right-name-include", "7 16 1 0 300 " + label * 3 + "abcdef.com", R("v=spf1 include:" + label * 4 + "abcdef.com -all"))
    check("right-name-redirect", "7 16 1 0 300 " + label * 3 + "abcdef.com", R("v=spf1 redirect=" + label * 4 + "abcdef.com"))
    check("right-name-exp", "7 16 0 0 300 " + label * 3 + "abcdef.com", R("v=spf1 -all exp=" + label * 4 + "abcdef.com"))


# The readings, part 1.


def part_one():
    heading("Q1: the printer lowers an unknown modifier's name")
    term("Q1-name", "7 14 foo . =Bar . .", "v=spf1 Foo=Bar", 6)

    heading("Q2: a readable t")

    def seconds(label, expected, t):
        check("Q2-" + label, expected, FAILS, TXT("e.example", "%{t}"), t=t)

    seconds("leading-zeros", "3 . 0 0 300 7", "007")
    seconds("leading-zeros-many", "3 . 0 0 300 7", "0" * 30 + "7")
    seconds("zero", "3 . 0 0 300 0", "0")
    seconds("zeros", "3 . 0 0 300 0", "000")
    seconds("largest", "3 . 0 0 300 18446744073709551615", "18446744073709551615")
    seconds("over", "input", "18446744073709551616")
    seconds("plus", "input", "+7")
    seconds("blank-before", "input", " 7")
    seconds("blank-after", "input", "7 ")
    seconds("minus", "input", "-1")
    seconds("empty", "input", "")
    seconds("return", "input", "7\r")

    heading("Q3: lines that are missing")
    check_input("Q3-t-ends-input", "7 16 0 0 0 example.com", "192.0.2.129\nexample.com\nu@x\n\n\n7")
    check_input("Q3-empty-table", "7 16 0 0 0 example.com", "192.0.2.129\nexample.com\nu@x\n\n\n7\n")
    check_input("Q3-before-t", "input", "192.0.2.129\nexample.com\nu@x\n\n\n")
    check_input("Q3-before-helo", "input", "192.0.2.129\nexample.com\nu@x\n")
    check_input("Q3-nothing", "input", "")

    heading("Q4: a fail with an empty text")
    check("Q4-empty-text", "3 . 0 0 300", R("v=spf1 -all"))

    heading("Q5: upper-case R as transformer; escaping depends on the letter only")
    record("Q5-accepted", "accepted 6", "v=spf1 exists:%{dR}.example")
    check("Q5-reverses", "7 1 1 0 300 com.example.example", R("v=spf1 exists:%{dR}.example -all"))
    expand("Q5-not-escaped", "ok a/b", "%{lR}", sender="a/b@x.y")
    expand("Q5-escaped", "ok a%2Fb", "%{Lr}", sender="a/b@x.y")

    heading("Q6: over 500 bytes is said of the expanded text")
    explains("Q6-long-before", "com" * 80, "%{d00000001}" * 80)
    explains("Q6-long-after", "", "%{d}" * 46)
    explains("Q6-500", "example.com" * 45 + "12345", "%{d}" * 45 + "12345")
    explains("Q6-501", "", "%{d}" * 45 + "123456")

    heading("Q7: p's questions of an explanation that is too long anyway")
    check("Q7-asked", "7 12 0 0 300 " + REV, FAILS, TXT("e.example", "y" * 501 + "%{p}"))
    check("Q7-answered", "3 . 0 0 300", FAILS, TXT("e.example", "y" * 501 + "%{p}"), absent("PTR", REV))
    check("Q7-outside", "3 . 0 0 300", FAILS, TXT("e.example", "%{p}%{"))
    check("Q7-outside-digits", "3 . 0 0 300", FAILS, TXT("e.example", "%{p}%{d0}"))
    check("Q7-outside-byte", "3 . 0 0 300", FAILS, TXT("e.example", b"%{p}\xe9"))

    heading("Q8: ptr's target is made like a question name")
    target = "x." * 121 + "example.com"
    shortened = R("v=spf1 ptr:" + "x." * 130 + "%{d} -all")
    check("Q8-shortened", "2 . 1 0 300", shortened, PTR(REV, target), A(target, CLIENT))
    check("Q8-asks", "7 12 1 0 300 " + REV, shortened)
    check("Q8-lowered", "2 . 1 0 300", R("v=spf1 ptr:EXAMPLE.com. -all"), PTR(REV, "h.example.com"), A("h.example.com", CLIENT))
    # A malformed target doesn't match, counts its term and asks nothing of its own.
    check("Q8-malformed", "3 . 1 0 300", R("v=spf1 ptr:a..b -all"))

    heading("Q9: the name is shortened first and the rest is judged")
    check("Q9-space", "7 1 1 0 300 " + "x." * 125 + "com", R("v=spf1 exists:%_." + "x." * 130 + "com -all"))
    check("Q9-empty-label", "7 1 1 0 300 " + "x." * 125 + "com", R("v=spf1 exists:." + "x." * 130 + "com -all"))
    check("Q9-long-label", "7 1 1 0 300 " + "x." * 125 + "com", R("v=spf1 exists:" + "y" * 64 + "." + "x." * 130 + "com -all"))
    check("Q9-space-stays", "3 . 1 0 300", R("v=spf1 exists:" + "x." * 130 + "%_.com -all"))

    heading("Q10: the trailing dot is within the 4,096")
    helo = "y" * 255
    check("Q10-4097-with-dot", "3 . 1 0 300", R("v=spf1 exists:" + "%{h}" * 16 + "12345678901x.com. -all"), helo=helo)
    check("Q10-4096-with-dot", "7 1 1 0 300 com", R("v=spf1 exists:" + "%{h}" * 16 + "1234567890x.com. -all"), helo=helo)
    check("Q10-4096", "7 1 1 0 300 com", R("v=spf1 exists:" + "%{h}" * 16 + "12345678901x.com -all"), helo=helo)
    check("Q10-4097", "3 . 1 0 300", R("v=spf1 exists:" + "%{h}" * 16 + "123456789012x.com -all"), helo=helo)
    # Over 4,096 is a malformed domain for include and redirect, and a malformed case for exp.
    check("Q10-include", "6 . 1 0 300", R("v=spf1 include:" + "%{h}" * 16 + "123456789012x.a.com -all"), helo=helo)
    check("Q10-redirect", "6 . 1 0 300", R("v=spf1 redirect=" + "%{h}" * 16 + "123456789012x.a.com"), helo=helo)
    check("Q10-exp", "3 . 0 0 300", R("v=spf1 -all exp=" + "%{h}" * 16 + "123456789012x.a.com"), helo=helo)

    heading("Q11: include, redirect and exp with a malformed target")
    check("Q11-include", "6 . 1 0 300", R("v=spf1 include:a..b -all"))
    check("Q11-redirect", "6 . 1 0 300", R("v=spf1 redirect=a..b"))
    check("Q11-exp", "3 . 0 0 300", R("v=spf1 -all exp=a..b"))
    for name in ("a", "mx", "ptr", "exists"):
        check("Q11-" + name, "3 . 1 0 300", R(f"v=spf1 {name}:a..b -all"))

    heading("Q12: single-label targets")
    com = TXT("com", "v=spf1 +all")
    check("Q12-include", "6 . 1 0 300", R("v=spf1 include:%{d1} -all"), com)
    check("Q12-redirect", "6 . 1 0 300", R("v=spf1 redirect=%{d1}"), com)
    check("Q12-a", "7 1 1 0 300 com", R("v=spf1 a:%{d1} -all"))
    check("Q12-mx", "7 15 1 0 300 com", R("v=spf1 mx:%{d1} -all"))
    check("Q12-exists", "7 1 1 0 300 com", R("v=spf1 exists:%{d1} -all"))
    check("Q12-ptr", "2 . 1 0 300", R("v=spf1 ptr:%{d1} -all"), PTR(REV, "x.com"), A("x.com", CLIENT))
    check("Q12-exp", "7 16 0 0 300 com", R("v=spf1 -all exp=%{d1}"))
    check("Q12-exists-p", "7 1 1 0 300 unknown", R("v=spf1 exists:%{p} -all"), absent("PTR", REV))
    check("Q12-include-p", "6 . 1 0 300", R("v=spf1 include:%{p} -all"), absent("PTR", REV), TXT("unknown", "v=spf1 +all"))
    # p is the current domain wherever it stands among the validated names
    check("p-current-first", "7 1 1 0 300 example.com.x", R("v=spf1 exists:%{p}.x -all"), PTR(REV, "example.com", "m.example.com", "o.example"),
          A("example.com", CLIENT), A("m.example.com", CLIENT), A("o.example", CLIENT))
    check("p-current-last", "7 1 1 0 300 example.com.x", R("v=spf1 exists:%{p}.x -all"), PTR(REV, "o.example", "m.example.com", "example.com"),
          A("example.com", CLIENT), A("m.example.com", CLIENT), A("o.example", CLIENT))

    heading("Q13: p's questions of include, redirect and exp")
    check("Q13-include", "7 12 1 0 300 " + REV, R("v=spf1 include:%{p}..x.y -all"))
    check("Q13-include-answered", "6 . 1 0 300", R("v=spf1 include:%{p}..x.y -all"), absent("PTR", REV))
    check("Q13-redirect", "7 12 1 0 300 " + REV, R("v=spf1 redirect=%{p}.x"))
    check("Q13-redirect-answered", "7 16 1 0 300 unknown.x", R("v=spf1 redirect=%{p}.x"), absent("PTR", REV))
    check("Q13-exp", "7 12 0 0 300 " + REV, R("v=spf1 -all exp=%{p}..x.y"))
    for name in ("a", "mx", "ptr", "exists"):
        check("Q13-" + name, "7 12 1 0 300 " + REV, R(f"v=spf1 {name}:%{{p}}..x.y -all"))
        check(f"Q13-{name}-answered", "3 . 1 0 300", R(f"v=spf1 {name}:%{{p}}..x.y -all"), absent("PTR", REV))

    heading("Q14: an MX item is a preference, then a name or nothing")
    check("Q14-no-bytes", "25 0 0 0 0", ("MX", 0, "example.com", [b""]), R("v=spf1 mx -all"))
    check("Q14-one-byte", "25 0 0 0 0", ("MX", 0, "example.com", [b"\x0a"]), R("v=spf1 mx -all"))
    check("Q14-two-bytes", "3 . 1 0 300", ("MX", 0, "example.com", [b"\x0a\x00"]), R("v=spf1 mx -all"))

    heading("Q15: an MX preference is little-endian")
    check("Q15-order", "7 1 1 0 300 c.d", R("v=spf1 mx -all"), ("MX", 0, "example.com", [b"\x00\x01a.b", b"\x02\x00c.d"]))

    heading("Q16: the public expansion is the expansion as it is")
    expand("Q16-not-shortened", "ok " + "x." * 300 + "com", "x." * 300 + "com")
    expand("Q16-dot-kept", "ok a.b.", "a.b.")
    expand("Q16-not-lowered", "ok A.Bc", "A.Bc")
    # 41 is the only limit; the program's buffer has 4,096 bytes.
    expand("Q16-4096", "ok " + "x." * 2046 + "comm", "x." * 2046 + "comm")
    expand("Q16-4097", "refused 41", "x." * 2047 + "com")

    heading("Q17: a given p value")
    expand("Q17-empty", "ok", "%{p}", p="")
    expand("Q17-given", "ok h.example", "%{p}", p="h.example")
    expand("Q17-255", "ok example.com", "%{d}", p="p" * 255)
    expand("Q17-256", "refused 22", "%{d}", p="p" * 256)

    heading("Q19: ptr asks names outside the target too")
    check("Q19-asked", "7 1 1 0 300 x.y", R("v=spf1 ptr -all"), PTR(REV, "x.y"))
    check("Q19-validated", "3 . 1 0 300", R("v=spf1 ptr -all"), PTR(REV, "x.y"), A("x.y", CLIENT))


# The readings, part 2.


def limits():
    heading("Q21: counts at the limits")
    other = A("example.com", OTHER)
    ten = "v=spf1 " + "a " * 10
    check("Q21-lookups", "6 . 10 0 300", R("v=spf1 a a a a a a a a a a a -all"), other)
    check("Q21-lookups-10", "3 . 10 0 300", R(ten + "-all"), other)
    for name in ("include:i.example", "mx", "ptr", "exists:a.b", "redirect=r.example"):
        check("Q21-eleventh-" + name.partition(":")[0].partition("=")[0], "6 . 10 0 300", R(ten + name), other)
    check("Q21-eleventh-p", "6 . 10 0 300", R(ten + "exists:%{p}.x -all"), other)
    check("Q21-tenth-p", "7 12 10 0 300 " + REV, R("v=spf1 " + "a " * 9 + "exists:%{p}.x -all"), other)
    check("Q21-eleventh-matches", "6 . 10 0 300", R(ten + "a:b.example -all"), other, A("b.example", CLIENT))
    check("Q21-tenth-matches", "2 . 10 0 300", R("v=spf1 " + "a " * 9 + "a:b.example -all"), other, A("b.example", CLIENT))
    nine = TXT("i.example", "v=spf1 " + "a " * 9 + "-all")
    check("Q21-shared", "6 . 10 0 300", R("v=spf1 include:i.example a -all"), nine, A("i.example", OTHER), other)
    check("Q21-shared-10", "3 . 10 0 300", R("v=spf1 include:i.example -all"), nine, A("i.example", OTHER))
    check("Q21-in-include", "6 . 10 0 300", R("v=spf1 include:i.example ?all"), TXT("i.example", ten + "-all"), A("i.example", OTHER))
    check("Q21-uncounted", "3 . 0 0 300", R("v=spf1 " + "ip4:10.0.0.1 " * 11 + "ip6:::1 x=y -all"))
    void = absent("A", "a.b")
    check("Q21-voids", "6 . 3 3 300", R("v=spf1 exists:a.b exists:a.b exists:a.b -all"), void)
    check("Q21-voids-in-include", "6 . 4 3 300", R("v=spf1 include:i.example ?all"), TXT("i.example", "v=spf1 exists:a.b exists:a.b exists:a.b"), void)
    check("Q21-voids-shared", "6 . 4 3 300", R("v=spf1 exists:a.b include:i.example exists:a.b -all"), TXT("i.example", "v=spf1 exists:a.b"), void)

    heading("Q22: counts with 7")
    check("Q22-a", "7 1 1 0 300 example.com", R("v=spf1 a -all"))
    check("Q22-include", "7 16 1 0 300 i.example", R("v=spf1 include:i.example -all"))
    check("Q22-redirect", "7 16 1 0 300 r.example", R("v=spf1 redirect=r.example"))
    check("Q22-in-include", "7 1 2 0 300 i.example", R("v=spf1 include:i.example -all"), TXT("i.example", "v=spf1 a -all"))
    check("Q22-in-redirect", "7 15 2 0 300 r.example", R("v=spf1 redirect=r.example"), TXT("r.example", "v=spf1 mx -all"))
    check("Q22-voids", "7 1 2 1 300 example.com", R("v=spf1 exists:a.b a -all"), void)
    check("Q22-first", "7 16 0 0 0 example.com")
    check("Q22-aaaa", "7 28 1 0 300 example.com", R("v=spf1 a -all"), client="::1")
    check("Q22-ptr", "7 12 1 0 300 " + REV, R("v=spf1 ptr -all"))
    check("Q22-ptr-ip6", "7 12 1 0 300 1." + "0." * 23 + "8.b.d.0.1.0.0.2.ip6.arpa", R("v=spf1 ptr -all"), client="2001:db8::1")
    check("Q22-exists-ip6", "7 1 1 0 300 a.b", R("v=spf1 exists:a.b -all"), client="::1")

    heading("Q23: voids")
    a, mx, ptr = R("v=spf1 a -all"), R("v=spf1 mx -all"), R("v=spf1 ptr -all")
    check("Q23-aaaa-no-items", "3 . 1 1 300", a, AAAA("example.com"), client="::1")
    check("Q23-a-no-items", "3 . 1 1 300", a, A("example.com"))
    check("Q23-a-absent", "3 . 1 1 300", a, absent("A", "example.com"))
    check("Q23-include", "6 . 1 0 300", R("v=spf1 include:i.example -all"), absent("TXT", "i.example"))
    check("Q23-redirect", "6 . 1 0 300", R("v=spf1 redirect=r.example"), absent("TXT", "r.example"))
    check("Q23-mx", "3 . 1 1 300", mx, absent("MX", "example.com"))
    check("Q23-mx-no-items", "3 . 1 1 300", mx, MX("example.com"))
    check("Q23-ptr", "3 . 1 1 300", ptr, absent("PTR", REV))
    check("Q23-ptr-no-items", "3 . 1 1 300", ptr, PTR(REV))
    check("Q23-ptr-p", "3 . 1 1 300", R("v=spf1 ptr:%{p}.x -all"), absent("PTR", REV))
    check("Q23-p", "2 . 1 0 300", R("v=spf1 exists:%{p}.x -all"), absent("PTR", REV), A("unknown.x", "127.0.0.2"))
    check("Q23-p-and-own", "3 . 1 1 300", R("v=spf1 exists:%{p}.x -all"), absent("PTR", REV), absent("A", "unknown.x"))
    check("Q23-p-name", "3 . 1 1 300", R("v=spf1 exists:%{p}.x -all"), PTR(REV, "h.y"), absent("A", "h.y"), absent("A", "unknown.x"))
    check("Q23-failed-a", "5 . 1 0 300", a, failed("A", "example.com"))
    check("Q23-failed-mx", "5 . 1 0 300", mx, failed("MX", "example.com"))
    check("Q23-failed-exists", "5 . 1 0 300", R("v=spf1 exists:a.b -all"), failed("A", "a.b"))
    check("Q23-failed-ptr", "3 . 1 0 300", ptr, failed("PTR", REV))
    check("Q23-failed-ptr-name", "3 . 1 0 300", ptr, PTR(REV, "h.example.com"), failed("A", "h.example.com"))
    check("Q23-same-entry-twice", "3 . 2 2 300", R("v=spf1 a a -all"), absent("A", "example.com"))
    check("Q23-same-entry-thrice", "6 . 3 3 300", R("v=spf1 a a a -all"), absent("A", "example.com"))

    heading("Q24: mx")
    nameless = (10, "")
    hosts = [(10, f"m{n}.example") for n in range(1, 12)]
    check("Q24-eleven-nameless", "6 . 1 0 300", mx, MX("example.com", *[nameless] * 11))
    check("Q24-ten-nameless", "3 . 1 0 300", mx, MX("example.com", *[nameless] * 10))
    check("Q24-one-nameless", "3 . 1 0 300", mx, MX("example.com", nameless))
    check("Q24-eleven", "6 . 1 0 300", mx, MX("example.com", *hosts), A("m1.example", CLIENT))
    others = [A(f"m{n}.example", OTHER) for n in range(1, 10)]
    check("Q24-ten", "2 . 1 0 300", mx, MX("example.com", *hosts[:10]), *others, A("m10.example", CLIENT))
    check("Q24-failed", "5 . 1 0 300", mx, MX("example.com", (10, "m.example")), failed("A", "m.example"))
    two = MX("example.com", (20, "b.example"), (10, "a.example"))
    check("Q24-preference", "7 1 1 0 300 a.example", mx, two)
    check("Q24-match-before-failed", "2 . 1 0 300", mx, two, A("a.example", CLIENT), failed("A", "b.example"))
    check("Q24-failed-before-match", "5 . 1 0 300", mx, two, failed("A", "a.example"), A("b.example", CLIENT))
    check("Q24-tie", "7 1 1 0 300 b.example", mx, MX("example.com", (10, "b.example"), (10, "a.example")))
    check("Q24-nameless-first", "7 1 1 0 300 a.example", mx, MX("example.com", (5, ""), (10, "a.example")))


def names():
    heading("Q25: a name's bytes")
    for number, name in enumerate(("[192.0.2.1]", "a@b.c", "*.x", "a%2fb.c", "_spf.example.com"), 1):
        check(f"Q25-domain-{number}", "7 16 0 0 0 " + name, domain=name)
    check("Q25-exists", "7 1 1 0 300 *.~!$.x", R("v=spf1 exists:*.~!$.x -all"))

    heading("Q26: escapes in question names are lowered")
    check("Q26-lowered", "7 1 1 0 300 a%2fb.example", R("v=spf1 exists:%{L}.example -all"), sender="a/b@x.y")
    expand("Q26-public", "ok a%2Fb.example", "%{L}.example", sender="a/b@x.y")

    heading("Q27: the check's own domain isn't shortened")
    # Three labels of 63 bytes with their dots: 192.
    front = ("y" * 63 + ".") * 3
    check("Q27-253", "7 16 0 0 0 " + front + "y" * 61, domain=front + "y" * 61)
    check("Q27-253-and-dot", "7 16 0 0 0 " + front + "y" * 61, domain=front + "y" * 61 + ".")
    check("Q27-254", "0 . 0 0 0", domain=front + "y" * 62)
    check("Q27-254-and-dot", "0 . 0 0 0", domain=front + "y" * 62 + ".")
    check("Q27-255", "0 . 0 0 0", domain=front + "y" * 63)
    check("Q27-256", "22 . 0 0 0", domain=front + "y" * 63 + ".")
    check("Q27-label-63", "7 16 0 0 0 " + "y" * 63 + ".com", domain="y" * 63 + ".com")
    check("Q27-label-64", "0 . 0 0 0", domain="y" * 64 + ".com")
    for label, name in (("empty", ""), ("dot", "."), ("single-and-dot", "com."), ("single", "com"), ("two-dots", "a.b.."), ("space", "a b.c")):
        check("Q27-" + label, "0 . 0 0 0", TXT("com", "v=spf1 +all"), domain=name)
    check("Q27-25-first", "25 0 0 0 0", b"\x00", domain="com")
    check("Q27-26-first", "26 13 0 0 0", absent("A", "a.b"), absent("A", "a.b"), domain="")
    check("Q27-d", "3 . 0 0 300 example.com", FAILS, TXT("e.example", "%{d}"), domain="EXAMPLE.Com.")

    heading("Q28: two trailing dots")
    check("Q28-a", "3 . 1 0 300", R("v=spf1 a:%{h} -all"), A("a.b", CLIENT), helo="a.b..")
    check("Q28-a-one-dot", "7 1 1 0 300 a.b", R("v=spf1 a:%{h} -all"), helo="a.b.")
    check("Q28-include", "6 . 1 0 300", R("v=spf1 include:%{h} -all"), TXT("a.b", "v=spf1 +all"), helo="a.b..")
    check("Q28-include-one-dot", "2 . 1 0 300", R("v=spf1 include:%{h} -all"), TXT("a.b", "v=spf1 +all"), helo="a.b.")
    check("Q28-redirect", "6 . 1 0 300", R("v=spf1 redirect=%{h}"), TXT("a.b", "v=spf1 +all"), helo="a.b..")
    check("Q28-exp", "3 . 0 0 300", R("v=spf1 -all exp=%{h}"), TXT("a.b", "why"), helo="a.b..")

    heading("Q29: shortening can leave a single label")
    check("Q29-a", "7 1 1 0 300 com", R("v=spf1 a:" + "y" * 260 + ".com -all"))
    check("Q29-include", "6 . 1 0 300", R("v=spf1 include:" + "y" * 260 + ".com -all"), TXT("com", "v=spf1 +all"))
    check("Q29-one-label", "3 . 1 0 300", R("v=spf1 a:%{h} -all"), helo="y" * 255)
    check("Q29-label-64", "3 . 1 0 300", R("v=spf1 a:" + "y" * 64 + ".com -all"))
    check("Q29-label-63", "7 1 1 0 300 " + "y" * 63 + ".com", R("v=spf1 a:" + "y" * 63 + ".com -all"))

    heading("Q30: trailing dots and parts")
    check("Q30-h1", "3 . 1 0 300", R("v=spf1 exists:%{h1}.example -all"), helo="mx.example.")
    check("Q30-h2", "3 . 1 0 300", R("v=spf1 exists:%{h2}.example -all"), helo="mx.example.")
    check("Q30-d1", "7 1 1 0 300 com.example", R("v=spf1 exists:%{d1}.example -all"), domain="example.com.")
    expand("Q30-public-d1", "ok", "%{d1}", domain="A.B.")
    expand("Q30-public-d2", "ok B.", "%{d2}", domain="A.B.")
    expand("Q30-public-d", "ok A.B.", "%{d}", domain="A.B.")


def grammar():
    heading("Q31: how a domain-spec ends")
    in_grammar("Q31", "exists:a.%%", "a:%_", "a:.com", "a:a..b", "a:a.b.", "exists:%-", "a:%{d}")
    outside("Q31", "a:%%_|", "a:%{d}.|", "a:%{d}com|", "a:a.b..|", "a:example.com:8080|", "a:com|")
    check("Q31-percent", "7 1 1 0 300 a.%", R("v=spf1 exists:a.%% -all"))
    check("Q31-space", "3 . 1 0 300", R("v=spf1 a:%_ -all"))
    check("Q31-20", "7 1 1 0 300 %20", R("v=spf1 a:%- -all"))
    check("Q31-empty-first", "3 . 1 0 300", R("v=spf1 a:.com -all"))
    check("Q31-empty-middle", "3 . 1 0 300", R("v=spf1 a:a..b -all"))

    heading("Q32: slashes")
    term("Q32-within", "7 15 a + :a/24.c 32 128", "v=spf1 a:a/24.c", 6)
    term("Q32-within-and-length", "7 18 a + :x.y/1.z 8 128", "v=spf1 a:x.y/1.z/8", 6)
    outside("Q32", "a:a.b/|", "a/24/|64")
    check("Q32-asks", "7 1 1 0 300 a/24.c", R("v=spf1 a:a/24.c -all"))
    check("Q32-length-8", "2 . 1 0 300", R("v=spf1 a:x.y/1.z/8 -all"), A("x.y/1.z", "192.255.255.255"))

    heading("Q33: the version")
    record("Q33-letters", "accepted 6", "v=SpF1")
    record("Q33-leading-space", "refused 31 at 0", " v=spf1")
    record("Q33-tab", "refused 31 at 0", "v=spf1\t-all")
    record("Q33-followed", "refused 31 at 0", "v=spf1-all")
    record("Q33-twice", "accepted 6", "v=spf1 v=spf1")
    term("Q33-twice-term", "7 13 v . =spf1 . .", "v=spf1 v=spf1", 6)
    check("Q33-letters-check", "3 . 0 0 300", R("V=sPf1 -all"))
    for label, text in (("leading-space", " v=spf1 -all"), ("tab", "v=spf1\t-all"), ("followed", "v=spf1-all"), ("empty", "")):
        check(f"Q33-{label}-check", "0 . 0 0 300", R(text))
        check(f"Q33-{label}-beside", "3 . 0 0 300", R(text, "v=spf1 -all"))
    check("Q33-several", "6 . 0 0 300", R("v=spf1 -all", "V=SPF1"))
    check("Q33-several-bad", "6 . 0 0 300", R("v=spf1 moo", "v=spf1 -all"))

    heading("Q34: unknown modifiers")
    in_grammar("Q34", "x=", "a-b_c.9=y", "redirect.=x", "exp-=x", "x=%{c}%{r}%{t}", "X=%{C}")
    outside("Q34", "|=x", "|1x=y", "REDIRECT=x|", "x=%{d0|}", "exp=%{|c}", "redirect=%{|r}", "exists:%{|t}.x", "Exp=|", "x=a%|", "x|!=y", "exp=%{|t}", "redirect=%{|c}")
    expand("Q34-public", "refused 40", "%{c}")
    expand("Q34-public-explanation", "ok 192.0.2.129", "%{c}", form="explanation")
    check("Q34-ignored", "3 . 0 0 300", R("v=spf1 redirect.=r.example exp-=e.example x= -all"))

    heading("Q35: 33 against 32 at one place")
    record("Q35-32", "refused 32 at 22", "v=spf1 exp=a.b exp=foo")
    record("Q35-33", "refused 33 at 15", "v=spf1 exp=a.b exp=c.d")
    record("Q35-33-first", "refused 33 at 15", "v=spf1 exp=a.b exp=c.d moo")
    record("Q35-32-first", "refused 32 at 10", "v=spf1 moo exp=a.b exp=c.d")

    heading("Q36: reading one term")
    text = "v=spf1 -all  mx//64"
    term("Q36-first", "7 11 all - . . .", text, 6)
    term("Q36-at-its-place", "7 11 all - . . .", text, 7)
    term("Q36-in-term", "8 11 all + . . .", text, 8)
    term("Q36-in-name", "refused 32 at 11", text, 9)
    term("Q36-spaces", "13 19 mx + . 32 64", text, 11)
    term("Q36-version", "0 6 v . =spf1 . .", text, 0)
    term("Q36-end", "end", text, 19)
    term("Q36-trailing", "end", "v=spf1  ", 6)
    term("Q36-beyond", "refused 34 at 20", text, 20)
    term("Q36-far-beyond", "refused 34 at 18446744073709551615", text, 18446744073709551615)
    term("Q36-no-31", "0 3 all + . . .", "all", 0)
    term("Q36-no-33", "8 15 exp . =c.d . .", "exp=a.b exp=c.d", 7)
    term("Q36-30-first", "refused 30 at 0", "x" * 4097, 4098)


def tables():
    heading("Q37: 25 and 26")
    # This entry has 2 + 2 + 1 + 4 + 1 + 11 + 2 + 11 = 34 bytes; an absent a.b has 2 + 2 + 1 + 4 + 1 + 3 = 13.
    first, void = R("v=spf1 -all"), absent("A", "a.b")
    check("Q37-well-formed", "3 . 0 0 300", first, void)
    check("Q37-left-over", "25 34 0 0 0", first, b"\x00")
    check("Q37-left-over-later", "25 47 0 0 0", first, void, b"\x07")
    check("Q37-beyond-end", "25 34 0 0 0", first, entry(*void)[:-1])
    check("Q37-longer-length", "25 34 0 0 0", first, b"\x0c\x00" + entry(*void)[2:])
    check("Q37-26", "26 47 0 0 0", first, void, first)
    check("Q37-26-other-answer", "26 34 0 0 0", first, absent("TXT", "example.com"))
    check("Q37-other-kind", "3 . 0 0 300", first, void, absent("AAAA", "a.b"))
    check("Q37-second-malformed", "25 34 0 0 0", first, ("TXT", 1, "example.com", []))
    check("Q37-26-then-25", "26 34 0 0 0", first, first, b"\x00")
    check("Q37-25-then-26", "25 34 0 0 0", first, ("A", 1, "a.b", []), first)
    # 512 entries of 13 bytes: 6,656.
    many = [absent("A", f"{n:03}") for n in range(512)]
    check("Q37-512", "7 16 0 0 0 example.com", *many)
    check("Q37-513th", "25 6656 0 0 0", *many, absent("A", "512"))
    check("Q37-513th-pair", "25 6656 0 0 0", *many, many[0])
    check("Q37-513th-byte", "25 6656 0 0 0", *many, b"\x00")
    check("Q37-512-second-of-pair", "26 6643 0 0 0", *many[:511], many[0])
    malformed = (
        ("name-upper", ("A", 3, "A.b", [])),
        ("name-dot", ("A", 3, "a.b.", [])),
        ("name-empty", ("A", 3, "", [])),
        ("name-space", ("A", 3, "a b", [])),
        ("name-label-64", ("A", 3, "y" * 64 + ".b", [])),
        ("name-254", ("A", 3, ("y" * 63 + ".") * 3 + "y" * 62, [])),
        ("ptr-upper", ("PTR", 0, "a.b", ["A.b"])),
        ("ptr-dot", ("PTR", 0, "a.b", ["a.b."])),
        ("ptr-empty", ("PTR", 0, "a.b", [""])),
        ("mx-upper", ("MX", 0, "a.b", [b"\x0a\x00A.b"])),
        ("mx-dot", ("MX", 0, "a.b", [b"\x0a\x00a.b."])),
        ("failed-items", ("A", 2, "a.b", [b"\x0a\x00\x00\x01"])),
        ("absent-items", ("A", 3, "a.b", [b"\x0a\x00\x00\x01"])),
        ("kind", (2, 0, "a.b", [])),
        ("status", ("A", 1, "a.b", [])),
        ("status-4", ("A", 4, "a.b", [])),
        ("a-3", ("A", 0, "a.b", [b"\x0a\x00\x00"])),
        ("aaaa-4", ("AAAA", 0, "a.b", [b"\x0a\x00\x00\x01"])),
        ("text-4097", ("TXT", 0, "a.b", ["y" * 4097])),
    )
    for label, one in malformed:
        check("Q37-" + label, "25 34 0 0 0", first, one)
    # An item whose length of 5 goes beyond its entry.
    check("Q37-item-beyond", "25 34 0 0 0", first, b"\x0d\x00\x10\x00\x00\x00\x00\x00\x00\x03a.b\x05\x00")
    check("Q37-text-4096", "3 . 0 0 300", first, TXT("a.b", "y" * 4096))
    # The empty table has 0 bytes; 65,535 zero bytes are a malformed entry, 65,536 too long a table, which has no place.
    lent("Q37-65535", "25 0 0 0 0", zeros=65535)
    lent("Q37-65535-later", "25 34 0 0 0", first, zeros=65501)
    lent("Q37-65536", "24 . 0 0 0", zeros=65536)
    lent("Q37-65536-later", "24 . 0 0 0", first, zeros=65502)


def explanations():
    heading("Q38: exp")
    why = TXT("e.example", "why")
    check("Q38-spf-entry", "7 16 0 0 300 e.example", FAILS, SPF("e.example", "why"))
    check("Q38-spf-and-txt", "3 . 0 0 300 why", FAILS, SPF("e.example", "no"), why)
    explains("Q38-any-text", "any words, 192.0.2.129", "any words, %{i}")
    explains("Q38-version", "v=spf1 -all", "v=spf1 -all")
    check("Q38-two", "3 . 0 0 300", FAILS, TXT("e.example", "why", "no"))
    check("Q38-two-equal", "3 . 0 0 300", FAILS, TXT("e.example", "why", "why"))
    check("Q38-empty-item", "3 . 0 0 300", FAILS, TXT("e.example", ""))
    check("Q38-no-items", "3 . 0 0 300", FAILS, TXT("e.example"))
    check("Q38-absent", "3 . 0 0 300", FAILS, absent("TXT", "e.example"))
    check("Q38-failed", "3 . 0 0 300", FAILS, failed("TXT", "e.example"))
    explains("Q38-outside", "", "100%")
    explains("Q38-byte", "", b"caf\xe9")
    explains("Q38-tab", "", "a\tb")
    explains("Q38-c-r-t", "192.0.2.129 unknown 7", "%{c} %{r} %{t}")
    explains("Q38-percents", "%   %20", "%% %_ %-")
    redirects, fails = R("v=spf1 redirect=r.example"), TXT("r.example", "v=spf1 -all exp=e.example")
    check("Q38-redirected-d", "3 . 1 0 300 r.example", redirects, fails, TXT("e.example", "%{d}"))
    check("Q38-redirected-missing", "7 16 1 0 300 e.example", redirects, fails)
    check("Q38-redirecting-exp", "3 . 1 0 300", R("v=spf1 redirect=r.example exp=e.example"), TXT("r.example", "v=spf1 -all"), why)
    check("Q38-exp-of-each", "3 . 1 0 300 why", R("v=spf1 exp=f.example redirect=r.example"), fails, why, TXT("f.example", "no"))
    check("Q38-target-d", "7 16 1 0 300 x.r.example", redirects, TXT("r.example", "v=spf1 -all exp=x.%{d}"))
    check("Q38-before", "3 . 0 0 300 why", R("v=spf1 exp=e.example -all"), why)
    check("Q38-after", "3 . 0 0 300 why", FAILS, why)
    matches = TXT("i.example", "v=spf1 +all exp=f.example")
    check("Q38-include-matches", "3 . 1 0 300 why", R("v=spf1 -include:i.example exp=e.example"), matches, why)
    check("Q38-included-fail", "3 . 1 0 300", R("v=spf1 include:i.example -all"), TXT("i.example", "v=spf1 -all exp=e.example"))
    check("Q38-counts", "3 . 1 1 300 why", R("v=spf1 a -all exp=e.example"), absent("A", "example.com"), why)
    check("Q38-void-uncounted", "3 . 2 2 300", R("v=spf1 a a -all exp=e.example"), absent("A", "example.com"), absent("TXT", "e.example"))
    for sign, number in (("+", 2), ("?", 1), ("~", 4)):
        check(f"Q38-not-for-{number}", f"{number} . 0 0 300", R(f"v=spf1 {sign}all exp=e.example"))
    check("Q38-order-p-target", "7 12 0 0 300 " + REV, R("v=spf1 -all exp=%{p}.x"))
    check("Q38-order-p-name", "7 1 0 0 300 h.y", R("v=spf1 -all exp=%{p}.x"), PTR(REV, "h.y"))
    check("Q38-order-txt", "7 16 0 0 300 h.y.x", R("v=spf1 -all exp=%{p}.x"), PTR(REV, "h.y"), A("h.y", CLIENT))
    check("Q38-order-p-text", "7 12 0 0 300 " + REV, FAILS, TXT("e.example", "%{p}"))
    check("Q38-order-p-text-name", "7 1 0 0 300 h.y", FAILS, TXT("e.example", "%{p}"), PTR(REV, "h.y"))
    check("Q38-p-text", "3 . 0 0 300 h.y", FAILS, TXT("e.example", "%{p}"), PTR(REV, "h.y"), A("h.y", CLIENT))


def clients():
    heading("Q39: IPv4-mapped clients")
    mapped, low = "::ffff:192.0.2.129", "::192.0.2.129"
    check("Q39-mapped-ip6", "3 . 0 0 300", R("v=spf1 ip6:::ffff:192.0.2.129 -all"), client=mapped)
    check("Q39-mapped-ip6-0", "3 . 0 0 300", R("v=spf1 ip6:::/0 -all"), client=mapped)
    check("Q39-mapped-ip4", "2 . 0 0 300", R("v=spf1 ip4:192.0.2.129 -all"), client=mapped)
    check("Q39-mapped-a", "7 1 1 0 300 example.com", R("v=spf1 a -all"), client=mapped)
    check("Q39-mapped-ptr", "7 12 1 0 300 " + REV, R("v=spf1 ptr -all"), client=mapped)
    explains("Q39-mapped-macros", "192.0.2.129 192.0.2.129 in-addr", "%{c} %{i} %{v}", client=mapped)
    check("Q39-low-ip4", "3 . 0 0 300", R("v=spf1 ip4:192.0.2.129 -all"), client=low)
    check("Q39-low-ip6", "2 . 0 0 300", R("v=spf1 ip6:::192.0.2.129 -all"), client=low)
    check("Q39-low-a", "7 28 1 0 300 example.com", R("v=spf1 a -all"), client=low)
    expand("Q39-public", "ok 192.0.2.129.in-addr", "%{i}.%{v}", client=mapped)
    expand("Q39-public-c", "ok 192.0.2.129", "%{c}", form="explanation", client=mapped)
    expand("Q39-public-low", "ok 0:0:0:0:0:0:c000:281 ip6", "%{c} %{v}", form="explanation", client=low)

    heading("Q40: ip6 texts")
    in_grammar("Q40", "ip6:0db8::", "ip6:ABCD::EF", "ip6:1:2:3:4:5:6:7::", "ip6:::1:2:3:4:5:6:7", "ip6:1:2:3:4:5::1.2.3.4", "ip6:::", "ip6:::1.2.3.4")
    outside("Q40", "ip6:00db|8::", "ip6:1:2:3:4:5:6::1|.2.3.4", "ip6:::1.2.3.0|4", "ip6:1|.2.3.4", "ip6:fe80::1|%eth0", "ip6:|[::1]", "ip6:1::2:|:3")
    term("Q40-letters", "7 19 ip6 + :ABCD::EF . 128", "v=spf1 ip6:ABCD::EF", 6)
    term("Q40-host-bits", "7 25 ip4 + :192.0.2.129 24 .", "v=spf1 ip4:192.0.2.129/24", 6)
    unreadable = ("[::1]", "fe80::1%eth0", "192.0.2", "192.0.2.0129", "", "192.0.2.129/32", "1:2:3:4:5:6:7:8::")
    for number, client in enumerate(unreadable, 1):
        check(f"Q40-client-{number}", "input", R("v=spf1 -all"), client=client)
    check("Q40-client-letters", "2 . 0 0 300", R("v=spf1 ip6:abcd::EF -all"), client="ABCD::ef")
    check("Q40-client-eight", "2 . 0 0 300", R("v=spf1 ip6:1:2:3:4:5:6:7:: -all"), client="1:2:3:4:5:6:7:0")


def values():
    heading("Q41: senders")
    shown = "<%{s}> <%{l}> <%{o}>"
    explains("Q41-no-local", "<postmaster@x.y> <postmaster> <x.y>", shown, sender="x.y")
    explains("Q41-empty-local", "<postmaster@x.y> <postmaster> <x.y>", shown, sender="@x.y")
    explains("Q41-empty-domain", "<u@> <u> <>", shown, sender="u@")
    explains("Q41-last-at", "<a@b@c.d> <a@b> <c.d>", shown, sender="a@b@c.d")
    explains("Q41-space", "<a b@x.y> <a b> <x.y>", shown, sender="a b@x.y")
    check("Q41-empty-domain-exists", "3 . 1 0 300", R("v=spf1 exists:%{o}.x -all"), sender="u@")
    check("Q41-space-exists", "3 . 1 0 300", R("v=spf1 exists:%{l}.x -all"), sender="a b@x.y")
    check("Q41-none", "20 . 0 0 0", FAILS, sender="")
    check("Q41-320", "3 . 0 0 300", R("v=spf1 -all"), sender="u" * 308 + "@example.com")
    check("Q41-321", "20 . 0 0 0", R("v=spf1 -all"), sender="u" * 309 + "@example.com")
    check("Q41-byte-127", "20 . 0 0 0", R("v=spf1 -all"), sender="\x7f@example.com")
    check("Q41-byte-31", "20 . 0 0 0", R("v=spf1 -all"), sender="\x1f@example.com")

    heading("Q42: HELO and receiver")
    check("Q42-empty-helo", "3 . 2 0 300", R("v=spf1 a:%{h} exists:%{h}.x -all"), helo="")
    explains("Q42-h", "<>", "<%{h}>", helo="")
    explains("Q42-r-empty", "unknown unknown unknown unknown", "%{r} %{rr} %{r1} %{R}")
    explains("Q42-r", "b.a/c a/c.b a/c b.a%2Fc", "%{r} %{rr} %{r1} %{R}", receiver="b.a/c")
    check("Q42-helo-255", "3 . 0 0 300", R("v=spf1 -all"), helo="y" * 255)
    check("Q42-helo-256", "21 . 0 0 0", R("v=spf1 -all"), helo="y" * 256)
    check("Q42-helo-space", "21 . 0 0 0", R("v=spf1 -all"), helo="a b")
    check("Q42-receiver-256", "21 . 0 0 0", R("v=spf1 -all"), receiver="y" * 256)
    check("Q42-receiver-space", "21 . 0 0 0", R("v=spf1 -all"), receiver="a b")

    heading("Q43: splitting")
    explains("Q43-empty-parts", "a..b", "%{l+}", sender="a++b@x.y")
    check("Q43-empty-parts-exists", "3 . 1 0 300", R("v=spf1 exists:%{l+}.x -all"), sender="a++b@x.y")
    explains("Q43-dot-unlisted", "example.com", "%{d1-}")
    expand("Q43-dot-unlisted-list", "ok b.c", "%{d1-}", domain="a-b.c")
    expand("Q43-dot-listed", "ok c", "%{d1-.}", domain="a-b.c")
    expand("Q43-all-listed", "ok a.b.c", "%{d-.}", domain="a-b.c")
    explains("Q43-many", "example.com", "%{d99999999999999999999}")
    explains("Q43-zeros", "com", "%{d" + "0" * 40 + "1}")
    # 2^64 + 1 and 2^32 + 1 take all parts.
    explains("Q43-2-64-and-1", "example.com", "%{d18446744073709551617}")
    explains("Q43-2-32-and-1", "example.com", "%{d4294967297}")


def terms():
    heading("Q44: redirect and all")
    check("Q44-before", "3 . 0 0 300", R("v=spf1 redirect=r.example -all"))
    check("Q44-after", "3 . 0 0 300", R("v=spf1 -all redirect=r.example"))
    check("Q44-neutral", "1 . 0 0 300", R("v=spf1 redirect=r.example ?all"))
    check("Q44-other-match", "2 . 0 0 300", R("v=spf1 redirect=r.example ip4:192.0.2.129"))
    check("Q44-used", "7 16 1 0 300 r.example", R("v=spf1 redirect=r.example ip4:10.0.0.1"))

    heading("Q45: p")
    exists = R("v=spf1 exists:%{p}.x -all")
    own = A("example.com", CLIENT)
    check("Q45-all-asked", "7 1 1 0 300 other.example", exists, PTR(REV, "example.com", "other.example"), own)
    check("Q45-in-order", "7 1 1 0 300 z.y", exists, PTR(REV, "z.y", "example.com"))
    # z.y, m.example.com and n.example.com are validated.
    z, below = A("z.y", CLIENT), [A("m.example.com", OTHER, CLIENT), A("n.example.com", CLIENT)]
    check("Q45-current", "7 1 1 0 300 example.com.x", exists, PTR(REV, "z.y", "m.example.com", "example.com"), z, *below, own)
    check("Q45-below", "7 1 1 0 300 m.example.com.x", exists, PTR(REV, "z.y", "m.example.com", "n.example.com"), z, *below)
    check("Q45-not-below", "7 1 1 0 300 z.y.x", exists, PTR(REV, "z.y", "mexample.com"), z, A("mexample.com", CLIENT))
    check("Q45-first", "7 1 1 0 300 z.y.x", exists, PTR(REV, "w.y", "z.y", "b.c"), A("w.y", OTHER), z, A("b.c", CLIENT))
    check("Q45-unvalidated", "7 1 1 0 300 unknown.x", exists, PTR(REV, "example.com"), A("example.com", OTHER))
    check("Q45-failed", "7 1 1 0 300 b.c.x", exists, PTR(REV, "example.com", "b.c"), failed("A", "example.com"), A("b.c", CLIENT))
    check("Q45-failed-ptr", "7 1 1 0 300 unknown.x", exists, failed("PTR", REV))
    included = TXT("i.example", "v=spf1 exists:%{p}.x -all")
    names_of_both = PTR(REV, "example.com", "i.example")
    check("Q45-included", "7 1 2 0 300 i.example.x", R("v=spf1 include:i.example -all"), included, names_of_both, own, A("i.example", CLIENT))
    ten, tens = [f"n{n}.y" for n in range(10)], [A(f"n{n}.y", OTHER) for n in range(9)]
    check("Q45-eleventh", "7 1 1 0 300 unknown.x", exists, PTR(REV, *ten, "example.com"), *tens, A("n9.y", OTHER))
    check("Q45-eleventh-answered", "7 1 1 0 300 unknown.x", exists, PTR(REV, *ten, "example.com"), *tens, A("n9.y", OTHER), own)
    check("Q45-tenth", "7 1 1 0 300 n9.y.x", exists, PTR(REV, *ten, "example.com"), *tens, A("n9.y", CLIENT))
    check("Q45-tenth-asked", "7 1 1 0 300 n9.y", exists, PTR(REV, *ten, "example.com"), *tens)
    check("Q45-ip6", "7 28 1 0 300 z.y", exists, PTR("1." + "0." * 23 + "8.b.d.0.1.0.0.2.ip6.arpa", "z.y"), client="2001:db8::1")
    # ptr, other than p, asks until one matches, of the first 10 names.
    ptr = R("v=spf1 ptr -all")
    check("Q45-ptr-until", "2 . 1 0 300", ptr, PTR(REV, "m.example.com", "other.example"), A("m.example.com", CLIENT))
    check("Q45-ptr-eleventh", "3 . 1 0 300", ptr, PTR(REV, *ten, "example.com"), *tens, A("n9.y", OTHER), own)


# The readings, part 3.


def edges():
    heading("Q47: limits of lines and records")
    record("Q47-4096", "accepted 6", "v=spf1" + " " * 4090)
    record("Q47-4097", "refused 30 at 0", "v=spf1" + " " * 4091)
    record("Q47-4097-no-version", "refused 30 at 0", "x" * 4097)
    check("Q47-client", "input", R("v=spf1 -all"), client="0" * 100)

    heading("Q48: an unreadable client or t wins over 20 to 26")
    check("Q48-client-20", "input", client="x", sender="")
    check("Q48-t-22", "input", t="x", domain="y" * 256)
    check("Q48-client-25", "input", b"\x00", client="x")
    check("Q48-t-26", "input", absent("A", "a.b"), absent("A", "a.b"), t="x")
    lent("Q48-t-24", "input", t="x", zeros=65536)

    heading("Q49: only byte 10 ends a line")
    record("Q49-record", "refused 32 at 8", "v=spf1 a\r")
    record("Q49-newline", "refused 31 at 0", "v=spf1\n")
    check("Q49-client", "input", R("v=spf1 -all"), client="192.0.2.129\r")
    check("Q49-domain", "0 . 0 0 0", R("v=spf1 -all"), domain="example.com\r")
    check("Q49-sender", "20 . 0 0 0", R("v=spf1 -all"), sender="user@example.com\r")
    check("Q49-helo", "21 . 0 0 0", R("v=spf1 -all"), helo="helo.example\r")
    check("Q49-receiver", "21 . 0 0 0", R("v=spf1 -all"), receiver="\r")

    heading("Q50: an absent argument and an empty value")
    term("Q50-absent", "7 8 a + . 32 128", "v=spf1 a x=", 6)
    term("Q50-empty", "9 11 x . = . .", "v=spf1 a x=", 8)

    heading("Q51: the end and 24 have no place")
    term("Q51-end", "end", "v=spf1 a", 8)
    lent("Q51-24", "24 . 0 0 0", zeros=65536)

    heading("Q52: lent buffers")
    long_text = [FAILS, TXT("e.example", "%{d}" * 45 + "123456")]
    lent("Q52-name-252", "23 . 0 0 0", R("v=spf1 -all"), name=252)
    lent("Q52-text-499", "23 . 0 0 0", R("v=spf1 -all"), text=499)
    lent("Q52-none", "23 . 0 0 0", R("v=spf1 -all"), name=0, text=0)
    lent("Q52-least", "3 . 0 0 300", R("v=spf1 -all"))
    lent("Q52-larger", "3 . 0 0 300", *long_text, name=1000, text=1000)
    lent("Q52-larger-name", "7 16 0 0 0 example.com", name=1000, text=1000)

    heading("the order of 20 to 26")
    bad = {"sender": "", "helo": "a b", "domain": "y" * 256, "name": 252, "zeros": 65536}
    for number, good in ((20, None), (21, "sender"), (22, "helo"), (23, "domain"), (24, "name"), (25, "zeros")):
        bad.pop(good, None)
        lent(f"order-{number}", f"{number} {'0' if number == 25 else '.'} 0 0 0", b"\x00", **bad)


# The programs' inputs.


def programs():
    lines = ["192.0.2.129\n", "example.com\n", "user@example.com\n", "helo.example\n", "\n", "7\n"]
    table = table_of([R("v=spf1 -all")]).decode("latin-1")
    told = table_of([R("v=spf1 -all exp=why.%{d}"), TXT("why.example.com", "%{t}")]).decode("latin-1")

    def over(label, expected, count, byte, line, before="", after=None, tables=table):
        """A line with so many of a byte in it: what stands before and after them in the line, and the other lines as they are."""
        end = lines[line] if after is None else after
        front, rest = "".join(lines[:line]) + before, end + "".join(lines[line + 1 :]) + tables
        wide(label, expected, count, byte, front.encode("latin-1"), rest.encode("latin-1"))

    heading("the lines and the table that the check program reads, up to and over their limits, held chunk by chunk")
    over("input-client-long", "input", 100000, "1", 0, after="\n")
    over("input-client-zeros", "input", 100000, "0", 0)
    over("input-domain-255", "0 . 0 0 0", 243, "a", 1, after=".example.com\n")
    over("input-domain-256", "22 . 0 0 0", 244, "a", 1, after=".example.com\n")
    over("input-domain-long", "22 . 0 0 0", 100000, "a", 1, after=".example.com\n")
    over("input-sender-320", "3 . 0 0 300", 304, "a", 2)
    over("input-sender-321", "20 . 0 0 0", 305, "a", 2)
    over("input-sender-long", "20 . 0 0 0", 100000, "a", 2)
    over("input-helo-255", "3 . 0 0 300", 243, "a", 3)
    over("input-helo-256", "21 . 0 0 0", 244, "a", 3)
    over("input-helo-long", "21 . 0 0 0", 100000, "a", 3)
    over("input-receiver-255", "3 . 0 0 300", 255, "a", 4)
    over("input-receiver-256", "21 . 0 0 0", 256, "a", 4)
    over("input-receiver-long", "21 . 0 0 0", 100000, "a", 4)
    # 21 comes before 22: what follows an over-long line counts.
    rest = ".example.com\nuser@example.com\nhelo example\n\n7\n" + table
    wide("input-domain-and-helo-long", "21 . 0 0 0", 100000, "a", lines[0], rest.encode("latin-1"))
    over("input-t-zeros-30", "3 . 0 0 300 7", 30, "0", 5, tables=told)
    over("input-t-zeros-long", "3 . 0 0 300 7", 100000, "0", 5, tables=told)
    over("input-t-zeros-alone", "3 . 0 0 300 0", 100000, "0", 5, after="\n", tables=told)
    over("input-t-zeros-largest", "3 . 0 0 300 18446744073709551615", 100000, "0", 5, after="18446744073709551615\n", tables=told)
    over("input-t-zeros-too-large", "input", 100000, "0", 5, after="18446744073709551616\n", tables=told)
    over("input-t-zeros-no-digit", "input", 100000, "0", 5, after="x\n", tables=told)
    over("input-t-20-digits", "3 . 0 0 300 10000000000000000000", 19, "0", 5, before="1", after="\n", tables=told)
    over("input-t-21-digits", "input", 20, "0", 5, before="1", after="\n", tables=told)
    over("input-t-long", "input", 100000, "9", 5, after="\n", tables=told)
    all_lines = "".join(lines)
    later = (all_lines + table).encode("latin-1")
    wide("input-table-65535", "25 0 0 0 0", 65535, "\0", all_lines, "")
    wide("input-table-65535-later", "25 34 0 0 0", 65501, "\0", later, "")
    wide("input-table-65536", "24 . 0 0 0", 65536, "\0", all_lines, "")
    wide("input-table-65536-later", "24 . 0 0 0", 65502, "\0", later, "")
    wide("input-table-long", "24 . 0 0 0", 300000, "\0", all_lines, "")
    wide("input-no-newline-long", "input", 300000, "a", "", "")
    wide("input-newlines-long", "24 . 0 0 0", 300000, "\n", all_lines, "")
    check_input("input-empty", "input", "")
    check_input("input-t-missing", "input", "".join(lines[:5]))
    check_input("input-receiver-missing", "input", "".join(lines[:4]))
    # Q49: "Only byte 10 ends a line", so a carriage return belongs to it.
    check("input-cr-t", "input", R("v=spf1 -all"), t="7\r")
    check("input-cr-client", "input", R("v=spf1 -all"), client="192.0.2.129\r")

    heading("the record printer")
    unlisted("printer-empty", "refused 31 at 0", "")
    unlisted("printer-newline", "refused 31 at 0", "\n")
    listing("printer-version", "v=spf1\n")
    unlisted("printer-two-newlines", "refused 31 at 0", "v=spf1\n\n")
    listing("printer-no-newline", "v=spf1 A//64", "7 a + . 32 64")
    unlisted("printer-newline-first", "refused 31 at 0", "\nv=spf1")
    unlisted("printer-cr", "refused 31 at 0", "v=spf1\r\n")
    unlisted("printer-cr-term", "refused 32 at 11", "v=spf1 -all\r\n")
    spaces = "v=spf1" + " " * 4090
    listing("printer-4096", spaces)
    listing("printer-4096-newline", spaces + "\n")
    unlisted("printer-4097", "refused 30 at 0", spaces + " ")
    unlisted("printer-4097-newline", "refused 30 at 0", spaces + " \n")
    unlisted("printer-4096-two-newlines", "refused 30 at 0", spaces + "\n\n")
    unlisted("printer-long", "refused 30 at 0", "v=spf1" + " " * 6000)
    cased = ["7 include + :Example.com . .", "27 x-y . =%{S} . .", "36 redirect . =a.Example . ."]
    listing("printer-case", "V=SPF1 INCLUDE:Example.com X-Y=%{S} Redirect=a.Example", *cased)
    every = "v=spf1 +all ?a/24 ~mx:m.example//64 -ptr ptr:p.example "
    every += "exists:%{i}.x.example ip6:2001:DB8::/32 -ip4:192.0.2.1 a:a.example/0//0 x= exp=%{d}\n"
    of_every = [
        "7 all + . . .",
        "12 a ? . 24 128",
        "18 mx ~ :m.example 32 64",
        "36 ptr - . . .",
        "41 ptr + :p.example . .",
        "55 exists + :%{i}.x.example . .",
        "77 ip6 + :2001:DB8:: . 32",
        "95 ip4 - :192.0.2.1 32 .",
        "110 a + :a.example 0 0",
        "127 x . = . .",
        "130 exp . =%{d} . .",
    ]
    listing("printer-every-term", every, *of_every)
    unlisted("printer-second-exp", "refused 33 at 21", "v=spf1 exp=a.example exp=b.example\n")


# The readings of the change requests.


def places():
    heading("W-201 A1, A2: a whole run that begins a term; `/` and digits are literals of a domain-spec")
    outside("W201-A1", "a:b.c/33|", "a/3|3", "mx:b.c/24/64|", "mx:b.c/24/64| -all", "mx/24/|64")
    outside("W201-A2", "ip4:192.0.2|", "include:|", "include:| -all", "foo|", "foo| -all", "a:example.1|")

    heading("W-201 A3: the grammar of one term, whatever stood before it and however long the record is")
    record("W201-A3-redirect", "refused 32 at 29", "v=spf1 redirect=a.b redirect=")
    record("W201-A3-4096", "refused 32 at 4096", "v=spf1 x=" + "y" * 4078 + " include:")

    heading("W-201 A4 to A6: names, of unknown modifiers too; after a sign only mechanisms'")
    outside("W201-A4", "alll|", "ip5|:1.2.3.4", "redirect|:a.b")
    outside("W201-A5", "-|foo=bar", "-ip|5:1.2.3.4", "-ex|p=a.b", "-ip4|=1.2.3.4", "-|-all", "-all|l", "-|redirect=a.b")
    outside("W201-A6", "redirect=%{|c}", "redirect|")
    in_grammar("W201-A6", "x=%{c}")

    heading("W-201 A7: digits of value 0 begin `01`")
    outside("W201-A7", "exists:%{d0|}.x")

    heading("W-201 A8: 32 and 33 by the term's first byte")
    record("W201-A8-32", "refused 32 at 22", "v=spf1 exp=a.b exp=foo")
    record("W201-A8-33", "refused 33 at 15", "v=spf1 exp=a.b exp=c.d x=%")

    heading("W-201 A9: reading a term from within")
    term("W201-A9-name", "refused 32 at 23", "v=spf1 -ip4:192.0.2.0/33", 8)
    term("W201-A9-in-name", "refused 32 at 11", "v=spf1 -ip4:192.0.2.0/33", 9)
    term("W201-A9-version", "refused 32 at 7", "v=spf1%", 0)

    heading("W-201 A10: bytes that can't stand there")
    outside("W201-A10", "|=x", "|%{d}", "a|\tmx", "|\t")
    record("W201-A10-127", "refused 32 at 9", b"v=spf1 x=\x7f")
    record("W201-A10-128", "refused 32 at 10", b"v=spf1 a:b\x80.c")

    heading("W-201 A11: the printer has the place, an evaluation none, and 31 stays")
    unlisted("W201-A11-printer", "refused 32 at 22", "v=spf1 ip4:192.0.2.0/33\n")
    check("W201-A11-check", "6 . 0 0 300", R("v=spf1 ip4:192.0.2.0/33"))
    record("W201-A11-31", "refused 31 at 0", "v=spf1% ip4:192.0.2.0/33")


def retired():
    heading("W-207 K1: record lookup uses TXT alone; SPF entries are ignored")
    txt, spf = R("v=spf1 -all"), SPF("example.com", "v=spf1 +all")
    check("W207-K1-alone", "7 16 0 0 0 example.com", SPF("example.com", "v=spf1 -all"))
    check("W207-K1-alone-no-items", "7 16 0 0 0 example.com", SPF("example.com"))
    check("W207-K1-alone-failed", "7 16 0 0 0 example.com", failed("SPF", "example.com"))
    check("W207-K1-alone-absent", "7 16 0 0 0 example.com", absent("SPF", "example.com"))
    check("W207-K1-beside", "3 . 0 0 300", spf, txt)
    check("W207-K1-beside-after", "3 . 0 0 300", txt, spf)
    check("W207-K1-beside-no-record", "3 . 0 0 300", SPF("example.com", "other"), txt)
    check("W207-K1-beside-records", "3 . 0 0 300", SPF("example.com", "v=spf1 +all", "v=spf1 +all"), txt)
    check("W207-K1-beside-outside", "3 . 0 0 300", SPF("example.com", "v=spf1 moo"), txt)
    check("W207-K1-beside-no-items", "3 . 0 0 300", SPF("example.com"), txt)
    check("W207-K1-beside-failed", "3 . 0 0 300", failed("SPF", "example.com"), txt)
    check("W207-K1-beside-absent", "3 . 0 0 300", absent("SPF", "example.com"), txt)
    # No TXT answer falls back to it either.
    check("W207-K1-txt-failed", "5 . 0 0 300", spf, failed("TXT", "example.com"))
    check("W207-K1-txt-absent", "0 . 0 0 300", spf, absent("TXT", "example.com"))
    check("W207-K1-txt-no-items", "0 . 0 0 300", spf, R())
    check("W207-K1-txt-no-record", "0 . 0 0 300", spf, R("other"))
    check("W207-K1-txt-records", "6 . 0 0 300", spf, R("v=spf1 -all", "v=spf1 -all"))
    check("W207-K1-txt-outside", "6 . 0 0 300", spf, R("v=spf1 moo"))
    # The same in the checks of include and redirect.
    includes, redirects = R("v=spf1 include:i.example ?all"), R("v=spf1 redirect=i.example")
    included = SPF("i.example", "v=spf1 +all")
    check("W207-K1-included-alone", "7 16 1 0 300 i.example", includes, included)
    check("W207-K1-included-beside", "1 . 1 0 300", includes, included, TXT("i.example", "v=spf1 -all"))
    check("W207-K1-included-absent", "6 . 1 0 300", includes, included, absent("TXT", "i.example"))
    check("W207-K1-redirected-alone", "7 16 1 0 300 i.example", redirects, included)
    check("W207-K1-redirected-beside", "3 . 1 0 300", redirects, included, TXT("i.example", "v=spf1 -all"))
    check("W207-K1-redirected-absent", "6 . 1 0 300", redirects, included, absent("TXT", "i.example"))

    heading("W-207 K1: SPF entries are checked for 25 and 26 all the same, and count among the 512")
    # The TXT entry has 34 bytes, an SPF entry without items 21; 512 entries of 13 bytes have 6,656.
    many = [absent("A", f"{n:03}") for n in range(512)]
    check("W207-K1-512", "7 16 0 0 0 example.com", *many[:511], SPF("example.com", "v=spf1 -all"))
    check("W207-K1-513th", "25 6656 0 0 0", *many, SPF("example.com", "v=spf1 -all"))
    check("W207-K1-second-of-pair", "26 55 0 0 0", txt, SPF("example.com"), spf)
    check("W207-K1-text-4097", "25 34 0 0 0", txt, SPF("example.com", "y" * 4097))
    check("W207-K1-failed-with-items", "25 34 0 0 0", txt, ("SPF", 2, "example.com", ["v=spf1 +all"]))
    check("W207-K1-name", "25 34 0 0 0", txt, SPF("Example.com", "v=spf1 +all"))


def void_answers():
    mx, ptr = R("v=spf1 mx -all"), R("v=spf1 ptr -all")
    g, h, f = absent("A", "g.x"), absent("A", "h.x"), failed("A", "f.x")

    def hosts(*names):
        return MX("example.com", *[(10, name) for name in names])

    def names(*listed):
        return PTR(REV, *listed)

    heading("W-204 V1: address questions of mx and ptr count their void answers, and no others do")
    check("W204-V1-host", "3 . 1 1 300", mx, hosts("g.x"), g)
    check("W204-V1-host-no-items", "3 . 1 1 300", mx, hosts("g.x"), A("g.x"))
    check("W204-V1-host-ip6", "3 . 1 1 300", mx, hosts("g.x"), AAAA("g.x"), A("g.x", OTHER), client="::1")
    check("W204-V1-host-other-family", "3 . 1 0 300", mx, hosts("g.x"), absent("AAAA", "g.x"), A("g.x", OTHER))
    check("W204-V1-name", "3 . 1 1 300", ptr, names("g.x"), g)
    check("W204-V1-name-no-items", "3 . 1 1 300", ptr, names("g.x"), A("g.x"))
    check("W204-V1-name-other-family", "3 . 1 0 300", ptr, names("g.x"), absent("AAAA", "g.x"), A("g.x", OTHER))
    check("W204-V1-include", "6 . 1 0 300", R("v=spf1 ?include:b.x -all"), absent("TXT", "b.x"))
    check("W204-V1-redirect", "6 . 2 1 300", R("v=spf1 mx redirect=b.x"), hosts("g.x"), g, absent("TXT", "b.x"))
    check("W204-V1-explanation", "3 . 1 2 300", R("v=spf1 mx -all exp=e.x"), hosts("g.x", "g.x"), g, absent("TXT", "e.x"))

    heading("W-204 V2: each void answer counts when it is given")
    check("W204-V2-twice", "3 . 1 2 300", mx, hosts("h.x", "h.x"), h)
    check("W204-V2-thrice", "6 . 1 3 300", mx, hosts("h.x", "h.x", "h.x"), h)
    check("W204-V2-earlier-terms", "6 . 3 3 300", R("v=spf1 a:h.x exists:h.x mx -all"), hosts("h.x"), h)
    check("W204-V2-later-term", "6 . 2 3 300", R("v=spf1 mx a:h.x -all"), hosts("h.x", "h.x"), h)
    check("W204-V2-mx-again", "6 . 2 3 300", R("v=spf1 mx mx -all"), hosts("h.x", "h.x"), h)
    check("W204-V2-mx-and-ptr", "6 . 2 3 300", R("v=spf1 mx ptr -all"), hosts("g.x"), names("g.x", "g.x"), g)
    check("W204-V2-name-again", "6 . 1 3 300", ptr, names("h.x", "h.x", "h.x"), h)

    heading("W-204 V3: the third ends the check at once, before another host is asked")
    gone = [absent("A", f"h{n}.x") for n in range(9)]
    check("W204-V3-match-after", "6 . 1 3 300", mx, hosts("h0.x", "h1.x", "h2.x", "ok.x"), *gone[:3], A("ok.x", CLIENT))
    check("W204-V3-missing-after", "6 . 1 3 300", mx, hosts("h0.x", "h1.x", "h2.x", "ok.x"), *gone[:3])
    check("W204-V3-match-second", "2 . 1 2 300", mx, hosts("h0.x", "h1.x", "ok.x"), *gone[:2], A("ok.x", CLIENT))
    check("W204-V3-missing-second", "7 1 1 2 300 ok.x", mx, hosts("h0.x", "h1.x", "ok.x"), *gone[:2])
    check("W204-V3-preferred", "2 . 1 0 300", mx, MX("example.com", (20, "h0.x"), (20, "h1.x"), (20, "h2.x"), (10, "ok.x")), *gone[:3], A("ok.x", CLIENT))
    check("W204-V3-nine-of-ten", "6 . 1 3 300", mx, hosts(*[f"h{n}.x" for n in range(9)], "ok.x"), *gone, A("ok.x", CLIENT))
    check("W204-V3-three-asked", "6 . 1 3 300", mx, hosts(*[f"h{n}.x" for n in range(9)], "ok.x"), *gone[:3])
    check("W204-V3-any-sign", "6 . 1 3 300", R("v=spf1 -mx +all"), hosts("h.x", "h.x", "h.x"), h)
    inner = MX("i.x", (10, "h.x"), (10, "h.x"))
    check("W204-V3-in-include", "6 . 3 3 300", R("v=spf1 include:i.x +all"), TXT("i.x", "v=spf1 mx a:h.x"), inner, h)
    check("W204-V3-after-include", "6 . 3 3 300", R("v=spf1 include:i.x mx +all"), TXT("i.x", "v=spf1 mx"), inner, hosts("h.x"), h)
    check("W204-V3-in-redirect", "6 . 3 3 300", R("v=spf1 mx redirect=i.x"), hosts("h.x"), TXT("i.x", "v=spf1 mx +all"), inner, h)

    heading("W-204 V4: a failed answer is no void answer")
    check("W204-V4-host", "5 . 1 2 300", mx, hosts("g.x", "h.x", "f.x", "g.x"), g, h, f)
    check("W204-V4-host-first", "5 . 1 0 300", mx, hosts("f.x", "g.x", "g.x", "g.x"), g, f)
    check("W204-V4-host-behind", "6 . 1 3 300", mx, hosts("g.x", "h.x", "g.x", "f.x"), g, h, f)
    check("W204-V4-names", "3 . 1 0 300", ptr, names("f.x", "f.x", "f.x"), f)
    check("W204-V4-names-between", "3 . 1 2 300", ptr, names("f.x", "g.x", "f.x", "g.x", "f.x"), g, f)
    check("W204-V4-names-then-third", "6 . 1 3 300", ptr, names("f.x", "g.x", "f.x", "g.x", "f.x", "g.x"), g, f)

    heading("W-204 V5: what isn't asked doesn't count")
    check("W204-V5-behind-match", "2 . 1 0 300", mx, hosts("ok.x", "h.x"), A("ok.x", CLIENT))
    check("W204-V5-over-ten", "6 . 1 0 300", mx, hosts(*["h.x"] * 11), h)
    check("W204-V5-nameless", "3 . 1 0 300", mx, hosts("", "", ""))
    check("W204-V5-nameless-between", "3 . 1 2 300", mx, hosts("", "h.x", "", "h.x", ""), h)
    check("W204-V5-name-behind-match", "2 . 1 0 300", ptr, names("m.example.com", "h.x", "h.x", "h.x"), A("m.example.com", CLIENT), h)
    check("W204-V5-eleventh-name", "3 . 1 2 300", ptr, names("h.x", "h.x", *["o.x"] * 8, "h.x"), A("o.x", OTHER), h)

    heading("W-204 V6: the third under ptr ends the check")
    listed = [absent("A", name) for name in ("a.x", "b.x", "c.x")]
    check("W204-V6-third", "6 . 1 3 300", ptr, names("a.x", "b.x", "c.x"), *listed)
    check("W204-V6-below-target", "6 . 1 3 300", ptr, names(*["m.example.com"] * 3), absent("A", "m.example.com"))
    check("W204-V6-match-after", "6 . 1 3 300", ptr, names("a.x", "b.x", "c.x", "m.example.com"), *listed, A("m.example.com", CLIENT))
    check("W204-V6-missing-after", "6 . 1 3 300", ptr, names("a.x", "b.x", "c.x", "d.x"), *listed)
    check("W204-V6-match-second", "2 . 1 2 300", ptr, names("a.x", "b.x", "m.example.com"), *listed[:2], A("m.example.com", CLIENT))
    check("W204-V6-missing-second", "7 1 1 2 300 c.x", ptr, names("a.x", "b.x", "c.x"), *listed[:2])

    heading("W-204 V7: p's don't count; the same entries asked by ptr do")
    unknown = absent("A", "unknown.y")
    check("W204-V7-exists", "3 . 1 1 300", R("v=spf1 exists:%{p}.y -all"), names("a.x", "b.x", "c.x"), *listed, unknown)
    check("W204-V7-ptr", "6 . 1 3 300", R("v=spf1 ptr:%{p}.y -all"), names("a.x", "b.x", "c.x"), *listed)
    check("W204-V7-before-ptr", "6 . 2 3 300", R("v=spf1 exists:%{p}.y ptr -all"), names("a.x", "b.x", "c.x"), *listed, unknown)
    check("W204-V7-missing", "7 1 1 0 300 c.x", R("v=spf1 exists:%{p}.y -all"), names("a.x", "b.x", "c.x"), *listed[:2])
    check("W204-V7-include", "6 . 1 0 300", R("v=spf1 include:%{p}.y -all"), names("a.x", "b.x", "c.x"), *listed, absent("TXT", "unknown.y"))
    check("W204-V7-explanation", "3 . 1 2 300", R("v=spf1 mx -all exp=%{p}.y"), hosts("a.x", "b.x"), names("a.x", "b.x", "c.x"), *listed, absent("TXT", "unknown.y"))


def lifetimes():
    asks = R("v=spf1 a:g.x ?all")
    r, mx, ptr, p = lasting(50, asks), *(lasting(50, R(f"v=spf1 {term} ?all")) for term in ("mx", "ptr", "exists:%{p}.x"))
    fails = lasting(50, R("v=spf1 -all exp=e.x"))
    void, unknown = absent("A", "g.x"), lasting(60, absent("A", "unknown.x"))

    def hosts(*names):
        return lasting(60, MX("example.com", *[(10, name) for name in names]))

    def names(*listed):
        return lasting(60, PTR(REV, *listed))

    def others(*listed):
        """Addresses of hosts or names that are not the client's."""
        return [lasting(70, A(name, OTHER)) for name in listed]

    heading("W-209 L1: the smallest lifetime of the entries that the questions found, whatever they answered and whether or not the result hung on them")
    check("W209-L1-record", "3 . 0 0 50", lasting(50, R("v=spf1 -all")))
    check("W209-L1-void", "1 . 1 1 7", r, lasting(7, void))
    check("W209-L1-void-no-items", "1 . 1 1 7", r, lasting(7, A("g.x")))
    check("W209-L1-failed", "5 . 1 0 7", r, lasting(7, failed("A", "g.x")))
    check("W209-L1-no-match", "1 . 1 0 7", r, lasting(7, A("g.x", OTHER)))
    check("W209-L1-match", "2 . 1 0 7", r, lasting(7, A("g.x", CLIENT)))
    check("W209-L1-earlier-in-table", "2 . 1 0 7", lasting(7, A("g.x", CLIENT)), r)
    check("W209-L1-record-smallest", "1 . 1 1 50", r, lasting(60, void))
    check("W209-L1-equal", "1 . 1 1 50", r, lasting(50, void))
    three = lasting(50, R("v=spf1 a:g.x a:h.x a:i.x ?all"))
    check("W209-L1-first-of-three", "1 . 3 0 7", three, lasting(7, A("g.x", OTHER)), lasting(8, A("h.x", OTHER)), lasting(9, A("i.x", OTHER)))
    check("W209-L1-middle-of-three", "1 . 3 0 7", three, lasting(8, A("g.x", OTHER)), lasting(7, A("h.x", OTHER)), lasting(9, A("i.x", OTHER)))
    check("W209-L1-last-of-three", "1 . 3 0 7", three, lasting(9, A("g.x", OTHER)), lasting(8, A("h.x", OTHER)), lasting(7, A("i.x", OTHER)))
    check("W209-L1-same-entry-twice", "1 . 2 0 7", lasting(50, R("v=spf1 a:g.x a:g.x ?all")), lasting(7, A("g.x", OTHER)))
    # The outermost record lookup, whatever it comes to.
    check("W209-L1-txt-absent", "0 . 0 0 7", lasting(7, absent("TXT", "example.com")))
    check("W209-L1-txt-failed", "5 . 0 0 7", lasting(7, failed("TXT", "example.com")))
    check("W209-L1-txt-no-items", "0 . 0 0 7", lasting(7, R()))
    check("W209-L1-no-record", "0 . 0 0 7", lasting(7, R("v=spf10 -all")))
    check("W209-L1-records", "6 . 0 0 7", lasting(7, R("v=spf1 -all", "v=spf1 -all")))
    check("W209-L1-outside", "6 . 0 0 7", lasting(7, R("v=spf1 moo")))
    # Records of include and redirect.
    includes, redirects = lasting(50, R("v=spf1 include:i.x ?all")), lasting(50, R("v=spf1 redirect=i.x"))
    check("W209-L1-included-match", "2 . 1 0 20", includes, lasting(20, TXT("i.x", "v=spf1 +all")))
    check("W209-L1-included-no-match", "1 . 1 0 20", includes, lasting(20, TXT("i.x", "v=spf1 -all")))
    check("W209-L1-included-absent", "6 . 1 0 20", includes, lasting(20, absent("TXT", "i.x")))
    check("W209-L1-included-failed", "5 . 1 0 20", includes, lasting(20, failed("TXT", "i.x")))
    check("W209-L1-included-outside", "6 . 1 0 20", includes, lasting(20, TXT("i.x", "v=spf1 moo")))
    check("W209-L1-including", "1 . 1 0 50", includes, lasting(60, TXT("i.x", "v=spf1 -all")))
    check("W209-L1-in-included", "1 . 2 1 7", includes, lasting(20, TXT("i.x", "v=spf1 a:g.x")), lasting(7, void))
    included = lasting(20, TXT("i.x", "v=spf1 -all"))
    check("W209-L1-after-included", "1 . 2 1 7", lasting(50, R("v=spf1 include:i.x a:g.x ?all")), included, lasting(7, void))
    check("W209-L1-before-included", "1 . 2 1 20", lasting(50, R("v=spf1 a:g.x include:i.x ?all")), included, lasting(30, void))
    check("W209-L1-redirected", "3 . 1 0 20", redirects, included)
    check("W209-L1-redirected-absent", "6 . 1 0 20", redirects, lasting(20, absent("TXT", "i.x")))
    check("W209-L1-redirecting", "3 . 1 0 50", redirects, lasting(60, TXT("i.x", "v=spf1 -all")))
    check("W209-L1-in-redirected", "4 . 2 1 7", redirects, lasting(20, TXT("i.x", "v=spf1 a:g.x ~all")), lasting(7, void))
    # Questions of mx, ptr and exists.
    check("W209-L1-mx-absent", "1 . 1 1 7", mx, lasting(7, absent("MX", "example.com")))
    check("W209-L1-mx-failed", "5 . 1 0 7", mx, lasting(7, failed("MX", "example.com")))
    check("W209-L1-mx", "2 . 1 0 7", mx, lasting(7, MX("example.com", (10, "g.x"))), lasting(60, A("g.x", CLIENT)))
    check("W209-L1-mx-nameless", "1 . 1 0 7", mx, lasting(7, MX("example.com", (10, ""))))
    check("W209-L1-host", "2 . 1 0 7", mx, hosts("g.x"), lasting(7, A("g.x", CLIENT)))
    check("W209-L1-host-before", "2 . 1 0 7", mx, hosts("g.x", "h.x"), lasting(7, A("g.x", OTHER)), lasting(60, A("h.x", CLIENT)))
    check("W209-L1-host-void", "1 . 1 1 7", mx, hosts("g.x"), lasting(7, void))
    check("W209-L1-host-failed", "5 . 1 0 7", mx, hosts("g.x"), lasting(7, failed("A", "g.x")))
    check("W209-L1-ptr-absent", "1 . 1 1 7", ptr, lasting(7, absent("PTR", REV)))
    check("W209-L1-ptr-failed", "1 . 1 0 7", ptr, lasting(7, failed("PTR", REV)))
    check("W209-L1-ptr", "1 . 1 0 7", ptr, lasting(7, PTR(REV, "g.x")), *others("g.x"))
    check("W209-L1-name", "2 . 1 0 7", ptr, names("m.example.com"), lasting(7, A("m.example.com", CLIENT)))
    check("W209-L1-name-before", "2 . 1 0 7", ptr, names("g.x", "m.example.com"), lasting(7, A("g.x", CLIENT)), lasting(60, A("m.example.com", CLIENT)))
    check("W209-L1-name-void", "1 . 1 1 7", ptr, names("g.x"), lasting(7, void))
    check("W209-L1-name-failed", "1 . 1 0 7", ptr, names("g.x"), lasting(7, failed("A", "g.x")))
    exists = lasting(50, R("v=spf1 exists:g.x ?all"))
    check("W209-L1-exists", "2 . 1 0 7", exists, lasting(7, A("g.x", OTHER)))
    check("W209-L1-exists-absent", "1 . 1 1 7", exists, lasting(7, void))
    check("W209-L1-exists-no-items", "1 . 1 1 7", exists, lasting(7, A("g.x")))
    check("W209-L1-exists-failed", "5 . 1 0 7", exists, lasting(7, failed("A", "g.x")))
    check("W209-L1-third-void", "6 . 3 3 7", lasting(50, R("v=spf1 a:g.x a:g.x a:h.x ?all")), lasting(60, void), lasting(7, absent("A", "h.x")))

    heading("W-209 L2: a missing question adds nothing, and a 7 has what was consulted before it")
    check("W209-L2-missing", "7 1 1 0 50 g.x", r)
    check("W209-L2-empty", "7 16 0 0 0 example.com")
    check("W209-L2-nothing-consulted", "7 16 0 0 0 example.com", lasting(7, A("g.x", CLIENT)))
    check("W209-L2-after-void", "7 1 2 1 7 h.x", lasting(50, R("v=spf1 a:g.x a:h.x ?all")), lasting(7, void))
    check("W209-L2-included", "7 16 1 0 50 i.x", includes)
    check("W209-L2-in-included", "7 1 2 0 20 g.x", includes, lasting(20, TXT("i.x", "v=spf1 a:g.x")))
    check("W209-L2-redirected", "7 16 1 0 50 i.x", redirects)
    check("W209-L2-mx", "7 15 1 0 50 example.com", mx)
    check("W209-L2-host", "7 1 1 0 7 g.x", mx, lasting(7, MX("example.com", (10, "g.x"))))
    check("W209-L2-second-host", "7 1 1 1 7 h.x", mx, hosts("g.x", "h.x"), lasting(7, void))
    check("W209-L2-ptr", "7 12 1 0 50 " + REV, ptr)
    check("W209-L2-name", "7 1 1 0 7 g.x", ptr, lasting(7, PTR(REV, "g.x")))
    check("W209-L2-p", "7 12 1 0 50 " + REV, p)
    check("W209-L2-p-name", "7 1 1 0 7 g.x", p, lasting(7, PTR(REV, "g.x")))
    check("W209-L2-p-done", "7 1 1 0 7 unknown.x", p, names("g.x"), lasting(7, void))

    heading("W-209 L3: 0 where nothing is asked, and for refusals")
    single = lasting(50, TXT("com", "v=spf1 -all"))
    check("W209-L3-single-label", "0 . 0 0 0", single, domain="com")
    check("W209-L3-malformed", "0 . 0 0 0", r, domain="example..com")
    check("W209-L3-empty", "0 . 0 0 0", r, domain="")
    # As the target of include or redirect such a domain adds nothing.
    check("W209-L3-included-single-label", "6 . 1 0 60", lasting(60, R("v=spf1 include:%{d1} ?all")), single)
    check("W209-L3-redirected-malformed", "6 . 1 0 60", lasting(60, R("v=spf1 redirect=a..b")), single)
    check("W209-L3-20", "20 . 0 0 0", r, sender="")
    check("W209-L3-21", "21 . 0 0 0", r, helo="a b")
    check("W209-L3-22", "22 . 0 0 0", r, domain="y" * 256)
    lent("W209-L3-23", "23 . 0 0 0", r, name=252)
    # The record's entry has 2 + 2 + 1 + 4 + 1 + 11 + 2 + 17 = 40 bytes.
    lent("W209-L3-24", "24 . 0 0 0", r, zeros=65496)
    lent("W209-L3-25-65535", "25 40 0 0 0", r, zeros=65495)
    check("W209-L3-25", "25 40 0 0 0", r, b"\x00")
    check("W209-L3-26", "26 40 0 0 0", r, lasting(7, asks))

    heading("W-209 L4: entries that are passed over aren't consulted")
    check("W209-L4-spf", "1 . 1 1 50", lasting(1, SPF("example.com", "v=spf1 +all")), r, lasting(60, void))
    check("W209-L4-spf-alone", "7 16 0 0 0 example.com", lasting(1, SPF("example.com", "v=spf1 +all")))
    check("W209-L4-spf-included", "7 16 1 0 50 i.x", includes, lasting(1, SPF("i.x", "v=spf1 +all")))
    check("W209-L4-family", "2 . 1 0 50", r, lasting(1, AAAA("g.x", "::1")), lasting(60, A("g.x", CLIENT)))
    check("W209-L4-family-ip6", "2 . 1 0 50", r, lasting(1, A("g.x", CLIENT)), lasting(60, AAAA("g.x", "::1")), client="::1")
    check("W209-L4-family-host", "2 . 1 0 50", mx, hosts("g.x"), lasting(1, absent("AAAA", "g.x")), lasting(60, A("g.x", CLIENT)))
    own_name = lasting(60, A("m.example.com", CLIENT))
    check("W209-L4-family-name", "2 . 1 0 50", ptr, names("m.example.com"), own_name, lasting(1, absent("AAAA", "m.example.com")))
    check("W209-L4-family-missing", "7 1 1 0 50 g.x", r, lasting(1, AAAA("g.x", "::1")))
    # exists asks for A, whatever the client's family.
    check("W209-L4-family-exists", "2 . 1 0 40", exists, lasting(40, A("g.x", OTHER)), lasting(1, AAAA("g.x", "::1")), client="::1")
    check("W209-L4-host-behind", "2 . 1 0 50", mx, hosts("ok.x", "h.x"), lasting(70, A("ok.x", CLIENT)), lasting(1, A("h.x", OTHER)))
    preferred = lasting(60, MX("example.com", (20, "h.x"), (10, "ok.x")))
    check("W209-L4-host-preferred", "2 . 1 0 50", mx, preferred, lasting(1, A("h.x", OTHER)), lasting(70, A("ok.x", CLIENT)))
    check("W209-L4-name-behind", "2 . 1 0 50", ptr, names("m.example.com", "g.x"), lasting(70, A("m.example.com", CLIENT)), lasting(1, A("g.x", OTHER)))
    ten = [f"n{n}.y" for n in range(10)]
    check("W209-L4-eleventh-name", "1 . 1 0 50", ptr, names(*ten, "g.x"), *others(*ten), lasting(1, A("g.x", CLIENT)))
    check("W209-L4-tenth-name", "1 . 1 0 1", ptr, names(*ten, "g.x"), *others(*ten[:9]), lasting(1, A("n9.y", OTHER)), lasting(2, A("g.x", CLIENT)))
    check("W209-L4-over-ten-hosts", "6 . 1 0 50", mx, hosts(*ten, "g.x"), lasting(1, A("n0.y", CLIENT)), lasting(1, A("g.x", CLIENT)))
    check("W209-L4-over-ten-mx", "6 . 1 0 7", mx, lasting(7, MX("example.com", *[(10, name) for name in (*ten, "g.x")])), lasting(1, A("n0.y", CLIENT)))
    check("W209-L4-tenth-host", "2 . 1 0 1", mx, hosts(*ten), *others(*ten[:9]), lasting(1, A("n9.y", CLIENT)))
    check("W209-L4-term-behind", "2 . 0 0 50", lasting(50, R("v=spf1 ip4:192.0.2.129 a:g.x")), lasting(1, void))
    check("W209-L4-redirect-unused", "3 . 0 0 50", lasting(50, R("v=spf1 -all redirect=i.x")), lasting(1, TXT("i.x", "v=spf1 +all")))
    check("W209-L4-bad-term", "6 . 0 0 50", lasting(50, R("v=spf1 a:g.x moo")), lasting(1, void))
    eleven = lasting(50, R("v=spf1 " + "a:g.x " * 10 + "a:h.x ?all"))
    check("W209-L4-eleventh-term", "6 . 10 0 50", eleven, lasting(60, A("g.x", OTHER)), lasting(1, A("h.x", CLIENT)))
    gone = lasting(60, void)
    check("W209-L4-third-void-host", "6 . 1 3 50", mx, hosts("g.x", "g.x", "g.x", "h.x"), gone, lasting(1, A("h.x", CLIENT)))
    check("W209-L4-failed-host", "5 . 1 0 50", mx, hosts("f.x", "h.x"), lasting(60, failed("A", "f.x")), lasting(1, A("h.x", CLIENT)))
    check("W209-L4-malformed-target", "1 . 1 0 50", lasting(50, R("v=spf1 a:a..b ?all")), lasting(1, A("b", CLIENT)))
    check("W209-L4-other-names", "1 . 1 1 50", r, gone, lasting(1, TXT("g.x", "v=spf1 -all")), lasting(1, A("x.g.x", CLIENT)))

    heading("W-209 L5: all of p's first ten names are consulted, also after the current domain was found")
    own = lasting(60, A("example.com", CLIENT))
    found = lasting(60, A("example.com.x", OTHER))
    check("W209-L5-ptr", "1 . 1 1 7", p, lasting(7, absent("PTR", REV)), unknown)
    check("W209-L5-ptr-failed", "1 . 1 1 7", p, lasting(7, failed("PTR", REV)), unknown)
    check("W209-L5-current", "2 . 1 0 7", p, names("example.com"), lasting(7, A("example.com", CLIENT)), found)
    check("W209-L5-after-current", "2 . 1 0 7", p, names("example.com", "g.x"), own, lasting(7, A("g.x", OTHER)), found)
    check("W209-L5-after-current-void", "2 . 1 0 7", p, names("example.com", "g.x"), own, lasting(7, void), found)
    check("W209-L5-after-current-failed", "2 . 1 0 7", p, names("example.com", "g.x"), own, lasting(7, failed("A", "g.x")), found)
    check("W209-L5-before-current", "2 . 1 0 7", p, names("g.x", "example.com"), own, lasting(7, A("g.x", CLIENT)), found)
    check("W209-L5-tenth", "2 . 1 0 7", p, names("example.com", *ten[1:]), own, *others(*ten[1:9]), lasting(7, A("n9.y", OTHER)), found)
    check("W209-L5-eleventh", "2 . 1 0 50", p, names("example.com", *ten[1:], "g.x"), own, *others(*ten[1:]), lasting(1, A("g.x", OTHER)), found)
    check("W209-L5-missing-after", "7 1 1 0 7 h.x", p, names("example.com", "g.x", "h.x"), own, lasting(7, A("g.x", OTHER)))
    check("W209-L5-family", "2 . 1 0 50", p, names("example.com"), own, lasting(1, absent("AAAA", "example.com")), found)
    # Of a target that is malformed all the same, and where the record uses no p.
    malformed = lasting(50, R("v=spf1 a:%{p}..x ?all"))
    check("W209-L5-malformed-target", "1 . 1 0 7", malformed, names("g.x"), lasting(7, void))
    check("W209-L5-unused", "1 . 1 1 50", r, gone, lasting(1, PTR(REV, "example.com")), lasting(1, A("example.com", CLIENT)))
    check("W209-L5-unused-modifier", "1 . 0 0 50", lasting(50, R("v=spf1 x=%{p} ?all")), lasting(1, absent("PTR", REV)))

    heading("W-209 L6: entries of an explanation never count, nor p's that are asked for it")
    why = TXT("e.x", "why")
    check("W209-L6-text", "3 . 0 0 50 why", fails, lasting(7, why))
    check("W209-L6-text-later", "3 . 0 0 50 why", fails, lasting(60, why))
    check("W209-L6-absent", "3 . 0 0 50", fails, lasting(7, absent("TXT", "e.x")))
    check("W209-L6-failed", "3 . 0 0 50", fails, lasting(7, failed("TXT", "e.x")))
    check("W209-L6-missing", "7 16 0 0 50 e.x", fails)
    check("W209-L6-void-before", "3 . 1 1 20 why", lasting(50, R("v=spf1 a:g.x -all exp=e.x")), lasting(20, void), lasting(7, why))
    check("W209-L6-void-before-missing", "7 16 1 1 20 e.x", lasting(50, R("v=spf1 a:g.x -all exp=e.x")), lasting(20, void))
    check("W209-L6-redirected", "3 . 1 0 20 why", redirects, lasting(20, TXT("i.x", "v=spf1 -all exp=e.x")), lasting(7, why))
    of_p, in_target = lasting(7, TXT("e.x", "%{p}")), lasting(50, R("v=spf1 -all exp=%{p}.x"))
    check("W209-L6-p-text", "3 . 0 0 50 g.x", fails, of_p, lasting(7, PTR(REV, "g.x")), lasting(6, A("g.x", CLIENT)))
    check("W209-L6-p-text-missing", "7 12 0 0 50 " + REV, fails, of_p)
    check("W209-L6-p-text-name-missing", "7 1 0 0 50 g.x", fails, of_p, lasting(7, PTR(REV, "g.x")))
    check("W209-L6-p-target", "3 . 0 0 50 why", in_target, lasting(7, absent("PTR", REV)), lasting(6, TXT("unknown.x", "why")))
    check("W209-L6-p-target-missing", "7 16 0 0 50 unknown.x", in_target, lasting(7, absent("PTR", REV)))
    both = lasting(50, R("v=spf1 exists:%{p}.x -all exp=e.x"))
    check("W209-L6-p-in-both", "3 . 1 1 20 unknown", both, of_p, lasting(20, absent("PTR", REV)), unknown)

    heading("W-209 L7: a fifth field of the first line, for every answer but `input`")
    check("W209-L7-3", "3 . 0 0 100", lasting(100, R("v=spf1 -all")))
    check("W209-L7-7", "7 16 0 0 0 example.com")
    check("W209-L7-25", "25 0 0 0 0", b"\x00")
    check("W209-L7-20", "20 . 0 0 0", sender="")
    check("W209-L7-input-client", "input", r, client="x")
    check("W209-L7-input-t", "input", r, t="x")

    heading("W-209 L8: four bytes, little-endian, any value for any status")
    for number in (0, 1, 255, 256, 65535, 65536, 16777215, 16777216, 67305985, 2147483647, 2147483648, 4294967295):
        check(f"W209-L8-{number}", f"3 . 0 0 {number}", lasting(number, R("v=spf1 -all")))
    for status, counted, one in (("answered", "2 . 1 0", A("g.x", CLIENT)), ("failed", "5 . 1 0", failed("A", "g.x")), ("absent", "1 . 1 1", void)):
        check(f"W209-L8-{status}-least", counted + " 0", r, lasting(0, one))
        check(f"W209-L8-{status}-most", counted + " 50", r, lasting(4294967295, one))
    # The smallest is that of the numbers, not of their bytes: 1, 256 and 16777216 are 1 in a byte of their own.
    check("W209-L8-256-and-1", "1 . 1 1 1", lasting(256, asks), lasting(1, void))
    check("W209-L8-1-and-16777216", "1 . 1 1 1", lasting(1, asks), lasting(16777216, void))
    check("W209-L8-511-and-256", "1 . 1 1 256", lasting(511, asks), lasting(256, void))
    check("W209-L8-4294967295-and-2147483648", "1 . 1 1 2147483648", lasting(4294967295, asks), lasting(2147483648, void))
    check("W209-L8-0-and-most", "1 . 1 1 0", lasting(0, asks), lasting(4294967295, void))
    # The reading's entry, A a.b 1.2.3.4 with 67305985, byte by byte.
    stands = bytes.fromhex("11000100000102030403612e62040001020304")
    long = lasting(4294967295, R("v=spf1 a:a.b -all"))
    check("W209-L8-bytes", "2 . 1 0 67305985", long, stands, client="1.2.3.4")
    check("W209-L8-bytes-first", "2 . 1 0 67305985", stands, long, client="1.2.3.4")
    # 2 + 1 + 4 + 1 bytes leave no room for a name, whether or not its length says so; with one byte more there is.
    check("W209-L8-length-8", "25 0 0 0 0", bytes.fromhex("08000100032c01000000"))
    check("W209-L8-length-8-name", "25 0 0 0 0", bytes.fromhex("08000100032c01000001"))
    check("W209-L8-length-8-then-name", "25 0 0 0 0", bytes.fromhex("08000100032c0100000161"))
    check("W209-L8-length-8-later", "25 40 0 0 0", r, bytes.fromhex("08000100032c01000000"))
    check("W209-L8-length-7", "25 0 0 0 0", bytes.fromhex("07000100032c010000"))
    check("W209-L8-length-9", "7 16 0 0 0 example.com", bytes.fromhex("09000100032c0100000161"))
    check("W209-L8-length-9-answered", "7 16 0 0 0 example.com", bytes.fromhex("09000100002c0100000161"))

    # A full table: the record's 34 bytes, 13 of another entry before its items, 252 items of a length of 1 + 256 * 1 that are all of the byte 1, 65,268 bytes, and
    # an item of 218; and with 219.
    for size, expected in ((218, "3 . 0 0 300"), (219, "24 . 0 0 0")):
        other = little(11 + 65268 + 2 + size) + entry(*TXT("a.b"))[2:]
        wide(f"W209-L8-table-{34 + 13 + 65268 + 2 + size}", expected, 65268, "\1", input_of([R("v=spf1 -all"), other]), little(size) + b"y" * size)

    heading("W-209 L11: the check program reads the new layout only")
    # TXT example.com `v=spf1 -all` before W-209: the bytes of the name would be a lifetime and a length of 109.
    before = bytes.fromhex("1c001000000b6578616d706c652e636f6d0b00763d73706631202d616c6c")
    check("W209-L11-old", "25 0 0 0 0", before)
    check("W209-L11-old-later", "25 40 0 0 0", r, before)
    check("W209-L11-old-least", "25 0 0 0 0", bytes.fromhex("05000100000161"))
    # An absent TXT entry that either layout reads: before W-209 the name had 37 bytes and began with `abc!`; now these and the 37 are a lifetime
    # of 37 + 256 * (97 + 256 * (98 + 256 * 99)) and a length of 33.
    domain = "y" * 21 + ".example.com"
    either = b"\x29\x00\x10\x00\x03\x25abc!" + octets(domain)
    check("W209-L11-either", "0 . 0 0 1667391781", either, domain=domain)
    check("W209-L11-either-old-name", "7 16 0 0 0 abc!" + domain, either, domain="abc!" + domain)


# The example of the check program.


def example():
    """A mail that fails, with its explanation. The seconds have 100,000 leading zeros, so that the input is read in more than one piece; the explanation's entry
    has the smallest lifetime, which doesn't count."""
    entries = [
        lasting(3600, R("v=spf1 ip4:192.0.2.0/25 include:mail.example.net -all exp=why.%{d}")),
        lasting(1800, TXT("mail.example.net", "v=spf1 a:out.%{d} -all")),
        lasting(300, A("out.mail.example.net", "192.0.2.77")),
        lasting(60, TXT("why.example.com", "%{i} may not send as %{s}: %{h} %{r} %{t}")),
    ]
    text = input_of(entries, helo="mail.example.com", receiver="mx.relay.example", t="0" * 100000 + "1700000000")
    expected = "3 . 2 0 300 192.0.2.129 may not send as user@example.com: mail.example.com mx.relay.example 1700000000"
    (CRATES / "check_host" / "stdin").write_bytes(text)
    (CRATES / "check_host" / "stdout").write_text(answer("the example", expected, text) + "\n", encoding="ascii")


def main():
    heading("the cases of the scope paper's sections `Both sides of each line` and `Errors that look right`, and of the readings")
    of_scope = (both_sides, look_right, part_one, limits, names, grammar, tables, explanations, clients, values, terms, edges, programs)
    for section in (*of_scope, places, retired, void_answers, lifetimes):
        section()
    need(all(line.isascii() for line in given + printed), "a line is not ASCII")
    store(CRATES / "scope_cases", given, printed)
    example()
    print(len(labels), "cases")


if __name__ == "__main__":
    main()
