#!/usr/bin/env python3
"""The cases of the program publishing_cases: the vectors for `house_rules`, the inputs of the readings of the change request W-211 (H1 to H15), records of
the RFC's suite and of old drafts, and inputs of the program lint_record.

    python3 tools/house_cases.py PATH/vectors-02

reads house-w211.txt there, and writes crates/publishing_cases/stdin, the calls, and crates/publishing_cases/stdout, what the program must print. The answers
to the vectors are the vectors' own. Those to the other records stand beside them here, each breach a rule and a place, worked out by hand from the change
request and the readings. What lint_record prints of them follows from `shown`, which says the program's format once more. None was taken from what a program
printed. The gate doesn't run this script.

Unless said otherwise: the name is example.com, and the list has 768 bytes.
"""

import pathlib
import sys

sys.dont_write_bytecode = True

from scope_cases import need, store

CRATE = pathlib.Path(__file__).resolve().parent.parent / "crates" / "publishing_cases"

# The number of vectors, and the lengths of the program's buffers: for a case, a name, a record or input, and the one whose front it lends.
VECTORS, CASE, NAME, TEXT, LENT = 1000, 12000, 512, 5000, 5000

RULES = (
    "no ptr",
    "no p macro",
    "an all or a redirect, and no all after the first",
    "no redirect beside an all",
    "no mechanism after the first all",
    "nothing but redirect and exp after the first of these",
    "no +all, written or implied",
    "no length below /8 for IPv4 or /19 for IPv6",
    "no network equal to an earlier one",
    "name and text together under 450 bytes",
)

given, printed = [], []


def heading(text):
    given.append("# " + text)
    printed.append("# " + text)


def case(call, words, expected):
    line = " ".join([call, *map(str, words)])
    need(len(line) <= CASE, "a case is too long")
    given.append(line)
    printed.append(expected)


def hexed(text):
    """A text in hex, a byte for each character."""
    return text.encode("latin-1").hex() or "-"


def vectors(path):
    lines = path.read_text(encoding="ascii").splitlines()
    need(len(lines) == VECTORS, "not", VECTORS, "vectors in", path.name)
    heading(path.name)
    for line in lines:
        arguments, expected = line.split(" => ")
        call, *words = arguments.split(" ")
        need(call == "house" and len(words) == 3, "no vector:", line[:80])
        case(call, words, expected)


def listed(breaches):
    """Three bytes each: rule, then little-endian place."""
    return b"".join(bytes([rule]) + place.to_bytes(2, "little") for rule, place in breaches).hex() or "-"


def shown(record, breaches):
    """For each breach its rule, place and words, the record, and a caret under the place; or `ok`."""
    return "".join(f"{rule} at {place}: {RULES[rule - 1]}\n{record}\n{' ' * place}^\n" for rule, place in breaches) or "ok\n"


def lint(text, expected):
    """An input of lint_record, and what it prints."""
    need(len(text) <= TEXT, "an input is too long")
    case("lint", [hexed(text)], hexed(expected))


def house(record, *breaches, name="example.com", room=768):
    """A record and its breaches, each a rule and a place, by rule and then place."""
    need(len(name) <= NAME and len(record) <= TEXT and room <= LENT, "an argument is too long")
    need(list(breaches) == sorted(set(breaches)), "not in order:", record[:80])
    case("house", [hexed(name), hexed(record), room], "ok " + listed(breaches))
    if len(breaches) < 4 and "\n" not in name:
        lint(f"{name}\n{record}\n", shown(record, breaches))


def refused(number, record, place=None, name="example.com", room=768):
    """A record that is refused; 22 and 70 have no place."""
    case("house", [hexed(name), hexed(record), room], f"refused {number} {'.' if place is None else place}")
    if number != 70:
        lint(f"{name}\n{record}\n", f"refused {number} at {place or 0}\n")


def record_of(size, *terms):
    """A record of a size: the terms, and before the last of them an unknown modifier that fills it up."""
    *front, last = ["v=spf1", *terms]
    known = len(" ".join([*front, "x=", last]))
    return " ".join([*front, "x=" + "y" * (size - known), last])


def readings():
    heading("H1: p in unknown modifiers, redirect and exp, in either case; %%{p} is none")
    house("v=spf1 x=%{p} -all", (2, 7))
    house("v=spf1 x=%{P} -all", (2, 7))
    house("v=spf1 x=%{c}%{p}/ -all", (2, 7))
    house("v=spf1 redirect=%{p}.x", (2, 7))
    house("v=spf1 -all exp=%{p}.x", (2, 12))
    house("v=spf1 x=%%{p} -all")
    house("v=spf1 ptr:%{p}.x -all", (1, 7), (2, 7))
    house("v=spf1 include:%{p}.x a:%{p}.x mx:%{p}.x/24 exists:%{p} ~all", (2, 7), (2, 22), (2, 31), (2, 44))
    house("v=spf1 ptr=%{d} p=p -all")
    heading("H2: several rules at one term")
    house("v=spf1 -all ~all", (3, 12), (5, 12))
    house("v=spf1 -all +all", (3, 12), (5, 12), (7, 12))
    house("v=spf1 -all all", (3, 12), (5, 12), (7, 12))
    heading("H3: the missing end")
    house("v=spf1", (3, 6))
    house("v=spf1 exp=a.b  ", (3, 16))
    house("v=spf1 redirect=a.b")
    house("v=spf1 -all ~all ?all", (3, 12), (3, 17), (5, 12), (5, 17))
    house("v=spf1 all=y", (3, 12))
    heading("H4: the redirect offends, before or after the all")
    house("v=spf1 -all redirect=a.b", (4, 12))
    house("v=spf1 redirect=a.b -all", (4, 7), (6, 20))
    heading("H5: every term")
    house("v=spf1 -all a x=y mx", (5, 12), (5, 18))
    heading("H6: unknown modifiers too; exp and redirect in either order")
    house("v=spf1 -all exp=a.b x=y", (6, 20))
    house("v=spf1 exp=a.b redirect=c.d")
    house("v=spf1 redirect=c.d exp=a.b")
    heading("H7: +all, written or not")
    house("v=spf1 ALL", (7, 7))
    house("v=spf1 +all", (7, 7))
    house("v=spf1 all +all", (3, 11), (5, 11), (7, 7), (7, 11))
    heading("H8: below 8 and below 19")
    house("v=spf1 a/8//19 -all")
    house("v=spf1 a mx -all")
    house("v=spf1 a/7//18 -all", (8, 7))
    house("v=spf1 a/7 -all", (8, 7))
    house("v=spf1 mx//18 -all", (8, 7))
    house("v=spf1 a/0 -all", (8, 7))
    house("v=spf1 ip4:10.0.0.0/8 ip6:2001::/19 -all")
    house("v=spf1 ip4:10.0.0.0/7 ip6:2001::/18 -all", (8, 7), (8, 22))
    heading("H9: equal networks")
    house("v=spf1 ip4:10.0.0.1/24 -ip4:10.0.0.2/24 -all", (9, 23))
    house("v=spf1 ip4:10.0.0.1 ip4:10.0.0.1/32 -all", (9, 20))
    house("v=spf1 ip4:10.0.0.1 ip6:::ffff:10.0.0.1 -all")
    house("v=spf1 ip4:10.0.0.0/24 ip4:10.0.0.0/25 -all")
    house("v=spf1 ip4:1.2.3.4 ip4:1.2.3.4 ip4:1.2.3.4 -all", (9, 19), (9, 31))
    house("v=spf1 ip6:2001:db8::1 ~IP6:2001:0DB8:0::0.0.0.1/128 -all", (9, 23))
    house("v=spf1 ip6:2001:db8::/65 ip6:2001:db8::8000:0:0:0/65 ip6:2001:db8::7fff:0:0:1/65 -all", (9, 53))
    heading("H10: the name's bytes as given, a trailing dot counted")
    house(record_of(438, "-all"), (10, 438), name="example.com.")
    house(record_of(438, "-all"))
    house(record_of(439, "-all"), (10, 439))
    house(record_of(195, "-all"), (10, 195), name="y" * 255)
    house(record_of(194, "-all"), name="y" * 255)
    heading("H11: of the name only its length is looked at")
    house("v=spf1 -all", name="")
    house("v=spf1 -all", name="a..b")
    house("v=spf1 -all", name="\x00\xff \x7f")
    house("v=spf1 -all", name="y" * 255)
    refused(22, "v=spf1 -all", name="y" * 256)
    heading("H12: 256 breaches, and lists just large enough")
    end = 6 + 4 * 254
    most = [(1, 7 + 4 * term) for term in range(254)] + [(3, end), (10, end)]
    house("v=spf1" + " ptr" * 254, *most)
    house("v=spf1" + " ptr" * 254, *most, room=1000)
    refused(70, "v=spf1" + " ptr" * 254, room=767)
    refused(70, "v=spf1" + " ptr" * 255, room=771)
    refused(70, "v=spf1" + " ptr" * 255, room=4000)
    house("v=spf1", (3, 6), room=3)
    refused(70, "v=spf1", room=2)
    refused(70, "v=spf1", room=0)
    house("v=spf1 -all", room=0)
    heading("H13: the order of refusals")
    refused(22, "x" * 4097, name="y" * 256, room=0)
    refused(22, "v=spf1 foo", name="y" * 256, room=0)
    refused(30, "x" * 4097, 0, room=0)
    refused(30, "v=spf1" + " " * 4091, 0, room=0)
    house("v=spf1" + " " * 4090, (3, 4096), (10, 4096))
    refused(31, "v=spf10 foo", 0, room=0)
    refused(32, "v=spf1 ip4:192.0.2.0/33", 22, room=0)
    refused(32, "v=spf1 exp=a.b exp=foo", 22, room=0)
    refused(33, "v=spf1 exp=a.b exp=c.d x=%", 15, room=0)
    refused(33, "v=spf1 redirect=a.example exp=b.example redirect=c.example", 40, room=0)
    refused(70, "v=spf1 ptr", room=5)
    refused(31, "spf2.0/pra -all", 0)
    refused(31, "spf2.0/mfrom,pra -all", 0)
    heading("H14: by rule, then place, 1 before 10")
    house(record_of(195, "ptr", "-all"), (1, 7), (10, 195), name="y" * 255)
    house("v=spf1 a/0 ptr x=" + "y" * 178, (1, 11), (3, 195), (8, 7), (10, 195), name="y" * 255)
    house("v=spf1 -all a ptr", (1, 14), (5, 12), (5, 14))
    heading("H15: the rest of the list stays")
    house("v=spf1 -all ~all", (3, 12), (5, 12), room=6)
    house("v=spf1 -all ~all", (3, 12), (5, 12), room=1000)
    house("v=spf1 -all", room=10)


def networks():
    """The most networks of a record, and many that are all different but for the last."""
    heading("many networks")
    record = "v=spf1" + " ip6:::" * 584
    need(len(record) == 4094, "not the most networks")
    refused(70, record, room=5000)
    many = [f"ip6:{number:x}::" for number in range(1, 330)]
    record = " ".join(["v=spf1", *many, "-all"])
    need(len(record) <= 4096, "too many networks")
    house(record, (10, len(record)))
    for again in (1, 128, 329):
        record = " ".join(["v=spf1", *many, f"IP6:{again:04X}:0::/128", "-all"])
        need(len(record) <= 4096, "too many networks")
        house(record, (9, record.index("IP6")), (10, len(record)))


def suite():
    heading("records of old drafts")
    house("v=spf1 +mx +a:colo.example.com/28 -all")
    house("v=spf1 +all", (7, 7))
    house("v=spf1 ptr -all", (1, 7))
    refused(32, "v=spf1 a mx ptr domainkeys:_dk.%{d} -all", 26)
    house("v=spf1 ip4:192.168.1.128/25 -all")
    house("v=spf1 mx/8 mx:example.org/8 -all")
    house("v=spf1 mx -all exp=explain._spf.%{d}")
    house("v=spf1 redirect=_spf.example.com", name="la.example.com")
    refused(32, "v=spf1 a mx ptr foo:_foo.%{d} -all", 19)
    house("v=spf1 exists:%{ir}.%{l1r+}.%{d}", (3, 32), name="remote-users._spf.example.com")
    house("v=spf1 mx include:mobile-users._spf.%{d} include:remote-users._spf.%{d} -all")
    house("v=spf1 a:A.X.COM -all", name="X.COM")
    heading("records of the RFC's suite")
    house("v=spf1 -all exp=exp.example.net", name="example.net")
    refused(32, "v=spf1 a:\xef\xbb\xbfgarbage.example.net -all", 9, name="hosed.example.com")
    refused(32, "v=spf1 a:ctrl.example.com\rptr -all", 25, name="ctrl.example.com")
    house("v=spf1 a  -all", name="fine.example.com")
    house("v=spf1 a -all ", name="trail.example.com")
    refused(32, "v=spf1 ip4:192.0.2.5\n include:spf.protection.outlook.com ~all", 20, name="badip.example.com")
    refused(31, "v=spf1mx", 0, name="example2.com")
    refused(32, "v=spf1 ip4:1.2.3.4 -all moo", 27, name="t1.example.com")
    house("v=spf1 moo.cow-far_out=man:dog/cat ip4:1.2.3.4 -all", name="t2.example.com")
    refused(32, "v=spf1 moo.cow/far_out=man:dog/cat ip4:1.2.3.4 -all", 14, name="t3.example.com")
    house("v=spf1 redirect=t5.example.com ~all", (4, 7), (6, 31), name="t5.example.com")
    house("v=spf1 ip4:1.2.3.4 redirect=t2.example.com", name="t6.example.com")
    refused(32, "v=spf1 -all.", 11, name="e1.example.com")
    house("v=spf1 all -all", (3, 11), (5, 11), (7, 7), name="e5.example.com")
    refused(32, "v=spf1 ptr/0 -all", 10, name="e1.example.com")
    house("v=spf1 a/0 -all", (8, 7), name="e1.example.com")
    house("v=spf1 a//0 -all", (8, 7), name="e2a.example.com")
    house("v=spf1 a/24//64 -all", name="e8.example.com")
    refused(32, "v=spf1 a/24/64 -all", 12, name="e8e.example.com")
    house("v=spf1 a:foo:bar/baz.example.com", (3, 32), name="e11.example.com")
    refused(32, "v=spf1 include:ip5.example.com/24 -all", 33, name="e9.example.com")
    house("v=spf1 ip4:1.1.1.1/0 -all", (8, 7), name="e1.example.com")
    refused(32, "v=spf1 ip4:1.2.3.4/33 -all", 20, name="e3.example.com")
    house("v=spf1 -ip4:1.2.3.4 ip6:::FFFF:1.2.3.4", (3, 38), name="e7.example.com")
    refused(32, "v=spf1 ip4:1.2.3.4:8080", 18, name="e8.example.com")
    house("v=spf1 ip6:::1.1.1.1/0", (3, 22), (8, 7), name="e2.example.com")
    house("v=spf1 ip6:Cafe:Babe:8000::/33", (3, 30), name="e5.example.com")
    refused(32, "v=spf1 ip6::CAFE::BABE", 12, name="e6.example.com")
    house("v=spf1 exp=exp1.example.com redirect=e2.example.com", name="e1.example.com")
    refused(32, "v=spf1 -all foo=%abc", 17, name="e9.example.com")
    refused(33, "v=spf1 exp=e13msg.example.com -all exp=e11msg.example.com", 35, name="e14.example.com")
    refused(33, "v=spf1 redirect=e12.example.com -all redirect=e12.example.com", 37, name="e15.example.com")
    refused(32, "v=spf1 redirect=-all ?all", 20, name="e17.example.com")
    house("v=spf1 a:erehwon.example.com a:foobar.com exp=nxdomain.com -all", (6, 59), name="e23.example.com")
    refused(32, "v=spf1 -exists:%(ir).sbl.example.com ?all", 16, name="e1.example.com")
    house("v=spf1 a:macro%%percent%_%_space%-url-space.example.com -all", name="e1a.example.com")
    refused(32, "v=spf1 -all exp=%{r}.example.com", 18, name="e2.example.com")
    house("v=spf1 exists:%{p}.should.example.com ~exists:%{p}.ok.example.com", (2, 7), (2, 38), (3, 65), name="e7.example.com")
    house("v=spf1 -include:_spfh.%{d2} ip4:1.2.3.0/24 -all", name="e10.example.com")
    house("v=spf1 -a:%{h} +all", (7, 15), name="_spfh.example.com")
    house("v=spf1 a mx a mx a mx a mx a ptr ip4:1.2.3.4 -all", (1, 29), name="e6.example.com")
    house("v=spf1 ptr:fe.example.org ptr:sgp.example.com exp=_expspf.example.org -all", (1, 7), (1, 26), (6, 70), name="_spf.example.com")
    house("v=spf1 ip4:66.39.3.0/24 ip4:209.68.6.94/32", (3, 42), name="webmail.pair.com")
    house("v=spf1 ip4:209.68.5.9/32 ip4:209.68.5.15/32 a -all", name="relay.pair.com")


def inputs():
    heading("inputs of lint_record: the lines' ends, and what is cut")
    lint("", "refused 31 at 0\n")
    lint("example.com", "refused 31 at 0\n")
    lint("example.com\n", "refused 31 at 0\n")
    lint("\nv=spf1 -all", "ok\n")
    lint("example.com\nv=spf1 -all", "ok\n")
    lint("example.com\nv=spf1 -all\n", "ok\n")
    lint("example.com\nv=spf1 -all\n\n", "refused 32 at 11\n")
    lint("example.com\nv=spf1 -all\r\n", "refused 32 at 11\n")
    lint("example.com\r\nv=spf1 -all\n", "ok\n")
    lint("example.com\nv=spf1 -all\nv=spf1 -all\n", "refused 32 at 11\n")
    lint("y" * 255 + "\nv=spf1 -all\n", "ok\n")
    lint("y" * 256 + "\nv=spf1 -all\n", "refused 22 at 0\n")
    lint("y" * 5000, "refused 22 at 0\n")
    widest = "v=spf1" + " " * 4090
    lint(f"{'y' * 255}\n{widest}\n", shown(widest, [(3, 4096), (10, 4096)]))
    lint(f"{'y' * 255}\n{widest}", shown(widest, [(3, 4096), (10, 4096)]))
    lint(f"{'y' * 255}\n{widest} \n", "refused 30 at 0\n")
    lint(f"{'y' * 255}\n{widest}\n\n", "refused 30 at 0\n")
    lint(f"a\n{widest}{' ' * 500}", "refused 30 at 0\n")


def main():
    need(len(sys.argv) == 2, __doc__)
    readings()
    networks()
    suite()
    inputs()
    vectors(pathlib.Path(sys.argv[1]) / "house-w211.txt")
    store(CRATE, given, printed)
    print(len(given), "lines")


main()
