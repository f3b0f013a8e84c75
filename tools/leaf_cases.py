#!/usr/bin/env python3
"""The cases of the program leaf_cases: addresses, domain names, answer tables and entries that are appended to them.

    python3 tools/leaf_cases.py PATH/vectors

reads addresses.txt and tables.txt there, and writes crates/leaf_cases/stdin, the cases, and crates/leaf_cases/stdout, what the program must print. The answers
to the vectors are the vectors' own. All others stand beside their cases here; they were written by hand from the scope paper, the change requests and the
readings. None was taken from what a program printed. The gate doesn't run this script.

The vectors' tables have the layout before W-209. They are rewritten (table_layouts.py): each piece that is whole gets a lifetime of 0, and what comes behind the
last of them stays as it is. So a place moves by 4 for each entry before it. The script ends if the check of tables there, written from the papers, gives another
answer.
"""

import pathlib
import re
import sys

sys.dont_write_bytecode = True

from scope_cases import hexed, little, need, octets, packed, store
from table_layouts import NEW, OLD, refusal, rewritten, walk

CRATE = pathlib.Path(__file__).resolve().parent.parent / "crates" / "leaf_cases"

# The number of vectors in each file.
VECTORS = 300

# The length of the program's buffer for a line.
LINE = 140000

A, PTR, MX, TXT, AAAA, SPF = 1, 12, 15, 16, 28, 99
FAILED, ABSENT = 2, 3

# The largest number of the machine, and the longest lifetime.
MOST, LONGEST = 2**64 - 1, 2**32 - 1

given, printed = [], []


def heading(text):
    given.append("# " + text)
    printed.append("# " + text)


def case(expected, *words):
    given.append(" ".join(map(str, words)))
    printed.append(str(expected))


# Entries of a table, as bytes.


def item(text):
    return little(len(text)) + octets(text)


def entry(kind, name, *items, status=0, lifetime=0):
    body = little(kind) + bytes([status]) + lifetime.to_bytes(4, "little") + bytes([len(name)]) + octets(name) + b"".join(map(item, items))
    return little(len(body)) + body


def preferred(preference, host):
    """An MX item."""
    return little(preference) + octets(host)


# Addresses and names.


def match(client, network, **expected):
    """Whether the client matches at each length, which stands behind a letter."""
    for length, matches in expected.items():
        case(matches, "address", packed(client), packed(network), length[1:])


def addresses():
    heading("addresses: 192.0.2.129 against 192.0.2.0 at /24, /25, /0, /33, /129, 2^64 - 1")
    match("192.0.2.129", "192.0.2.0", n24=1, n25=0, n0=1, n32=0, n33=0, n129=0, n18446744073709551615=0)
    heading("the same address at /32 and /33")
    match("192.0.2.129", "192.0.2.129", n32=1, n33=0)
    heading("2001:db8::1 against 2001:db8:: at /0, /127, /128, /129")
    match("2001:db8::1", "2001:db8::", n0=1, n127=1, n128=0, n129=0, n18446744073709551615=0)
    heading("2001:1db8::1 against 2001:db8::1 at /19, /20, /128, and against itself at /128")
    match("2001:1db8::1", "2001:db8::1", n19=1, n20=0, n128=0)
    match("2001:1db8::1", "2001:1db8::1", n128=1)
    heading("families never match each other, also at /0")
    match("192.0.2.129", "2001:db8::1", n0=0)
    match("2001:db8::1", "192.0.2.129", n0=0)
    match("::ffff:192.0.2.129", "192.0.2.129", n96=0)

    heading("clients (Q39): ::ffff:192.0.2.129 counts as IPv4; ::192.0.2.129, ::fffe:192.0.2.129 and 2001:db8::1 are themselves")
    case(packed("192.0.2.129"), "client", packed("::ffff:192.0.2.129"))
    for address in ("::192.0.2.129", "::fffe:192.0.2.129", "::1:ffff:192.0.2.129", "2001:db8::1", "192.0.2.129"):
        case(packed(address), "client", packed(address))


# Names of 253 and 254 bytes.
LABELS = 3 * (63 * "x" + ".")
LONG, TOO_LONG = LABELS + 61 * "y", LABELS + 62 * "y"


def names():
    def name(text, expected="malformed"):
        case(expected, "name", hexed(text))

    heading("names (Q25): any byte 33 to 126 but the dot may stand in a label")
    for text in ("[192.0.2.1]", "a@b.c", "*.x", "a%2fb.c", "_spf.example.com"):
        name(text, text)
    heading("one trailing dot is dropped, A to Z lowered")
    name("Example.COM.", "example.com")
    name("com.", "com")
    name("a.b", "a.b")
    heading("malformed: nothing, a dot, two trailing dots (Q28), empty labels, a space, a byte over 126")
    for text in ("", ".", "a.b..", "a..b", ".a.b", "a b.c", b"a\x7f.b", b"\xe9.b"):
        name(text)
    heading("labels of 63 and 64 bytes; names of 253 bytes, with a dot more, and of 254 (Q27)")
    name(63 * "x", 63 * "x")
    name(64 * "x")
    name(LONG, LONG)
    name(LONG + ".", LONG)
    name(TOO_LONG)

    heading("in the table: no A to Z, no trailing dot")
    for text, expected in (("a.b", 1), ("a.B", 0), ("a.b.", 0), ("", 0), ("[192.0.2.1]", 1)):
        case(expected, "table-name", hexed(text))

    heading("numbers of labels: a single label matters for the domain of a check")
    for text, expected in (("com", 1), ("a.b", 2), ("a.b.c", 3), ("", 1), (".", 2)):
        case(expected, "labels", hexed(text))

    heading("at or below: whole labels, not byte suffixes")
    for text, target, expected in (
        ("example.com", "example.com", 1),
        ("mail.example.com", "example.com", 1),
        ("notexample.com", "example.com", 0),
        ("example.com", "mail.example.com", 0),
        ("com", "example.com", 0),
        ("a.b.example.com", "example.com", 1),
        ("example.com.org", "example.com", 0),
    ):
        case(expected, "below", hexed(text), hexed(target))

    heading("shortening (Q29): labels leave from the left, each with its dot, while over 253 bytes and a dot remains")
    for text, expected in (
        (LONG, LONG),
        ("a." + LONG, LONG),
        ("aa.bb." + LONG, LONG),
        (260 * "y" + ".com", "com"),
        (260 * "y", 260 * "y"),
        (300 * "x." + "com", 125 * "x." + "com"),
    ):
        case(expected, "shorten", hexed(text))


# Tables.


# An entry of 25 bytes, and a table with an entry of each kind; the entry of kind PTR has 37 bytes.
FIRST = entry(A, "a.b", b"\xc0\0\2\1", b"\xc0\0\2\2", lifetime=300)
POINTS = entry(PTR, "1.2.0.192.in-addr.arpa", "a.b", lifetime=60)
EXCHANGES = entry(MX, "a.b", preferred(256, "a.b"), preferred(2, "c.d"), preferred(1, ""), lifetime=LONGEST)
EACH = b"".join(
    (
        FIRST,
        POINTS,
        EXCHANGES,
        entry(TXT, "a.b", "v=spf1 -all", "", lifetime=67305985),
        entry(AAAA, "a.b", bytes.fromhex("20010db8000000000000000000000001")),
        entry(SPF, "a.b", "v=spf1 -all", lifetime=1),
    )
)

# The entry of the reading L8, byte for byte.
L8 = bytes.fromhex("11 00 01 00 00 01 02 03 04 03 61 2e 62 04 00 01 02 03 04")


def table(expected, *parts):
    case(expected, "table", hexed(b"".join(parts)))


def find(expected, kind, name, *parts):
    case(expected, "find", kind, hexed(name), hexed(b"".join(parts)))


def numbered(kind, count):
    """Entries of different names; 512 of them have 11154 bytes."""
    return [entry(kind, f"n{number}.example", status=ABSENT) for number in range(count)]


def tables():
    heading("tables: empty; one entry of each kind")
    table("entries 0")
    table("entries 6", EACH)
    table("entries 3", entry(A, "a.b", status=FAILED), entry(A, "a.c", status=ABSENT), entry(A, "a.d"))
    heading(
        "25 (Q37): left-over byte, length beyond the end, unknown kind or status, items of a status 2 or 3 entry, upper case, trailing dot"
    )
    for malformed in (
        b"\0",
        b"\5\0\1\0",
        entry(2, "a.b"),
        entry(A, "a.b", status=1),
        entry(A, "a.b", b"\xc0\0\2\1", status=FAILED),
        entry(A, "a.b", b"\xc0\0\2\1", status=ABSENT),
        entry(A, "a.B"),
        entry(A, "a.b."),
        entry(A, ""),
    ):
        table("refused 25 25", FIRST, malformed)
    heading("25: items of the wrong form: A of 3 and 5 bytes, AAAA of 4, PTR of nothing and in upper case, text of 4,097 bytes, an item cut short")
    for malformed in (
        entry(A, "a.c", "abc"),
        entry(A, "a.c", "abcde"),
        entry(AAAA, "a.c", "abcd"),
        entry(PTR, "a.c", ""),
        entry(PTR, "a.c", "A.b"),
        entry(PTR, "a.c", "a.b."),
        entry(TXT, "a.c", 4097 * "x"),
        little(13) + entry(A, "a.b")[2:] + little(4),
    ):
        table("refused 25 25", FIRST, malformed)
    table("entries 2", FIRST, entry(TXT, "a.c", 4096 * "x"))
    heading(
        "MX items (Q14): a preference and a name or nothing; an item of 0 or 1 bytes is 25; the name in lower case without a trailing dot"
    )
    table("entries 1", entry(MX, "a.b", preferred(10, "")))
    for text in (b"", b"\1", preferred(10, "A.b"), preferred(10, "a.b.")):
        table("refused 25 0", entry(MX, "a.b", text))
    heading("MX preference (Q15): little-endian")
    case("256 612e62 2 632e64 1 - ", "mx", hexed("a.b"), hexed(FIRST + EXCHANGES))
    heading("26: the place of the second; another kind or another name is no repetition; a second that is malformed is 25")
    table("refused 26 62", FIRST, POINTS, entry(A, "a.b", status=ABSENT))
    table("entries 3", FIRST, entry(AAAA, "a.b", status=ABSENT), entry(A, "a.bb", status=ABSENT))
    table("refused 25 25", FIRST, entry(A, "a.b", b"\xc0\0\2\1", status=ABSENT))
    table("refused 26 25", FIRST, FIRST, b"\0")
    heading("512 entries are accepted; a 513th is 25 at its place, whatever it holds")
    most = b"".join(numbered(A, 512))
    table("entries 512", most)
    table("refused 25 11154", b"".join(numbered(A, 513)))
    table("refused 25 11154", most, numbered(A, 1)[0])
    table("refused 25 11154", most, b"\0")
    heading("24: 65,535 bytes are allowed, 65,536 are not, whatever they hold")
    table("refused 25 0", 65535 * b"\0")
    table("refused 24 .", 65536 * b"\0")
    heading("lookup by kind and name")
    find("0 300 c0000201 c0000202", A, "a.b", EACH)
    find("0 67305985 763d73706631202d616c6c -", TXT, "a.b", EACH)
    find("0 0 20010db8000000000000000000000001", AAAA, "a.b", EACH)
    find("missing", A, "a.c", EACH)
    find("missing", PTR, "a.b", EACH)
    find("3 7", A, "a.b", POINTS, entry(A, "a.b", status=ABSENT, lifetime=7))
    heading("lifetimes (L8): four bytes after the status, the lowest first, any for any status")
    table("entries 1", L8)
    find("0 67305985 01020304", A, "a.b", L8)
    find("0 67305985 01020304", A, "a.b", EACH[25:], L8)
    for lifetime in (0, 1, 255, 256, 65535, 65536, 16777216, 2147483647, 2147483648, LONGEST):
        find(f"0 {lifetime} 01020304", A, "a.b", entry(A, "a.b", b"\1\2\3\4", lifetime=lifetime))
        find(f"2 {lifetime}", A, "a.b", entry(A, "a.b", status=FAILED, lifetime=lifetime))
        find(f"3 {lifetime}", A, "a.b", entry(A, "a.b", status=ABSENT, lifetime=lifetime))
        table("entries 2", entry(A, "a.b", status=FAILED, lifetime=lifetime), entry(AAAA, "a.b", status=ABSENT, lifetime=lifetime))
    table("refused 26 19", L8, entry(A, "a.b", b"\1\2\3\4", lifetime=1))
    heading("25 (L8, L9): a length under 9, an entry that ends within its lifetime, a name beyond the entry's end, entries of the old layout")
    table("refused 25 0", bytes.fromhex("08 00 01 00 00 01 02 03 04 00"))
    table("refused 25 0", bytes.fromhex("08 00 01 00 00 01 02 03 04 01 61"))
    table("entries 1", bytes.fromhex("09 00 01 00 00 01 02 03 04 01 61"))
    table("refused 25 0", bytes.fromhex("0a 00 01 00 00 01 02 03 04 01 61"))
    table("refused 25 0", bytes.fromhex("09 00 01 00 00 01 02 03 04 02 61"))
    table("refused 25 0", bytes.fromhex("09 00 01 00 00 01 02 03 04 00 61"))
    table("refused 25 0", bytes.fromhex("09 00 01 00 00 01 02"))
    table("refused 25 0", bytes.fromhex("09 00 01 00 00 01 02 03 04"))
    table("refused 25 0", bytes.fromhex("05 00 01 00 00 01 61"))
    table("refused 25 0", bytes.fromhex("0d 00 01 00 00 03 61 2e 62 04 00 01 02 03 04"))
    table("entries 1", bytes.fromhex("09 00 01 00 00 00 00 00 00 01 61"))
    table("refused 25 19", L8, bytes.fromhex("08 00 01 00 03 01 02 03 04 00"))


# The vectors.


def answer_of(data):
    """What a check of a table answers."""
    found = refusal(data)
    if found is None:
        return f"entries {len(walk(data, NEW)[0])}"
    number, place = found
    return f"refused {number} {'.' if place is None else place}"


def vector_lines(path):
    lines = path.read_text(encoding="ascii").splitlines()
    need(len(lines) == VECTORS, "not", VECTORS, "vectors in", path.name)
    return [line.split(" => ") for line in lines]


def vectors(path):
    heading("outside vectors")
    for line, answer in vector_lines(path / "addresses.txt"):
        need(re.fullmatch("address [0-9a-f]+ [0-9a-f]+ [0-9]+", line) and answer in ("0", "1"), "no vector:", line)
        case(answer, line)
    for line, answer in vector_lines(path / "tables.txt"):
        word, data = line.split(" ")
        need(word == "table" and re.fullmatch(r"entries \d+|refused 24 \.|refused 2[56] \d+", answer), "no vector:", line[:80])
        old = bytes.fromhex(data.replace("-", ""))
        new = rewritten(old)
        if answer.startswith(("refused 25", "refused 26")):
            *words, place = answer.split(" ")
            answer = " ".join([*words, str(int(place) + NEW * sum(entry[0] < int(place) for entry in walk(old, OLD)[0]))])
        need(answer == answer_of(new), "another answer:", line[:80])
        case(answer, "table", hexed(new))


# Entries that are appended.


# A table of one entry of 34 bytes, and an entry of 19 that is appended to it.
RECORD = ("v=spf1 -all",)
TABLE = entry(TXT, "example.com", *RECORD)
ADDRESS = (b"\xc0\0\2\1",)


def append(expected, kind, name, items, table, room, size=None, status=0, lifetime=None):
    """An append to a table in a buffer with room for so many bytes behind it. The items are given as texts, or as bytes as they stand."""
    text = items if isinstance(items, bytes) else b"".join(map(item, items))
    words = ["append", kind, status, hexed(name), hexed(text), hexed(table + room * b"\xee"), len(table) if size is None else size]
    case(expected + " kept", *words, *([] if lifetime is None else [lifetime]))


def appended(kind, name, items, table, room, status=0, lifetime=None):
    """An append that is made: the new entry, and the rest of the room as it was."""
    new = entry(kind, name.lower(), *items, status=status, lifetime=lifetime or 0)
    need(len(new) <= room, "no room for", name)
    expected = f"appended {len(table + new)} {hexed(new + (room - len(new)) * bytes([0xEE]))}"
    append(expected, kind, name, items, table, room, status=status, lifetime=lifetime)


def refused(number, kind, name, items, table, room, size=None, status=0, place=".", lifetime=None):
    append(f"refused {number} {place}", kind, name, items, table, room, size, status, lifetime)


def appending():
    heading("appending: to an empty table, with the name in lower case, and a second and a third entry; all other bytes are kept")
    appended(TXT, "example.com", RECORD, b"", 44)
    appended(TXT, "Example.COM", RECORD, b"", 44)
    appended(A, "A.b", ADDRESS, TABLE, 24)
    appended(AAAA, "example.com", (), TABLE + entry(A, "a.b", *ADDRESS), 24, status=ABSENT)
    heading("answered with no items, failed, no such name")
    appended(MX, "a.b", (), b"", 16)
    appended(SPF, "a.b", (), b"", 16, status=FAILED)
    appended(PTR, "a.b", (), b"", 16, status=ABSENT)
    heading("a buffer that is just long enough, and one byte too short")
    appended(TXT, "example.com", RECORD, b"", 34)
    refused(65, TXT, "example.com", RECORD, b"", 33)
    appended(A, "a.b", ADDRESS, TABLE, 19)
    refused(65, A, "a.b", ADDRESS, TABLE, 18)
    refused(65, TXT, "example.com", RECORD, b"", 0)

    heading("24: a length beyond the buffer, and a table of 65,536 bytes; a refused table comes before all else")
    refused(24, A, "a.b", ADDRESS, TABLE, 15, 50)
    refused(24, A, "a.b", ADDRESS, b"", 0, 1)
    refused(24, A, "a.b", ADDRESS, TABLE, 0, MOST)
    refused(24, 2, "", b"\1", TABLE, 0, 35, status=1)
    refused(24, A, "a.b", ADDRESS, 65536 * b"\0", 0)
    refused(25, A, "a.b", ADDRESS, 65536 * b"\0", 0, 65535, place=0)
    heading(
        "25: a table that is cut short, a byte after the last entry, a malformed entry; 26: a second pair; the earlier of the two"
    )
    malformed, second = entry(A, "a.c", status=1), entry(TXT, "example.com", status=ABSENT)
    refused(25, A, "a.b", ADDRESS, TABLE, 15, 33, place=0)
    refused(25, A, "a.b", ADDRESS, TABLE, 15, 35, place=34)
    refused(25, A, "a.b", ADDRESS, TABLE + malformed, 15, place=34)
    refused(26, A, "a.b", ADDRESS, TABLE + second, 15, place=34)
    refused(26, TXT, "example.com", RECORD, TABLE + second, 99, place=34)
    refused(26, A, "a.b", ADDRESS, TABLE + second + malformed, 15, place=34)
    refused(25, A, "a.b", ADDRESS, TABLE + malformed + second, 15, place=34)
    heading(
        "64: the pair in the same case and in another, with another status, before a malformed entry and before too small a buffer;"
        " another kind or name is appended"
    )
    refused(64, TXT, "example.com", RECORD, TABLE, 40)
    refused(64, TXT, "eXaMpLe.CoM", RECORD, TABLE, 40)
    refused(64, TXT, "example.com", (), TABLE, 40, status=ABSENT)
    refused(64, TXT, "example.com", b"\1", TABLE, 40, status=1)
    refused(64, TXT, "example.com", RECORD, TABLE, 0)
    refused(64, A, "a.b", ADDRESS, TABLE + entry(A, "a.b"), 40)
    appended(SPF, "example.com", RECORD, TABLE, 40)
    appended(TXT, "xample.com", RECORD, TABLE, 40)
    appended(TXT, "example.co", RECORD, TABLE, 40)
    heading("65: a kind that is none, a status that is none, items with status 2 and 3")
    for kind in (0, 2, 13, 17, 29, 98, 100, 65535, 272):
        refused(65, kind, "example.com", (), b"", 40)
    for status, items in ((1, ()), (4, ()), (255, ()), (FAILED, RECORD), (ABSENT, RECORD), (ABSENT, ("",))):
        refused(65, TXT, "example.com", items, b"", 40, status=status)
    heading("65: items of 3, 5 and 0 bytes for A, 15 and 17 for AAAA; 4 and 16, and two items, are appended")
    ones = [n * b"\1" for n in range(18)]
    for kind, size in ((A, 3), (A, 5), (A, 0), (AAAA, 15), (AAAA, 17), (AAAA, 4)):
        refused(65, kind, "a.b", (ones[size],), b"", 40)
    appended(A, "a.b", (ones[4],), b"", 40)
    appended(AAAA, "a.b", (ones[16],), b"", 40)
    appended(A, "a.b", (*ADDRESS, ones[4]), b"", 40)
    refused(65, A, "a.b", (*ADDRESS, ones[3]), b"", 40)
    heading(
        "65: a PTR item that is no name, in upper case or with a trailing dot, an MX item of 1 byte or with such a name;"
        " items' names stand as they are given"
    )
    for text in ("", "C.d", "c.d."):
        refused(65, PTR, "a.b", (text,), b"", 40)
    for text in (b"", b"\n", preferred(10, "C.d"), preferred(10, "c.d.")):
        refused(65, MX, "a.b", (text,), b"", 40)
    appended(PTR, "a.b", ("c.d",), b"", 40)
    appended(MX, "a.b", (preferred(10, "c.d"), preferred(0, "")), b"", 40)
    heading(
        "65: items that end within a length, within an item, and one byte after it; a text of 4,097 bytes; 4,096 are appended"
    )
    for text in (b"\1", b"\2\0x", b"\1\0x\0"):
        refused(65, TXT, "a.b", text, b"", 40)
    refused(65, TXT, "a.b", (4097 * "x",), b"", 4200)
    appended(TXT, "a.b", (4096 * "x",), b"", 4114)
    heading("65: a name with a trailing dot, none, with an empty label, a space, a byte over 126")
    for name in ("a.b.", "", ".", "a..b", ".a.b", "a b.c", b"a\x7f.b", b"\xc1.b"):
        refused(65, A, name, ADDRESS, b"", 40)
    heading("65: a label of 64 bytes, names of 254 to 259 bytes; 63 and 253 are appended, in lower case")
    upper = LABELS.upper()
    appended(A, 63 * "X", (), b"", 80)
    refused(65, A, 64 * "X", (), b"", 80)
    appended(A, upper + 61 * "y", (), b"", 269)
    for end in (62 * "y", 62 * "X" + "y", 63 * "X" + "y", 63 * "X" + ".y", 63 * "X" + ".XXy"):
        refused(65, A, upper + end, (), b"", 300)
    heading("a 512th entry, and a 513th")
    appended(TXT, "last.example", (), b"".join(numbered(TXT, 511)), 24, status=ABSENT)
    refused(65, TXT, "last.example", (), b"".join(numbered(TXT, 512)), 24, status=ABSENT)
    refused(64, TXT, "N511.example", (), b"".join(numbered(TXT, 512)), 24, status=ABSENT)
    heading("a table of 65,535 bytes, and of 65,536; items of 65,536 bytes")
    large = b"".join(entry(TXT, "a." + letter, 4096 * "x") for letter in "abcdefghijklmno")
    need(len(large) == 61665, "another table")
    appended(TXT, "a.z", (3855 * "y",), large, 3875)
    refused(65, TXT, "a.z", (3856 * "y",), large, 3875)
    refused(65, TXT, "a.z", 16 * (4094 * "x",), b"", 300)
    heading("lifetimes (L8): the entry as it stands there; any lifetime with any status; the pair is in the table whatever the lifetimes")
    append(f"appended 19 {hexed(L8)}ee", A, "a.b", (b"\1\2\3\4",), b"", 20, lifetime=67305985)
    append(f"appended 19 {hexed(L8)}ee", A, "A.B", (b"\1\2\3\4",), b"", 20, lifetime=67305985)
    append(f"appended 53 {hexed(L8)}ee", A, "a.b", (b"\1\2\3\4",), TABLE, 20, lifetime=67305985)
    append("appended 13 0b000100020000000003612e62ee", A, "a.b", (), b"", 14, status=FAILED, lifetime=0)
    append("appended 13 0b00010002ffffffff03612e62ee", A, "a.b", (), b"", 14, status=FAILED, lifetime=LONGEST)
    append("appended 13 0b00010003ffffffff03612e62ee", A, "a.b", (), b"", 14, status=ABSENT, lifetime=LONGEST)
    append("appended 13 0b00010000ffffffff03612e62ee", A, "a.b", (), b"", 14, lifetime=LONGEST)
    append("appended 13 0b00010000ff00000003612e62ee", A, "a.b", (), b"", 14, lifetime=255)
    append("appended 13 0b000100000001000003612e62ee", A, "a.b", (), b"", 14, lifetime=256)
    append("appended 13 0b000100000000010003612e62ee", A, "a.b", (), b"", 14, lifetime=65536)
    append("appended 13 0b000100000000000103612e62ee", A, "a.b", (), b"", 14, lifetime=16777216)
    append("appended 13 0b000100000000008003612e62ee", A, "a.b", (), b"", 14, lifetime=2147483648)
    refused(64, A, "a.b", (b"\1\2\3\4",), L8, 40, lifetime=67305985)
    refused(64, A, "a.b", (b"\1\2\3\4",), L8, 40, lifetime=1)
    refused(65, A, "a.b", (b"\1\2\3\4",), b"", 18, lifetime=67305985)
    refused(25, A, "a.b", ADDRESS, bytes.fromhex("08 00 01 00 00 01 02 03 04 00"), 40, lifetime=1, place=0)
    refused(25, A, "a.b", ADDRESS, bytes.fromhex("05 00 01 00 00 01 61"), 40, lifetime=1, place=0)


def main(path):
    addresses()
    names()
    tables()
    vectors(path)
    appending()
    need(all(line.isascii() and len(line) < LINE for line in given), "a line is too long or not ASCII")
    store(CRATE, given, printed)
    print(sum(not line.startswith("#") for line in given), "cases")


if __name__ == "__main__":
    need(len(sys.argv) == 2, __doc__)
    main(pathlib.Path(sys.argv[1]))
