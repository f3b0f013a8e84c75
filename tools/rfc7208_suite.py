#!/usr/bin/env python3
"""Turns the RFC 7208 test suite into the data of the program rfc7208_suite.

    python3 tools/rfc7208_suite.py PATH/rfc7208-tests.yml

writes crates/rfc7208_suite/stdin, the zones and the cases, and crates/rfc7208_suite/stdout, what the program must print. The expected lines come from the
YAML, but for the cases of DIFFERS and CHOICES below. Needs PyYAML (Debian's python3-yaml). The gate doesn't run this script.
"""

import ipaddress
import pathlib
import sys

import yaml

CRATE = pathlib.Path(__file__).resolve().parent.parent / "crates" / "rfc7208_suite"
CASES = 203
HEADING = "# The openspf.org test suite for RFC 7208, release 2014.04; its licence stands in LICENSE"

# The lengths of the program's buffers.
LINE, ZONE, ENTRY, TEXT = 1024, 12288, 512, 512

# The cases that the house rules decide otherwise than the suite, as they are printed after their names. docs/SUITE.md says more on each.
DIFFERS = {
    # "A name is 1 to 253 bytes, labels of 1 to 63 bytes joined by dots, each byte 33 to 126", and "A malformed target of a, mx, ptr or exists doesn't
    # match": the target has two spaces.
    "macro-mania-in-domain": "fail",
    # "i address (32 dotted lower-case hex digits for IPv6)" and "c address (IPv6 as eight lower-case hex groups, no leading zeros, no `::`)".
    "v-macro-ip6": "fail cafe:babe:0:0:0:0:0:1 is queried as"
    " 1.0.0.0.0.0.0.0.0.0.0.0.0.0.0.0.0.0.0.0.0.0.0.0.e.b.a.b.e.f.a.c.ip6.arpa",
    # "21: HELO or receiver over 255 bytes, or a byte outside 33 to 126": HELO has a space.
    "invalid-hello-macro": "refused 21",
}

# The cases for which the suite allows several results: the one that the house rules decide.
CHOICES = {
    # "Of the texts with a version section: none gives none, several permerror".
    "multispf1": "permerror",
    # "A malformed target of a, mx, ptr or exists doesn't match, counts its term and asks nothing of its own".
    "invalid-domain-empty-label": "fail",
    "invalid-domain-long": "fail",
    "invalid-domain-long-via-macro": "fail",
    # "among those validated (see ptr), the current domain if there, else the first below it".
    "p-macro-multiple": "pass",
    # "the first 10 names, asked in order until one matches".
    "ptr-limit": "neutral",
}

KINDS = {"A": 1, "PTR": 12, "MX": 15, "TXT": 16, "AAAA": 28}
ANSWERED, FAILED, NO_SUCH_NAME = 0, 2, 3
# The suite names no lifetimes: every entry has this one, in seconds.
LIFETIME = 300
RESULTS = ["none", "neutral", "pass", "fail", "softfail", "temperror", "permerror"]
CASE_KEYS = {"description", "comment", "spec", "strict", "helo", "host", "mailfrom", "result", "explanation"}


def need(condition, *why):
    if not condition:
        sys.exit(" ".join(map(str, why)))


def hexed(data):
    return data.hex() or "-"


def little(number):
    return number.to_bytes(2, "little")


# Names.


def name_of(text):
    """A name as it stands in a table: no trailing dot, in lower case."""
    return text.removesuffix(".").lower()


def is_name(text):
    labels = text.split(".")
    return len(text) <= 253 and all(1 <= len(label) <= 63 for label in labels) and all(33 <= ord(c) <= 126 for c in text)


def named(text):
    """The bytes of a name in an item."""
    name = name_of(text)
    need(is_name(name), "no name:", repr(text))
    return name.encode()


# Rows of a zone.


def item_of(kind, value):
    """A row's value as an item."""
    if kind == "A":
        return ipaddress.IPv4Address(value).packed
    if kind == "AAAA":
        return ipaddress.IPv6Address(value).packed
    if kind == "PTR":
        return named(value)
    if kind == "MX":
        preference, host = value
        return little(preference) + (named(host) if name_of(host) else b"")
    need(kind == "TXT", "unknown type", kind)
    return "".join([value] if isinstance(value, str) else value).encode()


class Name:
    """What the zone has under a name."""

    def __init__(self, rows):
        self.items = {kind: [] for kind in KINDS}
        self.timeout = "TIMEOUT" in rows
        self.alias = None
        pairs = [pair for row in rows if row != "TIMEOUT" for pair in row.items()]
        # A row of type SPF serves as TXT too, unless there is a TXT row, be it only NONE.
        has_txt = any(kind == "TXT" for kind, _ in pairs)
        for kind, value in pairs:
            if kind == "CNAME":
                need(len(rows) == 1, "CNAME beside other rows")
                self.alias = name_of(value)
                continue
            if kind == "SPF":
                if has_txt:
                    continue
                kind = "TXT"
            if value != "NONE":
                self.items[kind].append(item_of(kind, value))


def answer(zone, name, kind, seen=()):
    """Status and items of the zone's answer. An alias is followed; a loop of aliases fails."""
    if name in seen:
        return FAILED, []
    if name not in zone:
        return NO_SUCH_NAME, []
    here = zone[name]
    if here.alias is not None:
        return answer(zone, here.alias, kind, (*seen, name))
    if here.timeout and not here.items[kind]:
        return FAILED, []
    return ANSWERED, here.items[kind]


def entry(zone, name, kind):
    """The answer as an entry of a table."""
    status, items = answer(zone, name, kind)
    body = little(KINDS[kind]) + bytes([status]) + LIFETIME.to_bytes(4, "little") + bytes([len(name)]) + name.encode()
    body += b"".join(little(len(item)) + item for item in items)
    need(all(len(item) <= 4096 for item in items), "an item over 4,096 bytes")
    return little(len(body)) + body


def zone_lines(zonedata):
    zone = {name_of(text): Name(rows) for text, rows in zonedata.items()}
    need(len(zone) == len(zonedata), "two names that differ in case only")
    for name in zone:
        if not is_name(name):
            print("left out, since no table can hold it:", repr(name))
    rows = [(name, kind, entry(zone, name, kind)) for name in zone if is_name(name) for kind in KINDS]
    need(all(len(data) <= ENTRY for _, _, data in rows), "an entry is too long")
    need(sum(len(data) for _, _, data in rows) <= ZONE, "the zone is too long")
    return ["zone"] + [f"entry {name} {kind} {hexed(data)}" for name, kind, data in rows]


# Cases.


def case_line(name, case):
    need(set(case) <= CASE_KEYS, name, "has unknown keys")
    helo = case["helo"]
    sender = case["mailfrom"] or "postmaster@" + helo
    domain = sender.rpartition("@")[2] if case["mailfrom"] else helo
    parts = [ipaddress.ip_address(case["host"]).packed, domain.encode(), sender.encode(), helo.encode()]
    need(all(len(part) <= TEXT for part in parts), name, "is too long")
    return " ".join(["case", name, *map(hexed, parts)])


def expected(name, case):
    """The line that the program must print."""
    result, text = case["result"], case.get("explanation", "DEFAULT")
    if name in CHOICES:
        need(isinstance(result, list) and CHOICES[name] in result, "the suite doesn't allow", CHOICES[name], "for", name)
        result = CHOICES[name]
    need(result in RESULTS, "no single result:", name)
    need(text == "DEFAULT" or result == "fail", "a text without a fail:", name)
    line = result if text == "DEFAULT" else result + " " + text
    if name in DIFFERS:
        need(line != DIFFERS[name], "the house rules and the suite agree on", name)
        line = DIFFERS[name]
    return name + " " + line


def main(path):
    sections = list(yaml.safe_load_all(pathlib.Path(path).read_text(encoding="utf-8")))
    given, printed, names = [HEADING], [HEADING], []
    for section in sections:
        heading = "# " + section["description"]
        given += [heading, *zone_lines(section["zonedata"])]
        printed.append(heading)
        for name, case in section["tests"].items():
            names.append(name)
            given.append(case_line(name, case))
            printed.append(expected(name, case))
    need(len(names) == len(set(names)) == CASES, "not", CASES, "cases with names of their own")
    need(set(DIFFERS) | set(CHOICES) <= set(names), "a case that the suite lacks")
    need(all(line.isascii() and len(line) <= LINE for line in given + printed), "a line is too long or not ASCII")
    (CRATE / "stdin").write_text("\n".join(given) + "\n", encoding="ascii")
    (CRATE / "stdout").write_text("\n".join(printed) + "\n", encoding="ascii")
    print(len(names), "cases")


if __name__ == "__main__":
    need(len(sys.argv) == 2, __doc__)
    main(sys.argv[1])
