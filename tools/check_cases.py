#!/usr/bin/env python3
"""The cases of the program check_cases: outside vectors for whole inputs of the check program.

    python3 tools/check_cases.py PATH/vectors PATH/vectors-02

reads checks.txt in the first folder, and checks-w207.txt, checks-w204.txt and checks-w209.txt in the second; it writes crates/check_cases/stdin, the inputs,
and crates/check_cases/stdout, what the program must print. The answers are the vectors' own; none was taken from what a program printed. The gate doesn't run
this script.

- Older vectors stay if no later request amends what they may have been answered by: those of the house rules without an entry of kind 99 (W-207), and of
  these and W-207's those whose table is refused or has no void address entry for a host of its MX items or a name of its PTR items (W-204). W-203's give
  way to W-209's, which have the same rules and W-209's.
- Their tables are rewritten with a lifetime of 0, so that the answer's lifetime is 0; a place in the table moves by 4 bytes for each entry before it. A table
  that was refused is rewritten as far as its entries are whole. One that was filled up to 65,535 bytes gives up some of its filling, so that it has as many
  again. Every table is then refused as before, at the moved place, or accepted as before; the script ends if one isn't.
"""

import pathlib
import sys

sys.dont_write_bytecode = True

from scope_cases import CRATES, need, stated, table_in
from table_layouts import ADDRESS_BYTES, KINDS, MOST_BYTES, NEW, OLD, little, refusal, rewritten, walk

CRATE = CRATES / "check_cases"

# The answers that don't depend on the table: no readable client or t, and refusals that come before those of the table.
BEFORE_TABLE = ("input", "20", "21", "22", "23")


def vectors(path, level, count):
    """The inputs of a file, and their answers."""
    lines = path.read_text(encoding="ascii").splitlines()
    need(len(lines) == count, "not", count, "vectors in", path.name)
    cases = []
    for line in lines:
        (*words, text), (answer,) = (part.split(" ") for part in line.split(" => "))
        need(words == ["check", *level], "no vector:", line[:80])
        cases.append((bytes.fromhex(text.strip("-")), bytes.fromhex(answer)))
    return cases


def old_entries(table):
    return walk(table, OLD)[0]


def has_kind_99(table):
    return any(kind == KINDS["SPF"] for _, kind, _, _, _ in old_entries(table))


def has_void_host(table):
    """Whether a host of the MX items or a name of the PTR items has a void address entry, in a table that is accepted."""
    entries = old_entries(table) if refusal(table, OLD) is None else []
    hosts = {item[2:] for _, kind, _, _, items in entries if kind == KINDS["MX"] for item in items}
    names = {item for _, kind, _, _, items in entries if kind == KINDS["PTR"] for item in items}
    void = {name for _, kind, status, name, items in entries if kind in ADDRESS_BYTES and status != 2 and not items}
    return bool(void & (hosts | names))


def fitted(table):
    """An old table that leaves room for the lifetimes: a full one has filling in its last entry, a text of `y` that no question asks for."""
    entries = old_entries(table)
    over = len(table) + NEW * len(entries) - MOST_BYTES
    if over <= 0 or refusal(table, OLD) is not None:
        return table
    place, _, _, name, (filling,) = entries[-1]
    need(set(filling) == {ord("y")} and table.count(name) == 1 and over < len(filling), "a full table without filling")
    head = table[place + 2 : len(table) - len(filling) - 2]
    return table[:place] + little(len(table) - over - place - 2) + head + little(len(filling) - over) + filling[over:]


def moved(number, where, table):
    """The second field of an answer about an old table, for the new one."""
    if number not in ("25", "26"):
        return where
    return str(int(where) + NEW * sum(place < int(where) for place, *_ in old_entries(table)))


def renewed(text, answer):
    """An older vector in the new layout."""
    table = table_in(text)
    first, _, rest = answer.decode("ascii").partition("\n")
    number, *others = first.split(" ")
    new = rewritten(fitted(table))
    given = text[: len(text) - len(table)] + new
    if number == "input":
        return given, answer
    where, *counts = others
    need(len(counts) == 2, "no older answer:", first)
    line = " ".join([number, moved(number, where, table), *counts, "0"])
    if number not in BEFORE_TABLE:
        need(refusal(table, OLD) == stated(number, where), "a vector's table is refused otherwise:", first)
        need(refusal(new) == stated(number, moved(number, where, table)), "a rewritten table is refused otherwise:", first)
    return given, (line + "\n" + rest).encode("ascii")


def own(text, answer):
    """A vector of W-209; its table is held against the layout."""
    number, *others = answer.decode("ascii").partition("\n")[0].split(" ")
    need(number == "input" or len(others) == 4, "no answer of W-209:", number, *others)
    need(number in BEFORE_TABLE or refusal(table_in(text)) == stated(number, others[0]), "a vector's table is refused otherwise:", number, *others)
    return text, answer


def main(vectors_path, vectors_02_path):
    house = [case for case in vectors(vectors_path / "checks.txt", [], 500) if not has_kind_99(table_in(case[0]))]
    retired = vectors(vectors_02_path / "checks-w207.txt", ["W-207"], 700)
    older = [case for case in house + retired if not has_void_host(table_in(case[0]))]
    older += vectors(vectors_02_path / "checks-w204.txt", ["W-204"], 700)
    cases = [renewed(*case) for case in older] + [own(*case) for case in vectors(vectors_02_path / "checks-w209.txt", ["W-209"], 700)]
    (CRATE / "stdin").write_text("".join(text.hex() + "\n" for text, _ in cases), encoding="ascii")
    (CRATE / "stdout").write_bytes(b"".join(answer for _, answer in cases))
    print(len(cases), "cases,", len(older), "of them older ones")


if __name__ == "__main__":
    need(len(sys.argv) == 3, __doc__)
    main(*map(pathlib.Path, sys.argv[1:]))
