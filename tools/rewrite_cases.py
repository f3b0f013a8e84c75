#!/usr/bin/env python3
"""The cases of the program rewrite_cases: the vectors for the rewriting program of the change request W-209, and the inputs of its readings L9 to L11.

    python3 tools/rewrite_cases.py PATH/vectors-02

reads rewrite-w209.txt there, and writes crates/rewrite_cases/stdin, the cases, and crates/rewrite_cases/stdout, what the program must print; and in
crates/add_lifetimes the example of the program that rewrites a table. The answers to the vectors are the vectors' own. Those to the inputs of the readings
stand beside them here; they were written by hand from the change request and the readings. None was taken from what a program printed. The gate doesn't
run this script.
"""

import pathlib
import sys

sys.dont_write_bytecode = True

from scope_cases import CRATES, need, store

# The number of vectors.
VECTORS = 80

# The lengths of the program's buffers for a line and for a table.
LINE, TABLE = 140000, 66000

given, printed = [], []


def heading(text):
    given.append("# " + text)
    printed.append("# " + text)


def hexed(data):
    return data.hex() or "-"


def case(words, expected):
    line = " ".join(words)
    need(len(line) < LINE and len(words[1]) <= 2 * TABLE, "too long")
    given.append(line)
    printed.append(expected)


def program(old, expected):
    """What the program prints: the bytes of the new table, or a refusal's line."""
    case(["program", hexed(old)], hexed(expected))


def call(old, room, expected):
    case(["call", hexed(old), str(room)], expected)


def both(old, new):
    """A table that is rewritten: by the program, and into a buffer of just its length, of one more and of one less."""
    program(old, new)
    call(old, len(new), "ok " + hexed(new))
    call(old, len(new) + 1, "ok " + hexed(new))
    if new:
        call(old, len(new) - 1, "refused 24 .")


def refused(old, number, place):
    program(old, f"refused {number} at {place}\n".encode("ascii"))
    call(old, 65535, f"refused {number} {'.' if number == 24 else place}")


def two(n):
    return n.to_bytes(2, "little")


def old_entry(kind, status, name, items=b""):
    body = two(kind) + bytes([status, len(name)]) + name + items
    return two(len(body)) + body


def new_entry(kind, status, name, items=b""):
    body = two(kind) + bytes([status, 0, 0, 0, 0, len(name)]) + name + items
    return two(len(body)) + body


def item(data):
    return two(len(data)) + data


def vectors(path):
    lines = path.read_text(encoding="ascii").splitlines()
    need(len(lines) == VECTORS, "not", VECTORS, "vectors in", path.name)
    heading(path.name)
    for line in lines:
        question, answer = line.split(" => ")
        word, old = question.split(" ")
        need(word == "rewrite", "no rewriting:", word)
        case(["program", old], answer)


def readings():
    heading("L9: all bytes of the input, and no newline added")
    both(b"", b"")
    both(bytes.fromhex("05000100000161"), bytes.fromhex("0900010000000000000161"))
    # the last byte of the table is 10
    both(old_entry(16, 0, b"a.b", item(b"x\n")), new_entry(16, 0, b"a.b", item(b"x\n")))
    # a newline behind the table is a byte too few for an entry
    refused(old_entry(1, 0, b"a") + b"\n", 25, 7)
    both(
        old_entry(1, 0, b"a.b", item(bytes([1, 2, 3, 4]))) + old_entry(99, 3, b"a.b") + old_entry(28, 2, b"a.b"),
        new_entry(1, 0, b"a.b", item(bytes([1, 2, 3, 4]))) + new_entry(99, 3, b"a.b") + new_entry(28, 2, b"a.b"),
    )

    heading("L10: 24, then 25 or 26 with the place in the old table, then 24 for the new one")
    # one TXT entry of the name a: 7 bytes before its items, and items of 2 bytes and a text of at most 4,096
    def filled(length):
        left, items = length - 7, b""
        while left:
            # a rest of one byte would be no item
            take = min(left, 4098)
            if left - take == 1:
                take -= 1
            items += item(b"y" * (take - 2))
            left -= take
        return items

    items = filled(65531)
    need(len(old_entry(16, 0, b"a", items)) == 65531, "not that long")
    both(old_entry(16, 0, b"a", items), new_entry(16, 0, b"a", items))
    refused(old_entry(16, 0, b"a", filled(65532)), 24, 0)
    program(old_entry(16, 0, b"a", filled(65535)), b"refused 24 at 0\n")
    # over 65,535 bytes: 24 before all else
    program(b"\xff" * 65536, b"refused 24 at 0\n")
    # of 65,535 bytes whose first entry is malformed
    program(bytes([3, 0]) + bytes(65533), b"refused 25 at 0\n")
    # 512 entries, and a 513th
    many = [b"n%d" % i for i in range(513)]
    both(b"".join(old_entry(1, 3, n) for n in many[:512]), b"".join(new_entry(1, 3, n) for n in many[:512]))
    refused(b"".join(old_entry(1, 3, n) for n in many), 25, sum(len(old_entry(1, 3, n)) for n in many[:512]))
    # a pair seen before, and a malformed entry behind it
    refused(old_entry(1, 3, b"a.b") + old_entry(1, 0, b"a.b"), 26, 9)
    refused(old_entry(1, 3, b"a.b") + old_entry(1, 0, b"a.b") + b"\x01", 26, 9)
    refused(old_entry(1, 3, b"a.b") + old_entry(1, 1, b"a.b"), 25, 9)

    heading("L11: the old layout alone; and a lent buffer that is too small")
    # a table of the new layout is malformed as an old one
    refused(bytes.fromhex("110001000001020304") + b"\x03a.b" + item(bytes([1, 2, 3, 4])), 25, 0)
    call(old_entry(1, 0, b"a"), 0, "refused 24 .")
    call(old_entry(1, 0, b"a"), 7, "refused 24 .")
    # 25 and 26 come before the buffer's 24
    call(old_entry(1, 1, b"a"), 0, "refused 25 0")
    call(old_entry(1, 3, b"a.b") + old_entry(1, 0, b"a.b"), 0, "refused 26 9")


def example():
    """The example of the program: an answer without items, of the name `a`."""
    (CRATES / "add_lifetimes" / "stdin").write_bytes(old_entry(1, 0, b"a"))
    (CRATES / "add_lifetimes" / "stdout").write_bytes(new_entry(1, 0, b"a"))


def main():
    need(len(sys.argv) == 2, __doc__)
    vectors(pathlib.Path(sys.argv[1]) / "rewrite-w209.txt")
    readings()
    store(CRATES / "rewrite_cases", given, printed)
    example()


main()
