"""Answer tables as bytes, for the scripts that make cases: which are refused and where, and an old table in the layout of W-209. Written from the scope paper's
section "The answer table" and the change request W-209, apart from the crates; the stored cases are held against it.

A layout is the number of bytes of an entry's lifetime, which stand after its status: none before W-209.
"""

OLD, NEW = 0, 4

# The DNS types asked, by name.
KINDS = {"A": 1, "PTR": 12, "MX": 15, "TXT": 16, "AAAA": 28, "SPF": 99}
ADDRESS_BYTES = {1: 4, 28: 16}

MOST_BYTES, MOST_ENTRIES, MOST_NAME, MOST_LABEL, MOST_TEXT = 65535, 512, 253, 63, 4096


def little(number, size=2):
    return number.to_bytes(size, "little")


def number_at(table, place):
    return int.from_bytes(table[place : place + 2], "little")


def is_name(name):
    """A name as it stands in a table, where no letter is upper case."""
    labels = name.split(b".")
    fits = 1 <= len(name) <= MOST_NAME and all(1 <= len(label) <= MOST_LABEL for label in labels)
    return fits and all(33 <= byte <= 126 and not 65 <= byte <= 90 for byte in name)


def is_item(kind, item):
    if kind in ADDRESS_BYTES:
        return len(item) == ADDRESS_BYTES[kind]
    if kind == KINDS["PTR"]:
        return is_name(item)
    if kind == KINDS["MX"]:
        return len(item) == 2 or len(item) > 2 and is_name(item[2:])
    return len(item) <= MOST_TEXT


def items_of(listed):
    """The items that stand in these bytes, or None where the last one goes beyond them."""
    items = []
    while listed:
        end = 2 + number_at(listed, 0)
        if len(listed) < max(2, end):
            return None
        items.append(listed[2:end])
        listed = listed[end:]
    return items


def piece_at(table, place):
    """The place after the piece of a table that its first two bytes say, or None where the table ends before it."""
    end = place + 2 + number_at(table, place)
    return end if place + 2 <= len(table) and end <= len(table) else None


def entry_of(piece, layout):
    """Kind, status, name and items of a well-formed entry, or None."""
    name_at = 2 + 2 + 1 + layout + 1
    if len(piece) < name_at:
        return None
    kind, status, after = number_at(piece, 2), piece[4], name_at + piece[name_at - 1]
    name, items = piece[name_at:after], items_of(piece[after:])
    if kind not in KINDS.values() or status not in (0, 2, 3) or len(piece) < after or not is_name(name):
        return None
    if items is None or items and status != 0 or not all(is_item(kind, item) for item in items):
        return None
    return kind, status, name, items


def walk(table, layout):
    """The well-formed entries of a table with their places, up to one that is refused for itself or is the 513th; and that one's place, or None."""
    entries, place = [], 0
    while place < len(table):
        end = piece_at(table, place)
        entry = None if end is None or len(entries) == MOST_ENTRIES else entry_of(table[place:end], layout)
        if entry is None:
            return entries, place
        entries.append((place, *entry))
        place = end
    return entries, None


def refusal(table, layout=NEW):
    """24, 25 or 26 with its place (none for 24), or None for a table that is accepted."""
    if len(table) > MOST_BYTES:
        return 24, None
    entries, bad = walk(table, layout)
    seen = set()
    for place, kind, _, name, _ in entries:
        if (kind, name) in seen:
            return 26, place
        seen.add((kind, name))
    return None if bad is None else (25, bad)


def rewritten(table):
    """An old table with a lifetime of 0 in each whole piece that has room for kind and status, well-formed or not; what follows the last of these stays."""
    new, place = b"", 0
    while place < len(table):
        end = piece_at(table, place)
        if end is None or end < place + 5 or end - place - 2 + NEW > 65535:
            break
        new += little(end - place - 2 + NEW) + table[place + 2 : place + 5] + bytes(NEW) + table[place + 5 : end]
        place = end
    return new + table[place:]
