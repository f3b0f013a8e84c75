#!/usr/bin/env python3
"""Counts the places that docs/DESIGN-PASS.md speaks of, point by point, in the code of crates/*/src: design_places.py [POINT] [DIR]

Without POINT it prints a count for each point, with POINT also each place. It reads text, so a row is a place to look; the page says of each that is
left why it is."""
import os
import re
import sys

FAILURES = (r"Refused|RefusedAt|TooLong|Malformed|Outside|Bad|Broken|Missing|Absent|Unfit|End|Failed|Wanting|"
            r"Nowhere|Nothing|Unmet|Unknown|Nobody|Stop|No[A-Z]\w*")


def sources(top):
    for folder, _, files in sorted(os.walk(os.path.join(top, "crates"))):
        if f"{os.sep}src" in folder:
            for file in sorted(files):
                if file.endswith(".rt"):
                    path = os.path.join(folder, file)
                    with open(path, encoding="utf-8") as f:
                        yield os.path.relpath(path, top), f.read()


def line_of(text, place):
    return text.count("\n", 0, place) + 1


def functions(text):
    """Each function: its place, name, parameters, result, clauses and body."""
    for m in re.finditer(r"(?m)^( *)(?:pub )?(?:extern \"C\" )?fn (\w+)(?:<[^>]*>)?\(", text):
        depth, i = 1, m.end()
        while depth:
            depth += {"(": 1, ")": -1}.get(text[i], 0)
            i += 1
        indent = m.group(1)
        open_ = re.compile(rf"(?m)(^{indent}\{{$| \{{$)").search(text, i)
        if not open_:
            continue
        head = text[i:open_.start()]
        close = text.find(f"\n{indent}}}", open_.end())
        yield m.start(), m.group(2), text[m.end():i - 1], head, text[open_.end():close]


def enums(text):
    for m in re.finditer(r"(?m)^(?:pub )?enum (\w+)(?:<[^>]*>)? \{\n((?:.*\n)*?)\}", text):
        body = re.sub(r"//[^\n]*", "", m.group(2))
        flat = re.sub(r"\{[^{}]*\}", "{}", body)
        variants = re.findall(r"(?m)^    (\w+)(\(|\s*\{)?", flat)
        yield m.start(), m.group(1), variants


def point1(path, text):
    """Enums shaped like Option or Result; functions that answer a number of a refusal, a kind or a result; fields of such numbers."""
    for place, name, variants in enums(text):
        empty = [v for v, payload in variants if not payload]
        full = [v for v, payload in variants if payload]
        failing = [v for v, _ in variants if re.fullmatch(FAILURES, v)]
        if len(variants) == 2 and len(empty) == 1 and len(full) == 1:
            yield place, f"enum {name} is shaped like Option"
        elif failing and full and len(failing) < len(variants) and not name.endswith("Error") and name != "Refusal":
            yield place, f"enum {name} has {', '.join(failing)} beside answers"
    for m in re.finditer(r"(?m)^ +(?:pub )?(number|sign|value|status|kind|res|rule|state|result): (?:u8|u16),$|\b(Refused|Ends|Result|Matches|Of)\(u8\)", text):
        yield m.start(), f"a number for {m.group(1) or m.group(2)}"
    for place, name, _, head, _ in functions(text):
        if re.search(r"-> u8\b", head) and re.search(r"number|refus|kind|sign|state|result|verdict", name):
            yield place, f"fn {name} answers a number"


WORD = re.compile(r"'(?:\\.|[^'])*'|\"(?:\\.|[^\"])*\"|[^\W\d]\w*|\d+")
KEPT = set("if else while for in return let mut match Some None Ok Err".split())


def shape(body):
    """A body with its names, numbers and texts folded."""
    return WORD.sub(lambda m: m.group(0) if m.group(0) in KEPT else "x", " ".join(body.split()))


def point2(files):
    """Functions whose bodies differ only in names, numbers and texts, a row for each but the first: bodies of two lines or more."""
    first = {}
    for path, text in files:
        for place, name, params, head, body in functions(text):
            if body.strip().count("\n") >= 1:
                key = shape(body)
                if key in first:
                    yield path, line_of(text, place), f"fn {name} has the shape of {first[key]}"
                else:
                    first[key] = f"{name} in {path}"


def point8(top):
    """The proofs: lines, and answers to goals."""
    lines = answers = 0
    for folder, _, files in os.walk(os.path.join(top, "crates")):
        if f"{os.sep}proofs" in folder and f"{os.sep}out{os.sep}" not in folder:
            for file in files:
                if file.endswith(".antt"):
                    with open(os.path.join(folder, file), encoding="utf-8") as f:
                        text = f.read()
                    lines += text.count("\n")
                    answers += len(re.findall(r"(?m)^(?:pub |abbrev pub )?[^\s:]+ : goal\.", text))
    return lines, answers


def point3(path, text):
    """Loops that count an index or a place by hand."""
    for m in re.finditer(r"(?m)^ +(while\b.*|loop \{)$", text):
        yield m.start(), m.group(1)


def point4(path, text):
    """Equality, order, copying, conversion and tests written by hand."""
    for place, name, params, head, body in functions(text):
        if re.fullmatch(r"equal|equals|is_same|same_\w+|precedes|copy|wide|both|either|differ|word", name):
            yield place, f"fn {name}"
        elif re.search(r"-> bool\b", head) and re.search(r"return (true|false);", body) and "while " not in body:
            yield place, f"fn {name} returns true or false by hand"
    for m in re.finditer(r"\b\w+: _\b", text):
        yield m.start(), "a field named only to be passed over"


def point5(path, text):
    """Parameters that travel together."""
    for place, name, params, head, body in functions(text):
        names = re.findall(r"(\w+):", params)
        for group in (("sender", "helo", "receiver"), ("counts", "life"), ("kinds", "highs", "lows"), ("kind", "status", "lifetime"),
                      ("s", "l", "o", "d"), ("delimiters", "escape"), ("from", "to"), ("start", "end"), ("place", "size")):
            if all(g in names for g in group):
                yield place, f"fn {name} takes {', '.join(group)}"


def point6(path, text):
    """A lent buffer with a place or a length beside it; pairs of places; parallel arrays."""
    for place, name, params, head, body in functions(text):
        if re.search(r"&mut \[u8\]", params) and re.search(r"\bat: usize", params) and re.search(r"-> usize", head):
            yield place, f"fn {name} takes a buffer and a place, and answers a place"
    for m in re.finditer(r"(?m)^ +(?:pub )?(from|start): usize,\n +(?:pub )?(to|end): usize,", text):
        yield m.start(), f"fields {m.group(1)} and {m.group(2)}"


def point7(path, text):
    """A value that says which function to run."""
    for place, name, params, head, body in functions(text):
        m = re.match(r"\s*match (\w+) \{", body)
        if m and re.search(rf"\b{m.group(1)}: (Parts|Question|Class)\b", params):
            yield place, f"fn {name} picks by {m.group(1)}"


POINTS = {1: point1, 2: point2, 3: point3, 4: point4, 5: point5, 6: point6, 7: point7}


def main():
    args = sys.argv[1:]
    wanted = int(args.pop(0)) if args and args[0].isdigit() else None
    top = args[0] if args else "."
    for point, find in POINTS.items():
        if wanted in (None, point):
            if point == 2:
                places = list(point2(sources(top)))
            else:
                places = [(path, line_of(text, place), what) for path, text in sources(top) for place, what in find(path, text)]
            print(f"point {point}: {len(places)}")
            if wanted:
                for path, line, what in places:
                    print(f"{path}:{line}: {what}")
    if wanted in (None, 8):
        print("point 8: {} lines of proofs, {} answers to goals".format(*point8(top)))


main()
