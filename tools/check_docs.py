#!/usr/bin/env python3
"""Checks the documents: links, the names that docs/RULES.md points at, and the length of lines.

    python3 tools/check_docs.py

In each Markdown file relative links must lead to files and to headings. In docs/RULES.md each name
in backticks in a link's text must stand in the linked file as a word, or be the file's own name.
No line has over 100 characters, but for tables and code blocks; embed/talavorn.h has none at all.
What is wrong is printed, and then a count.
"""

import pathlib
import re
import sys

ROOT = pathlib.Path(__file__).resolve().parent.parent
INDEX = ROOT / "docs" / "RULES.md"
HEADER = ROOT / "embed" / "talavorn.h"
WIDTH = 100

wrong = []


def documents():
    """The Markdown files, without those of hidden folders and of the build."""
    files = [path.relative_to(ROOT) for path in ROOT.rglob("*.md")]
    return [ROOT / path for path in sorted(files) if not any(part == "target" or part.startswith(".") for part in path.parts)]


def without_code(text):
    """The text with the lines of code blocks left empty."""
    lines, fenced = [], False
    for line in text.split("\n"):
        fence = line.lstrip().startswith("```")
        lines.append("" if fenced or fence or line.startswith("    ") else line)
        fenced = fenced != fence
    return "\n".join(lines)


def anchors(text):
    """The anchors of a document's headings, as GitHub makes them."""
    headings = re.findall(r"^#+ (.*)$", text, re.M)
    return {re.sub(r"[^\w\- ]", "", heading.lower()).replace(" ", "-") for heading in headings}


def links(path, text):
    """Each link's text and where it leads: [text](to), [text][label] and [label]."""
    labels = {label.lower(): to for label, to in re.findall(r"^\[([^\]]+)\]:\s*(\S+)$", text, re.M)}
    for inside, to in re.findall(r"\[([^\]]*)\]\(([^)\s]+)\)", text):
        yield inside, to
    for inside, label in re.findall(r"\[([^\]]+)\](?:\[([^\]]*)\])?(?![(:\]])", re.sub(r"^\[[^\]]+\]:\s*\S+$", "", text, flags=re.M)):
        to = labels.get((label or inside).lower())
        if to:
            yield inside, to
        elif label:
            wrong.append(f"{path.relative_to(ROOT)}: no link [{label}]")


def check_link(path, inside, to):
    if re.match(r"[a-z]+:", to):
        return
    where, _, anchor = to.partition("#")
    linked = (path.parent / where).resolve() if where else path
    if not linked.exists():
        wrong.append(f"{path.relative_to(ROOT)}: no file {to}")
    elif anchor and anchor not in anchors(without_code(linked.read_text("utf-8"))):
        wrong.append(f"{path.relative_to(ROOT)}: no heading {to}")
    elif path == INDEX and linked.is_file():
        words = set(re.findall(r"[\w-]+", linked.read_text("utf-8"))) | {linked.stem}
        wrong.extend(f"docs/RULES.md: no {name} in {to}" for name in re.findall(r"`([^`]+)`", inside) if name not in words)


def check_width(path, lines):
    wrong.extend(f"{path.relative_to(ROOT)}:{number}: {len(line)} characters" for number, line in lines if len(line) > WIDTH)


def main():
    for path in documents():
        text = without_code(path.read_text("utf-8"))
        for inside, to in links(path, text):
            check_link(path, inside, to)
        check_width(path, [(number, line) for number, line in enumerate(text.split("\n"), 1) if not line.startswith("|")])
    check_width(HEADER, enumerate(HEADER.read_text("utf-8").split("\n"), 1))
    print(*wrong, f"{len(wrong)} wrong", sep="\n")
    return 1 if wrong else 0


if __name__ == "__main__":
    sys.exit(main())
