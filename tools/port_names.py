#!/usr/bin/env python3
"""The names of this repository's definitions and lemmas, brought to the spelling of the newer Rattle.

usage: port_names.py before    at the top, before port.py: a name that port.py takes for the library's is set aside
       port_names.py after     at the top, after port.py: that name is put back, and each name that is defined in specs/ or in proofs/'s files of laws,
                               or bound by one of their binders, goes from camel case or dashes to snake case

A lemma that would have the name of a function gets '_lem' behind it. Functions of src/, exported names, strings, inputs and outputs keep theirs, and so
do types, modules and the names that Rattle makes for a function's goals. Edits in must-fail/ and names between backticks in pages go along.
"""
import collections
import glob
import os
import re
import sys

AWAY = "GivenByPort"  # the record Given of macros, received, records and evaluation
WORD = re.compile(r"[^\W\d][\w'₀-₉]*(?:-[\w'₀-₉]+)*")
SIGNATURE = re.compile(r"^\s*((?:(?:pub|abbrev|unfoldable)\s+)*)([^\s:(){}=]+(?:\s+[^\s:(){}=]+)*)\s+:\s")
BINDER = re.compile(r"[({]((?:[^\W\d][\w'₀-₉-]*\s+)*[^\W\d][\w'₀-₉-]*)\s+:\s")
LAMBDA = re.compile(r"λ ((?:[^\W\d][\w'₀-₉-]*\s*)+)\.")
LET = re.compile(r"\blet ([^\W\d][\w'₀-₉-]*) ")


def read(path):
    with open(path, encoding="utf-8") as f:
        return f.read()


def write(path, text):
    if read(path) != text:
        with open(path, "w", encoding="utf-8") as f:
            f.write(text)


def found(pattern):
    return sorted(p for p in glob.glob("crates/*/" + pattern, recursive=True) if "/out/" not in p)


def is_laws(path):
    return "/proofs/Laws" in path or path.count("/") == 3


def snake(name):
    s = re.sub(r"([a-z0-9])([A-Z])", lambda m: m.group(1) + "_" + m.group(2).lower(), name.replace("-", "_"))
    return re.sub(r"[A-Z]", lambda m: m.group(0).lower(), s)


def odd(name):
    return not name[0].isupper() and ("-" in name or re.search(r"[A-Z]", name))


def code(text):
    return "\n".join(l for l in text.split("\n") if not l.lstrip().startswith(("--", "//")))


def renamings():
    specs, proofs = found("specs/**/*.antt"), found("proofs/**/*.antt")
    laws = [p for p in proofs if is_laws(p)]
    defined, bound = {}, set()
    for path in specs + laws:
        text = code(read(path))
        for line in text.split("\n"):
            m = SIGNATURE.match(line)
            if m and not line.lstrip().startswith("use "):
                for name in m.group(2).split():
                    if WORD.fullmatch(name):
                        defined.setdefault(name, set()).add("specs" if "/specs/" in path else "laws")
        for m in BINDER.finditer(text):
            bound.update(m.group(1).split())
        for m in LAMBDA.finditer(text):
            bound.update(m.group(1).split())
        bound.update(LET.findall(text))
    groups = collections.defaultdict(set)
    for name in defined:
        if odd(name):
            groups[snake(name)].add(name)
    to = {}
    for new, names in groups.items():
        functions = [n for n in names if "-" not in n]
        assert len(functions) < 2, names
        for n in names:
            to[n] = new if n in functions or (not functions and new not in defined and len(names) == 1) else new + "_lem"
        if functions and new in defined:
            to[new] = new + "_lem"  # port.py had given the lemma this name
    for n in bound:
        if WORD.fullmatch(n) and odd(n) and n not in to:
            to[n] = snake(n)
    return to


def renamed(text, to):
    """In antt: comments keep their plain words with a dash, but follow in camel case and between backticks."""
    out = []
    for line in text.split("\n"):
        body, sep, comment = line, "", ""
        m = re.search(r"(^|\s)--(\s|$)", line)
        if m:
            body, sep, comment = line[: m.start()], line[m.start() : m.end()], line[m.end() :]
        parts = re.split(r'("[^"]*")', body)
        body = "".join(p if p.startswith('"') else WORD.sub(lambda m: to.get(m.group(0), m.group(0)), p) for p in parts)
        out.append(body + sep + spans(comment, to))
    return "\n".join(out)


def spans(text, to):
    def inside(m):
        return WORD.sub(lambda w: to.get(w.group(0), w.group(0)) if odd(w.group(0)) else w.group(0), m.group(0))

    text = re.sub(r"`[^`\n]*`", inside, text)
    return re.sub(r"(?<![\w-])[a-z][a-z0-9]*(?:[A-Z][a-z0-9]*)+(?![\w-])", inside, text)


def in_source(text, to):
    """In a .rt file: the clauses and the lines of ghost use, but not code, comments and strings."""
    out, depth, clause = [], 0, False
    for line in text.split("\n"):
        s = line.lstrip()
        if s.startswith("//"):
            out.append(spans(line, to))
            continue
        if s.startswith("ghost use") or re.match(r"(requires|ensures|ghost)\b[^{]*\{", s) or clause:
            out.append(renamed(line, {k: v for k, v in to.items() if odd(k)}))
            depth += line.count("{") - line.count("}")
            clause = depth > 0
            if not clause:
                depth = 0
        else:
            out.append(line)
    return "\n".join(out)


def after():
    for path in found("**/*.antt") + found("src/**/*.rt"):
        write(path, read(path).replace(AWAY, "Given"))
    to = renamings()
    was_lemma = {k for k in to if not odd(k)}
    dashed = {k: v for k, v in to.items() if k not in was_lemma}
    for path in found("**/*.antt"):
        text = read(path)
        own = to
        if "/proofs/" in path and not is_laws(path):
            cited = set(re.findall(r"[\w'₀-₉-]+", " ".join(re.findall(r"^use Rattle\.\w+\.(?:proofs\.Laws|specs)[^{\n]*\{([^}]*)\}", text, re.M))))
            own = {k: v for k, v in to.items() if k not in was_lemma or k in cited}
        write(path, renamed(text, own))
    for path in found("src/**/*.rt"):
        write(path, in_source(read(path), dashed))
    for path in found("must-fail/*.edit"):
        write(path, "\n".join(renamed(l, dashed) if re.match(r"(old|new):", l) else spans(l, dashed) for l in read(path).split("\n")))
    for path in glob.glob("*.md") + glob.glob("docs/**/*.md", recursive=True):
        write(path, spans_of_page(read(path), dashed))
    print(f"port_names: {len(to)} names")


def spans_of_page(text, to):
    def inside(m):
        return WORD.sub(lambda w: to.get(w.group(0), w.group(0)), m.group(0))

    return re.sub(r"`[^`\n]*`", inside, text)


def before():
    for path in found("**/*.antt") + found("src/**/*.rt"):
        write(path, re.sub(r"(?<![\w'·.-])Given(?![\w'-])", AWAY, read(path)))


if __name__ == "__main__":
    os.chdir(os.popen("git rev-parse --show-toplevel").read().strip())
    if sys.argv[1:] == ["before"]:
        before()
    elif sys.argv[1:] == ["after"]:
        after()
    else:
        print(__doc__)
        sys.exit(2)
