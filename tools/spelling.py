#!/usr/bin/env python3
"""Brings the repository's own definitions and lemmas to today's spelling, once, after the kit's port.py: at the top,
`python3 tools/spelling.py`. A word that begins in lower case is in snake case; types and modules stay as they are. Functions
of src/, exported names and what stands between quotes keep theirs. It says which names fall together in a file and stops."""

import glob
import re
import sys

# Names that would fall together with another of the same file, or with a word of clauses.
OWN = {"leftBy": "left_by_rules", "withFirst": "with_head", "result": "result_text"}
OWN_IN = {"result": ("crates/lines/", "crates/calls/", "crates/passplan/")}
NAME = re.compile(r"(?<![\w'-])[A-Za-z_](?:[\w']|-(?=\w))*")
STRING = re.compile(r'b?"[^"\n]*"')
CLAUSE = re.compile(r"ensures\* \{ λ r\. ⌜ (.*) ⌝ \}")
DEFINED = re.compile(r"^unfoldable pub result :", re.M)


def sources():
    for pattern in ("specs/**/*.antt", "proofs/**/*.antt", "src/**/*.rt", "must-fail/*.edit"):
        yield from sorted(glob.glob("crates/*/" + pattern, recursive=True))


def pages():
    yield from sorted(glob.glob("docs/*.md")) + ["README.md"]


def snake(name):
    def part(p):
        return re.sub(r"(?<=[a-z0-9])([A-Z])", lambda m: "_" + m.group(1).lower(), p) if p[:1].islower() else p

    return "-".join(part(p) for p in name.split("-"))


def is_camel(name):
    return name[:1].islower() and re.search(r"[a-z0-9][A-Z]", name.split("-")[0]) is not None


def renamed(name, path, known):
    if name in OWN and path.startswith(OWN_IN.get(name, "")):
        return OWN[name]
    return snake(name) if name in known else name


def turn(text, path, known, spec_result):
    """text with the names of known renamed, but for what stands between quotes."""
    out, at = [], 0
    for quoted in list(STRING.finditer(text)) + [None]:
        end = quoted.start() if quoted else len(text)
        out.append(
            NAME.sub(
                lambda m: m.group(0)
                if m.group(0) == "result" and (not spec_result or m.string[m.start() - 1 : m.start()] == ".")
                else renamed(m.group(0), path, known),
                text[at:end],
            )
        )
        if quoted:
            out.append(quoted.group(0))
            at = quoted.end()
    return "".join(out)


def main():
    texts = {p: open(p, encoding="utf-8").read() for p in sources()}
    known = {m.group(0) for p, t in texts.items() for m in NAME.finditer(t) if is_camel(m.group(0))}
    clash = 0
    for p, t in texts.items():
        here = {m.group(0) for m in NAME.finditer(t) if t[m.start() - 1 : m.start()] != "."}  # a path's part is no name of the file
        for name in sorted(here & known):
            if p.endswith(".antt") and name not in OWN and snake(name) in here:
                print(f"{p}: {name} falls together with {snake(name)}")
                clash += 1
    if clash:
        sys.exit(1)
    for p, t in texts.items():
        if p.endswith(".rt"):
            # a definition named result kept these clauses from the plain form
            kept = CLAUSE.search(t) is not None
            new = turn(t, p, known, kept)
            new = CLAUSE.sub(lambda m: "ensures { " + re.sub(r"(?<![\w'-])r(?![\w'-])", "result", m.group(1)) + " }", new)
        else:
            new = turn(t, p, known, True)
        if new != t:
            open(p, "w", encoding="utf-8").write(new)
    names = {m.group(0) for p in sources() for m in NAME.finditer(open(p, encoding="utf-8").read())}
    for p in pages():
        t = open(p, encoding="utf-8").read()
        turned = known | {m.group(0) for m in NAME.finditer(t) if is_camel(m.group(0)) and snake(m.group(0)) in names}
        new = NAME.sub(lambda m: renamed(m.group(0), p, turned), t)
        if new != t:
            open(p, "w", encoding="utf-8").write(new)


main()
