#!/usr/bin/env python3
"""Turns a crate's Proof.antt files of the older kit to Invariants.antt and Answers.antt, at the top of the repository:
`python3 tools/answers.py NAME..`. It asks `rt check --old-names` for each goal's old and new name. Answers that only say
`search rules` are left out: the check finds them. What it cannot turn it says; `rt check` decides."""

import json
import os
import re
import subprocess
import sys
import tempfile

NAME = r"(?<![\w'₀-₉-])%s(?![\w'₀-₉]|-[\w])"
HEAD = re.compile(r"^(abbrev )?(pub )?([^\s:(){}=]+) :(.*)$")


def clauses_of():
    """For each function of src/: its labels of requires and ensures, in order."""
    found = {}
    for crate in os.listdir("crates"):
        src = f"crates/{crate}/src"
        for path in os.listdir(src):
            text = open(f"{src}/{path}", encoding="utf-8").read()
            for m in re.finditer(r"\bfn (\w+)(.*?)\n\{", text, re.S):
                kinds = {"requires": [], "ensures": []}
                for c in re.finditer(r"\n    (requires|ensures)\*? ?(\w*) ?\{", m.group(2)):
                    kinds[c.group(1)].append(c.group(2))
                found.setdefault((crate, m.group(1)), kinds)
    return found


def blocks(text):
    """The file's parts, parted by blank lines."""
    return [b for b in re.split(r"\n[ \t]*\n", text.strip("\n")) if b.strip()]


def split_tuple(term):
    """The parts of `(a, b, ..)`, or None."""
    term = term.strip()
    if not (term.startswith("(") and term.endswith(")")):
        return None
    parts, depth, start = [], 0, 1
    for i, ch in enumerate(term):
        if ch in "([{":
            depth += 1
        elif ch in ")]}":
            depth -= 1
            if depth == 0 and i != len(term) - 1:
                return None
        elif ch == "," and depth == 1:
            parts.append(term[start:i].strip())
            start = i + 1
    parts.append(term[start:-1].strip())
    return parts if len(parts) > 1 else None


def labelled(labels, path):
    """The older path into clauses joined two by two, by the clause's label."""
    steps = path.strip(".").split(".")
    i = 0
    while steps:
        step = steps.pop(0)
        if step == "0":
            break
        i += 1
        if i == len(labels) - 1:
            break
    return "." + labels[i] + "".join("." + s for s in steps)


class Function:
    def __init__(self, crate, name, names, clauses):
        self.crate, self.name, self.names, self.clauses = crate, name, names, clauses
        self.needs = {old.replace("_", "-"): new for old, new in names["needs"]}
        self.settled = {s.replace("_", "-") for s in names["settled"]}
        self.steps = {}
        self.places = {}
        for place, new in zip(names["places"], names["places_by_name"]):
            self.places[place[0].replace("_", "-")] = new
            old, step = place[2]
            if old and step:
                self.steps[old.replace("_", "-")] = step
        for old, new in names["asked_at"]:
            self.places[old.replace("_", "-")] = new
        self.left = []

    def say(self, what):
        self.left.append(what)

    def path(self, text):
        """Paths into c, by the new names of the steps."""
        alias = r"let (\w+) = (\w+)(?:\.before)* in\s+"
        names = {"c"}
        while (m := re.search(alias, text)) and m.group(2) in names:
            text = text[: m.start()] + re.sub(r"(?<!\.)" + NAME % re.escape(m.group(1)) if m.group(1) != "c" else r"(?!)", "c", text[m.end() :])
        text = re.sub(r"(?:\.before)+(?![\w-])", "", text)

        def step(m):
            name = m.group(2)
            return m.group(1) + "." + self.steps.get(name.replace("_", "-"), name)

        text = re.sub(r"(?<![\w'.-])(c|w|k)\.([\w'-]+)", step, text)
        own = self.clauses.get((self.crate, self.name), {}).get("requires", [])
        if len(own) > 1 and all(own):
            text = re.sub(r"\bc\.requires((?:\.[01])+)", lambda m: "c.requires" + labelled(own, m.group(1)), text)
        return text

    def goal(self, need):
        key = need.replace("_", "-")
        for k in (key, re.sub(r"^overflow-", "", key)):
            if k in self.needs:
                return self.needs[k]
        return None

    def term(self, text):
        text = re.sub(r"\btie\.Need-([\w'-]+)(?: invariant-[\w-]+| decreases-[\w-]+)*", lambda m: "goal." + (self.goal(m.group(1)) or "?" + m.group(1)), text)
        text = re.sub(r"\btie\.([A-Z][\w'-]*)(?: invariant-[\w-]+| decreases-[\w-]+)*", lambda m: "goal." + self.places.get(m.group(1).replace("_", "-"), "?" + m.group(1)), text)
        return self.path(text)

    def invariant(self, kind, loop, block):
        lines = block.split("\n")
        m = re.match(r"%s-%s([^=]*)=(.*)$" % (kind, re.escape(loop)), "\n".join(lines[1:]), re.S)
        loops = {old.replace("_", "-"): (new, variables) for (old, new), variables in self.names["loops"]}
        if not m or loop not in loops:
            self.say(f"{kind} of {loop}")
            return None
        new, variables = loops[loop]
        changed = self.names["changed"][[o.replace("_", "-") for (o, _), _ in self.names["loops"]].index(loop)]
        params = [p for p in m.group(1).split() if not re.fullmatch(r"t\d+", p)]
        want = [f"l.initial.{v}" if ch else f"l.{v}" for v, ch in zip(variables, changed)] + [f"l.{v}" for v, ch in zip(variables, changed) if ch]
        body = m.group(2).strip()
        if len(params) != len(want):
            self.say(f"{kind} of {loop}: parameters {params} for {want}")
        marked = body
        for i, p in enumerate(params[: len(want)]):
            if p != "_":
                marked = re.sub(NAME % re.escape(p), f"\x00{i}\x00", marked)
        body = re.sub("\x00(\\d+)\x00", lambda k: want[int(k.group(1))], marked)
        return f"abbrev pub {kind}-{new} : goal.{kind}-{new}\n{kind}-{new} l = {body}"

    def answer(self, need, block):
        lines = block.split("\n")
        opened = [x for x in lines[1:] if x.startswith("unfolding ")]
        clause = "\n".join(x for x in lines[1:] if not x.startswith("unfolding "))
        m = re.match(r"(\S+) c(?: κs)? =\s*(.*)$", clause, re.S)
        new = self.goal(need)
        if not m:
            self.say(f"{need}: {clause[:80]!r}")
            return ["-- LEFT " + x for x in lines]
        term = m.group(2)
        if term.strip() == "search rules" and not opened:
            return None
        if new is None:
            if need.replace("_", "-") not in self.settled and not need.startswith(("enum-known", "same-length", "overflow-")):
                self.say(f"no goal {need}: {term.strip()[:100]}")
            return None
        parts = split_tuple(term)
        labels = self.labels(need, parts)
        while parts and not labels and split_tuple(parts[-1]):
            parts = parts[:-1] + split_tuple(parts[-1])
            labels = self.labels(need, parts)
        if parts and labels:
            out = []
            for part, label in zip(parts, labels):
                if part == "search rules" and not opened:
                    continue
                out += self.written(f"{new}-clause-{label}", opened, part)
            return out
        if parts and not re.match(r"returns", need):
            self.say(f"{need}: a tuple of {len(parts)}")
        return self.written(new, opened, term)

    def labels(self, need, parts):
        if not parts:
            return None
        if need.startswith("returns"):
            found = self.clauses.get((self.crate, self.name), {}).get("ensures", [])
        else:
            callee = re.sub(r"-requires.*$", "", need).replace("-", "_")
            own = self.clauses.get((self.crate, callee))
            others = [k["requires"] for (c, f), k in self.clauses.items() if f == callee and len(k["requires"]) == len(parts)]
            found = own["requires"] if own else others[0] if others and all(x == others[0] for x in others) else []
        return found if len(found) == len(parts) and all(found) else None

    def written(self, goal, opened, term):
        term = self.term(term)
        if re.fullmatch(r"(search rules|\(?search rules\)?)", term.strip()) and not opened:
            return []
        return [f"pub {goal} : goal.{goal}", *opened, f"{goal} c = {term.strip()}", ""]


def imports(text, used):
    """Its use lines with the names that are used."""
    out = []
    for line in text:
        m = re.match(r"use ([^ ]*)\.\{(.*)\}$", line)
        if not m:
            out.append(line)
            continue
        kept = []
        for n in m.group(2).split(","):
            n = n.strip()
            word = n.split(" as ")[-1]
            parts = [p for p in word.split("◌") if p]
            if (all(p in used for p in parts)) if "◌" in word else re.search(NAME % re.escape(word), used):
                kept.append(n)
        if kept:
            out.append(f"use {m.group(1)}.{{{', '.join(kept)}}}")
    return out


def turn(crate, name, names, clauses):
    folder = f"crates/{crate}/proofs/{name}"
    text = open(f"{folder}/Proof.antt", encoding="utf-8").read()
    f = Function(crate, name, names, clauses)
    head, uses, invariants, answers, helpers = [], [], [], [], []
    for block in blocks(text):
        lines = block.split("\n")
        while lines and (lines[0].startswith("--") or lines[0].startswith("use ")):
            line = lines.pop(0)
            if line.startswith("--"):
                head.append(line)
            elif not re.search(r"\.(Statement\.\{statement\}|Tie as tie)$", line):
                uses.append(line)
        if not lines:
            continue
        block = "\n".join(lines)
        m = HEAD.match(lines[0])
        if m and "tie.Need-" in m.group(4) and re.match(r" tie\.Need-[\w'-]+( invariant-[\w-]+| decreases-[\w-]+)*$", m.group(4)):
            got = f.answer(re.match(r" tie\.Need-([\w'-]+)", m.group(4)).group(1), block)
            answers += got or []
        elif m and re.match(r" tie\.(invariant|decreases)-", m.group(4)):
            kind, loop = re.match(r" tie\.(invariant|decreases)-([\w-]+)", m.group(4)).groups()
            got = f.invariant(kind, loop, block)
            invariants.append(got or "-- LEFT " + block.replace("\n", "\n-- LEFT "))
        elif "statement M" in lines[0]:
            continue
        else:
            helpers.append(f.term(block))
    os.remove(f"{folder}/Proof.antt")
    if invariants:
        body = "\n\n".join(invariants)
        kept = imports(uses, body)
        open(f"{folder}/Invariants.antt", "w", encoding="utf-8").write(
            "\n".join(([head[0]] if head else []) + kept + [f"use Rattle.{crate}.proofs.{name}.Given as goal", "", body, ""])
        )
    if answers:
        body = "\n".join(answers).rstrip("\n")
        middle = "".join(it + "\n\n" for it in helpers)
        kept = imports(uses, middle + body)
        open(f"{folder}/Answers.antt", "w", encoding="utf-8").write("\n".join(head + kept + [f"use Rattle.{crate}.proofs.{name}.Goals as goal", ""]) + "\n" + middle + body + "\n")
    elif helpers:
        f.say(f"helpers that no answer is left to cite: {[h.split(' :')[0] for h in helpers]}")
    if not os.listdir(folder):
        os.rmdir(folder)
    for what in f.left:
        print(f"{crate}::{name}: {what}")


def main():
    clauses = clauses_of()
    for crate in sys.argv[1:]:
        with tempfile.TemporaryDirectory() as made:
            said = subprocess.run(["rt", "check", "--generated", made + "/names", "--old-names"], cwd=f"crates/{crate}", capture_output=True, text=True)
            try:
                names = json.load(open(made + "/names/names.json", encoding="utf-8"))
            except OSError:
                sys.exit(f"{crate}: no names:\n" + said.stdout[-3000:] + said.stderr[-2000:])
        for name in sorted(os.listdir(f"crates/{crate}/proofs")):
            path = f"crates/{crate}/proofs/{name}/Proof.antt"
            if not os.path.isfile(path) or "tie.spec" not in open(path, encoding="utf-8").read():
                continue
            key = f"Rattle-{crate}-proofs.{name}.Lts"
            if key not in names:
                print(f"{crate}::{name}: no names; stays as it is")
                continue
            turn(crate, name, names[key], clauses)


main()
