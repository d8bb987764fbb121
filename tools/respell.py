#!/usr/bin/env python3
"""Spells the repository's own definitions and lemmas in snake case, and gives each named clause a name that says its fact.

usage: python3 tools/respell.py        at the top of the repository, once, after port.py

It turns the names that .antt files of crates/ declare, in their code, in clauses and ghost imports of .rt files, in edits of must-fail/ and in
code spans of README.md and docs/. Types, modules, code, strings and exported names stay. `--names` prints the table and writes nothing.
"""
import collections
import os
import re
import sys

TOKEN = re.compile(r"[^\s(){}.;,@\"«»\[\]|⌜⌝]+")
DECLARED = re.compile(r"^(\s*)((?:pub|abbrev|unfoldable|private)\s+)*([^\s(){}.;,@\"«»:]+) :(\s|$)")
SPAN = re.compile(r"`[^`\n]+`")
CLAUSE = re.compile(r"(?:requires|ensures)(?:\s+\w+)?\s*\{")

# E is a letter of the rules' formulas, and `e` is taken by events and equations; `bit_and` and `bit_or` are the library's
GIVEN = {"E": "party_day_e", "N3": "n3", "N2": "n2", "bit-and": "bit_of_and", "bit-or": "bit_of_or"}

# bound variables
VARIABLES = ["worseRows", "worseAnswer", "worseAfter", "eventDay", "eventPeriod", "startUp", "minimumRun", "minimumDown", "outLength", "eG", "unlessOf"]

# clauses that got a name of their shape
LABELS = {
    "i_bound": "in_range", "j_bound": "in_range", "i_le_end": "in_range", "row_bound": "in_range", "h_lt_most_hours": "in_range",
    "i_bound_2": "place_in_range", "place_value": "place_found", "row_value": "of_fuel", "events_value": "events_listed",
    "events_bound": "few_events", "run_2": "worse_run", "make_up_bound": "make_up_in_range", "upper_bound": "within_out",
    "file_in_bounds": "has_room", "there_value": "is_there", "there_value_2": "is_there", "level_value": "has_level",
    "row_len": "whole_row", "s_le_highest_sum": "sum_in_range", "most_hours_in_bounds": "cells_there",
}
HELD = [("places.", "places_found"), ("levels.", "levels_found"), ("groups.", "groups_found"), ("masks.", "masks_found"), ("leaders.", "leaders_found"), ("corrects.", "corrects_found")]


def snake(name):
    name = re.sub(r"(?<=[a-z0-9])([A-Z])", lambda m: "_" + m[1].lower(), name)
    name = re.sub(r"(?<=[a-zA-Z0-9])([ℤℕ])", r"_\1", name)
    name = re.sub(r"([ℤℕ])([A-Z])", lambda m: m[1] + "_" + m[2].lower(), name)
    return name.replace("-", "_")


def files(root, *ends):
    for folder, dirs, names in os.walk(os.path.join(root, "crates")):
        dirs[:] = sorted(d for d in dirs if d != "out")
        for name in sorted(names):
            if name.endswith(ends):
                yield os.path.join(folder, name)


def read(path):
    with open(path, encoding="utf-8") as f:
        return f.read()


def table(root):
    """Old and new spelling of each name that an .antt file declares, without those that stay."""
    definitions, lemmas, kind = set(), collections.defaultdict(set), {}
    for path in files(root, ".antt"):
        if path.endswith("Proof.antt"):
            continue
        lines = read(path).split("\n")
        for at, line in enumerate(lines):
            m = DECLARED.match(line)
            if not m or not re.match(r"[a-zμ]", m[3]):
                continue
            of_specs = os.sep + "specs" + os.sep in path and not m[1]
            if of_specs or (not re.search(r"[-_]", m[3]) and not m[1]):
                definitions.add(m[3])
            else:
                lemmas[m[3]].add(path)
                text = line
                while at + 1 < len(lines) and lines[at + 1].startswith(m[1] + "    "):
                    at += 1
                    text += " " + lines[at].strip()
                last = text.split("→")[-1]
                kind[m[3]] = "_is" if "≡" in last and not re.search(r"≡ true\b", last) else "_holds"
    new = dict(GIVEN)
    taken = {snake(d) for d in definitions}
    for d in sorted(definitions) + VARIABLES:
        new[d] = snake(d)
    # a lemma that would be spelled like a definition says what it states of it
    free = [name for name in sorted(lemmas) if name not in new]
    for name in [n for n in free if snake(n) not in taken]:
        new[name] = snake(name)
    given = set(new.values())
    for name in [n for n in free if snake(n) in taken]:
        to = snake(name)
        if name not in definitions:
            to += kind[name] if to + kind[name] not in given else "_holds"
        new[name] = to
    return {a: b for a, b in new.items() if a != b}


def turn(code, names):
    return TOKEN.sub(lambda m: names.get(m[0], m[0]), code)


def prose(text, names):
    """Code spans, and words that can be nothing but a definition's older spelling."""
    text = SPAN.sub(lambda m: turn(m[0][1:-1], names).join("``"), text)
    return TOKEN.sub(lambda m: names[m[0]] if re.match(r"[a-z]\w*[a-z0-9][A-Z]", m[0]) and m[0] in names else m[0], text)


def antt(text, names, fields):
    out = []
    modules = set(re.findall(r"(?m)^use [^\n]* as (\w+)$", text))
    # elsewhere E is a variable, as T and M are
    if not re.search(r"(?m)^(?:unfoldable pub E :|use \S+\.Penalties\.\{[^}]*\bE\b)", text):
        names = {a: b for a, b in names.items() if a != "E"}
    # what a file takes from the library has the library's name
    for head, items in re.findall(r"(?m)^use ([^\s{]+)\.\{([^}]*)\}", text):
        if not re.match(r"Rattle\.(?!std\b)", head):
            names = {a: b for a, b in names.items() if a not in re.split(r"[,\s]+", items)}
    for line in text.split("\n"):
        code, dash, comment = line, "", ""
        m = re.search(r"(?:^|(?<=\s))--", line)
        if m:
            code, dash, comment = line[: m.start()], "--", line[m.start() + 2 :]

        def one(m):
            word, dotted = m[0], code[m.start() - 1 : m.start()] == "."
            if word not in names:
                return word
            of_module = dotted and re.search(r"(?<![\w.])(\w+)\.$", code[: m.start()])
            if dotted and not (word in fields or re.search(r"[A-Z]", word) or (of_module and of_module[1] in modules)):
                return word
            return names[word]

        out.append(TOKEN.sub(one, code) + dash + prose(comment, names))
    return "\n".join(out)


def clause_end(text, at):
    depth = 0
    while True:
        depth += {"{": 1, "}": -1}.get(text[at], 0)
        at += 1
        if not depth:
            return at


def rattle(text, names):
    out, at = [], 0
    pattern = re.compile(r"ghost use[^;]*;|//[^\n]*|" + CLAUSE.pattern)
    while True:
        m = pattern.search(text, at)
        if not m:
            return "".join(out) + text[at:]
        out.append(text[at : m.start()])
        if m[0].startswith("//"):
            end = m.end()
            out.append(prose(m[0], names))
        elif m[0].startswith("ghost"):
            end = m.end()
            out.append(turn(m[0], names))
        else:
            start = m.end() - 1
            end = clause_end(text, start)
            out.append(m[0][:-1] + turn(text[start:end], names))
        at = end


def labels(text):
    """Names of clauses that say their fact."""

    def one(m):
        name, fact = m[2], m[3]
        if re.fullmatch(r"holds(_\d)?", name):
            name = next(new for word, new in HELD if word in fact)
        return f"{m[1]} {LABELS.get(name, name)} {{{fact}"

    return re.sub(r"(?m)^(    (?:requires|ensures)) (\w+) \{(.*)$", one, text)


def fields_of(root):
    """Fields of the records of .antt files."""
    found = set()
    for path in files(root, ".antt"):
        inside = False
        for line in read(path).split("\n"):
            if re.match(r"\s*(?:pub )?record\b", line):
                inside = True
            elif inside and (m := re.match(r"\s+(?:pub )?([^\s:]+) :", line)):
                found.add(m[1])
            elif line.strip() and not line.startswith(" "):
                inside = False
    return found


def declared(root):
    """Every name that an .antt file declares, as it is spelled now."""
    found = set()
    for path in files(root, ".antt"):
        found |= {m[3] for m in map(DECLARED.match, read(path).split("\n")) if m}
    return found


def cited(text, names, known):
    """A code span of a page: a letter of a formula is a definition only behind its module."""

    def one(m):
        word, dotted = m[0], text[m.start() - 1 : m.start()] == "."
        if word in GIVEN and not dotted and not "-" in word:
            return word
        if word in names:
            return names[word]
        return snake(word) if re.search("[a-z][A-Z]", word) and word[0].islower() and snake(word) in known else word

    return TOKEN.sub(one, text)


def main(words):
    root = os.getcwd()
    names, fields = table(root), fields_of(root)
    if "--names" in words:
        print("\n".join(f"{a}\t{b}" for a, b in sorted(names.items())))
        return
    for path in files(root, ".antt", ".rt", ".edit"):
        old = read(path)
        if path.endswith(".antt"):
            new = antt(old, names, fields)
        elif path.endswith(".rt"):
            new = labels(rattle(old, names))
        else:
            of_antt = re.search(r"(?m)^file: (?:specs|proofs)/", old)
            lines = []
            for line in old.split("\n"):
                if line.startswith("#"):
                    line = prose(line, names)
                elif re.match(r"(old|new):", line) and (of_antt or CLAUSE.search(line)):
                    line = turn(line, names)
                lines.append(line)
            new = "\n".join(lines)
        if new != old:
            with open(path, "w", encoding="utf-8") as f:
                f.write(new)
    known = declared(root)
    for folder, _, found in [(root, None, ["README.md"])] + list(os.walk(os.path.join(root, "docs"))):
        for name in found:
            if not name.endswith(".md"):
                continue
            path = os.path.join(folder, name)
            old = read(path)
            new = SPAN.sub(lambda m: cited(m[0][1:-1], names, known).join("``"), old)
            if new != old:
                with open(path, "w", encoding="utf-8") as f:
                    f.write(new)


if __name__ == "__main__":
    main(sys.argv[1:])
