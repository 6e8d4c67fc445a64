#!/usr/bin/env python3
"""Brings the repository's own definitions and lemmas to snake case: capitals inside a word and dashes become underscores.

usage: tools/respell.py [--list]     at the top of the repository, once, after port.py of the kit

Types, facts, modules and the names of src/ keep their spelling, and so do names that Rattle makes (a goal's, a step's) and the library's.
--list prints the table, and which new names stood already, and changes nothing.
"""

import collections
import os
import re
import sys

TOKEN = re.compile(r"[^\s(){}\[\];.,:`\"|]+")
HEAD = re.compile(r"\s*(?:(?:abbrev|unfoldable|pub|ruleset|data|record|module|let)\s+)*([^\s(){};.,:λ]+) :(?= |$)")
LET = re.compile(r"\blet ([^\s(){};.,:λ]+) [=:]")
PARAMETERS = re.compile(r"[({]((?:[^\s(){};.,:λ]+ )+): ")
ALIAS = re.compile(r"(?:[{,]|^use .*) ?[^\s{},]+ as ([^\s{},;]+)")
BOUND = re.compile(r"λ ((?:[^\s(){};.,:λ]+ ?)+)\.")
# the library's, though the repository has a lemma that begins alike
KEEP = {"not-true"}
# lemmas that would have the name of a definition or function: they get `_lem`
LEMMAS = (
    "claimed-at combine-in count-from divide-in double-edge double-from double-of form-at guard-holds indicator-in is-enabled kind-is last-from "
    "literal-in number-from over-ends phases-fit q-at range-in some-node some-passes spans-from start-holds state-at step-at value-bytes "
    "cut-in first-wide double-rule in-range size-at truth-in"
).split()


def files(*endings):
    for top in ("crates", "tests/edits"):
        for folder, dirs, names in os.walk(top):
            dirs[:] = sorted(d for d in dirs if d not in ("out", ".git"))
            for name in sorted(names):
                if name.endswith(endings):
                    yield os.path.join(folder, name)


def read(path):
    with open(path, encoding="utf-8") as f:
        return f.read()


def bare(line):
    """The line without its comment."""
    return re.sub(r"(^|\s)--(\s.*)?$", "", line)


def own():
    """The names that the repository's own files of specs/ and proofs/ give, each with the files that give it."""
    found = collections.defaultdict(set)
    for path in files(".antt", ".rt"):
        for line in map(bare, read(path).splitlines()):
            for name in ALIAS.findall(line) if re.match(r"(ghost )?use ", line) else ():
                found[name].add(path)
            if path.endswith(".rt"):
                continue
            head = HEAD.match(line)
            if head and "tie." not in line and "statement M" not in line:
                found[head.group(1)].add(path)
            for pattern in (LET, PARAMETERS, BOUND):
                for names in pattern.findall(line):
                    for name in names.split():
                        found[name].add(path)
    return found


def snake(name):
    if name in LEMMAS:
        return name.replace("-", "_") + "_lem"
    parts = []
    for part in name.split("-"):
        if re.match(r"[a-z].*[A-Z]", part):
            part = re.sub(r"(?<=[a-z0-9])(?=[A-Z])", "_", part).lower()
        parts.append(part)
    return "_".join(parts)


def table():
    names = own()
    return {n: snake(n) for n in names if n not in KEEP and snake(n) != n and re.search(r"\w", n) and n.strip("-") == n}


def turn_text(text, new, dashed=True):
    def one(m):
        word = m.group(0)
        if word in new and (dashed or "-" not in word):
            return new[word]
        return word

    return TOKEN.sub(one, text)


def turn_comment(text, new):
    """In a comment or a page a dash may be English: names with one are turned between backticks alone."""
    parts = text.split("`")
    for i, part in enumerate(parts):
        parts[i] = turn_text(part, new, dashed=i % 2 == 1)
    return "`".join(parts)


def turn_line(path, line, new):
    mark = "//" if path.endswith(".rt") else "--"
    if path.endswith(".edit"):
        if line.startswith("#"):
            return turn_comment(line, new)
        if line.startswith(("old:", "new:")):
            return line[:4] + turn_text(line[4:], new)
        return line
    at = re.search(r"(^|\s)" + mark + r"(?=\s|$)", line)
    at = at.start() if at else len(line)
    code, comment = line[:at], line[at:]
    if path.endswith(".rt"):
        pieces = re.split(r'("(?:[^"\\]|\\.)*")', code)
        code = "".join(p if i % 2 else turn_text(p, new) for i, p in enumerate(pieces))
    elif "Need-" in code and "tie." in code:
        pieces = re.split(r"(tie\.[^\s(){}]+)", code)
        code = "".join(p if i % 2 else turn_text(p, new) for i, p in enumerate(pieces))
    else:
        code = turn_text(code, new)
    return code + turn_comment(comment, new)


def apart():
    """A lemma whose name port.py gave it would be its definition's."""
    path = "crates/intervals/proofs/Laws/Expression.antt"
    text = read(path)
    with open(path, "w", encoding="utf-8") as f:
        f.write(re.sub(r"(?<![\w.-])operands_of(?![\w-])", "operands_of_lem", text))


def main():
    if "--list" not in sys.argv:
        apart()
    new = table()
    if "--list" in sys.argv:
        stood = collections.defaultdict(set)
        for path in files(".antt", ".rt"):
            for line in read(path).splitlines():
                for word in TOKEN.findall(line):
                    stood[word].add(path)
        back = collections.defaultdict(list)
        for a, b in new.items():
            back[b].append(a)
        for b, olds in sorted(back.items()):
            notes = []
            if len(olds) > 1:
                notes.append("SHARED")
            if b in stood:
                notes.append("STOOD " + " ".join(sorted(stood[b])[:6]))
            print(b, "<-", " ".join(olds), *notes)
        return
    for path in files(".antt", ".rt", ".edit"):
        text = read(path)
        turned = "".join(turn_line(path, l, new) for l in text.splitlines(keepends=True))
        if turned != text:
            with open(path, "w", encoding="utf-8") as f:
                f.write(turned)
    pages = ["README.md", "examples/README.md"] + [os.path.join("docs", n) for n in sorted(os.listdir("docs")) if n.endswith(".md")]
    for path in pages:
        if os.path.exists(path) and os.path.basename(path) not in ("PORT.md", "CHANGES.md"):
            text = read(path)
            turned = turn_comment(text, new)
            if turned != text:
                with open(path, "w", encoding="utf-8") as f:
                    f.write(turned)


if __name__ == "__main__":
    main()
