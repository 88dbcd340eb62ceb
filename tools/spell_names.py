#!/usr/bin/env python3
"""Spells the repository's own definitions and lemmas as today's Rattle does, after port.py: words in snake case, facts and types in camel case.

usage: tools/spell_names.py [FOLDER]      FOLDER: the top of the repository, else the folder that it is run in

A name with dashes that a text of specs/ or proofs/ declares (a definition, a lemma, a record, its field, a constructor, or a name that a
file binds by let or by `as`) loses its dashes: Catalogues-agree becomes CataloguesAgree, chain-places becomes chain_places. Labels that
Rattle makes stay (loop-x, if-x, returns-then-x: in an answer the first name behind goal, c, w, l or g), and so do names of libraries.
Strings, comments of code, functions of src/ and edits are not touched. A name that would meet another stays, and is printed.
"""
import os
import re
import sys

PART = r"[^\s(){}.;,@\"«»]+"
TOKEN = re.compile(PART)
DASHED = re.compile(r"[A-Za-z][A-Za-z0-9_']*(?:-[A-Za-z0-9_']+)+\Z")
KEYWORDS = "unfoldable abbrev pub data record ruleset private opaque".split()
HEADS = {"goal", "given", "c", "w", "l", "g"}
OTHER = re.compile(r"Rattle\.(std|core|io|os|libc|logic)\b|mathlib\b|native\b|lib\b|Prim\b|denote\b|antt\b")
USE = re.compile(r"\buse ([^\s;{]+)(\{[^}]*\})?")
MADE = re.compile(r"\.(Goals|Given)\b")


# Two lemmas that would have the names of functions of the library, and a field that stands beside that of another record.
SPELLED = {"bit-and": "bit_and_lem", "bit-or": "bit_or_lem", "k-max": "k_max"}


def spelled(name):
    if name in SPELLED:
        return SPELLED[name]
    words = name.split("-")
    if name[0].isupper():
        return "".join(w[:1].upper() + w[1:] for w in words)
    return "_".join(words)


def texts(top):
    for folder, dirs, files in os.walk(os.path.join(top, "crates")):
        dirs[:] = sorted(d for d in dirs if d != "out")
        for f in sorted(files):
            if f.endswith((".antt", ".rt")):
                yield os.path.join(folder, f)


def read(path):
    with open(path, encoding="utf-8") as f:
        return f.read()


def without_comment(line):
    at = re.search(r"(^|\s)--(\s|$)", line)
    return line if at is None else line[: at.start()]


def is_answer(path):
    return re.search(r"/proofs/(.*/)?(Answers|Invariants|Proof|Choices)\.antt$", path) is not None


def declared_by(line):
    """The names that a line declares, behind its keywords and before its first colon."""
    words = without_comment(line).split()
    while words and words[0] in KEYWORDS:
        words = words[1:]
    out = []
    for w in words:
        if w == ":" or w == "where":
            return out
        if w == "=":
            return []
        if w[0] in "({":
            rest = words[words.index(w):]
            stop = next((x for x in rest if x in ("=", ":", "where") ), "")
            return out if stop in (":", "where") and "=" not in rest[: rest.index(stop)] and not ("=" in words and "→" not in words) else []
        if not TOKEN.fullmatch(w):
            return []
        out.append(w)
    return []


def declared(path):
    names = set()
    for line in read(path).split("\n"):
        names.update(n for n in declared_by(line) if DASHED.match(n))
    return names


def library_names(text):
    """The dashed names that a text imports from a library, and the labels that it imports from its goals."""
    names = set()
    for path, braces in USE.findall(text):
        if OTHER.match(path) or MADE.search(path):
            for item in (braces or "").strip("{}").split(","):
                names.update(item.split()[:1])
    return names


def aliases(text):
    return {n for n in re.findall(rf" as ({PART})", text) if DASHED.match(n)}


def bound(text):
    names = set(re.findall(rf"\blet ({PART})", text))
    for binder in re.findall(r"λ ([^.]*)\.", text) + re.findall(r"[({]([^(){}:,;=]*) : ", text):
        names.update(TOKEN.findall(binder))
    for line in text.split("\n"):
        sides = re.match(r" {0,2}([a-zA-Z][^:=]*) =( |$)", line)
        if sides:
            names.update(TOKEN.findall(sides.group(1))[1:])
    return {n for n in names if DASHED.match(n)}


def code_spans(path, text):
    """The parts of a text that may be turned: all but strings and comments."""
    if path.endswith(".rt"):
        cut = re.compile(r'//[^\n]*|"(?:[^"\\\n]|\\.)*"')
    else:
        cut = re.compile(r"(?m)(?:^|(?<=\s))--(?=\s|$)[^\n]*")
    at = 0
    for m in cut.finditer(text):
        yield at, m.start(), True
        yield m.start(), m.end(), False
        at = m.end()
    yield at, len(text), True


def turned(part, names, answer):
    """The part with the names turned; in an answer the first name behind a head stays."""

    def one(m):
        word = m.group(0)
        if word not in names:
            return word
        before = part[: m.start()]
        if answer:
            head = re.search(rf"(?:^|[\s({{;,@])({PART})\.\Z", before)
            if head and head.group(1) in HEADS:
                return word
        return names[word]

    return TOKEN.sub(one, part)


def main():
    top = sys.argv[1] if len(sys.argv) > 1 else "."
    paths = list(texts(top))
    own = set()
    for p in paths:
        if p.endswith(".antt") and not is_answer(p):
            own |= declared(p)
    taken = set()
    for p in paths:
        if p.endswith(".antt"):
            text = "\n".join(without_comment(line) for line in read(p).split("\n") if not re.match(r"(pub )?mod ", line))
            taken.update(re.findall(rf"(?<![^\s(){{}};,@«»]){PART}", re.sub(r"Rattle\.[\w.]+", "", text)))
    names = {}
    for n in sorted(own):
        new = spelled(n)
        if n not in SPELLED and new in taken or new in names.values():
            print(f"stays, since {new} is there already: {n}")
        else:
            names[n] = new
    count = 0
    for p in paths:
        text = read(p)
        here = {n: v for n, v in names.items()}
        for n in library_names(text):
            here.pop(n, None)
        locals_here = (aliases(text) | bound(text)) if p.endswith(".antt") else aliases(text)
        if is_answer(p):
            own_lemmas = {n for line in text.split("\n") if not line.startswith(" ") and "goal." not in line for n in declared_by(line) if DASHED.match(n)}
            locals_here |= own_lemmas
        here_taken = set(TOKEN.findall(text))
        for n in locals_here - library_names(text):
            new = spelled(n)
            if n not in here and new not in here_taken and new not in here.values():
                here[n] = new
        out = "".join(turned(text[a:b], here, is_answer(p)) if code else text[a:b] for a, b, code in code_spans(p, text))
        if out != text:
            count += 1
            with open(p, "w", encoding="utf-8") as f:
                f.write(out)
    print(f"{len(names)} names, {count} files")


main()
