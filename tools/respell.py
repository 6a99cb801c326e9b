#!/usr/bin/env python3
"""Brings the repository's own names in specs/, contracts, proofs and pages to today's spelling, after port.py: words in snake case.

usage: python3 tools/respell.py [--list]        at the top of the repository, once; --list only prints what would be renamed

A definition, lemma, field or variable such as `busFeed` or `reach-step` becomes `bus_feed`, `reach_step`. Types and modules, names of src/, names of
the library and names that a proof of a function gets from Rattle (proofs/F/) stay. Where two names of a file would fall together, the lemma gets
`_lem`; where a word of a clause would be hidden by a parameter, field or constant, the word gets `_of`.
"""

import collections
import glob
import os
import re
import sys

APART = r"\s(){},;.:«»⌜⌝"
WORD = re.compile(rf"[^{APART}]+")
USE = re.compile(r"^(?:ghost |pub )*use ([^\s;{]+?)(?:\.\{([^}]*)\})?(?: as (\S+?))?;?$", re.M)
# whose members are written with them
LIBRARY_MODULES = ("Memᴰ.", "Permᴰ.", "Prim.")
TURNS = re.compile(r"[a-z_][^-]*-|^[a-z].*[a-z0-9][A-Z]|^[a-z].*[A-Z]")


def read(path):
    with open(path, encoding="utf-8") as it:
        return it.read()


def crates():
    return [m[1] for m in re.finditer(r"^(\w+)[ \w=]*:", read("crates.txt"), re.M)]


def files(*patterns):
    return sorted(f for p in patterns for f in glob.glob(p, recursive=True) if "/out/" not in f)


def snake(word):
    word = word.replace("-", "_")
    word = re.sub(r"(?<=[a-z0-9])(?=[A-Z])", "_", word)
    return "_".join(p[:1].lower() + p[1:] for p in word.split("_"))


def uncommented(text):
    """The text of an .antt file without comments and strings."""
    return re.sub(r'"[^"\n]*"', '""', re.sub(r"(?m)(^|(?<=\s))--(\s.*)?$", "", text))


def library_names(own, texts):
    names = set()
    for path, text in texts.items():
        for m in USE.finditer(text):
            inside = re.match(r"Rattle\.(\w+)\.", m[1])
            if (inside and inside[1] in own) or (path.endswith(".rt") and not m[0].startswith("ghost")) or not m[2]:
                continue
            for it in m[2].replace("\n", " ").split(","):
                names.add(it.strip().split(" as ")[0].strip())
    return names


def clause_spans(text):
    """The parts of a .rt file that are read as antt: ghost use lines, clauses, ghost fields."""
    spans = [m.span() for m in re.finditer(r"^ghost use [^;]*;", text, re.M)]
    used = list(spans)
    for m in re.finditer(r"\b(?:requires|ensures|ghost)\b[^{;\n]*\{", text):
        if any(a <= m.start() < b for a, b in used) or "//" in text[text.rfind("\n", 0, m.start()) + 1 : m.start()]:
            continue
        depth, i = 1, m.end()
        while depth and i < len(text):
            depth += {"{": 1, "}": -1}.get(text[i], 0)
            i += 1
        spans.append((m.end(), i - 1))
    return sorted(spans)


def rust_names(text):
    """What could hide a word of a clause: parameters, fields and constants (a local is not seen by a clause)."""
    found = set(re.findall(r"\b([a-z_][a-z0-9_]*): ", text)) | set(re.findall(r"\bconst ([A-Z0-9_]+)", text))
    return found


def plan():
    own = set(crates())
    specs = files("crates/*/specs/**/*.antt")
    proofs = files("crates/*/proofs/**/*.antt")
    sources = files("crates/*/src/**/*.rt")
    texts = {f: read(f) for f in specs + proofs + sources}
    library = library_names(own, texts)
    found, uses = collections.Counter(), collections.defaultdict(set)
    for f in specs:
        text = re.sub(r"(?m)^((?:pub )*use )[^\s{]+?(?=\.\{|$)", r"\1", uncommented(texts[f]))
        for w in WORD.findall(text):
            uses[f].add(w)
            if TURNS.search(w) and w not in library and not re.match(r"[A-Z◌]", w) and re.fullmatch(r"[\w'′₀-₉-]+", w):
                found[w] += 1
    for f in sources:
        for a, b in clause_spans(texts[f]):
            uses[f] |= set(WORD.findall(re.sub(r"^ghost use [^\s{]+", "", texts[f][a:b])))
            for w in re.findall(r" as ([\w'-]+)", texts[f][a:b]):
                if TURNS.search(w) and not re.match(r"[A-Z]", w):
                    found[w] += 1
    to = {w: snake(w) for w in found}
    declared = {m[1] for f in specs for m in re.finditer(r"(?m)^\s*(?:abbrev |pub |unfoldable )*([^\s(){}:,;]+) :", texts[f])}
    shown = set()
    # words of clauses that a parameter, a field or a constant of the file would hide
    for f in sources:
        hides = rust_names(texts[f])
        for w in uses[f]:
            if w in to and to[w] in hides:
                to[w] = to[w] + "_of"
                shown.add(f"hidden: {w} -> {to[w]} in {f}")
    # words of a file that would fall together: the lemma, which has a dash, gives way
    again = True
    while again:
        again = False
        for f, words in uses.items():
            targets = collections.defaultdict(list)
            for w in words:
                targets[to.get(w, w)].append(w)
            for t, ws in targets.items():
                if len(ws) > 1:
                    # a lemma had a dash, or has underscores since port.py
                    giving = sorted((w for w in ws if "-" in w), key=lambda w: (w not in to, w)) or [w for w in ws if w == t and w in declared and w not in library]
                    w = giving[0] if giving else next(w for w in ws if w in to)
                    to[w] = to.get(w, w) + "_lem"
                    shown.add(f"together: {ws} -> {w} becomes {to[w]} in {f}")
                    again = True
    return to, texts, specs, proofs, sources, shown


def turned(text, to, kept=(), fields=None):
    """The text with its words turned, but for those kept and, where fields are given, for what is picked by a dot and is no field."""

    def word(m):
        before = text[: at + m.start()]
        picked = before.endswith(".") and (before.endswith(LIBRARY_MODULES) or fields is not None and m[0] not in fields)
        return to[m[0]] if m[0] in to and m[0] not in kept and not picked else m[0]

    path = re.match(r"(?:ghost |pub )*use [^\s{;]+(?=\.\{|$|;)", text)
    at = path.end() if path else 0
    return text[:at] + WORD.sub(word, text[at:])


def turned_antt(text, to, kept=(), fields=None):
    lines = []
    for line in text.split("\n"):
        m = re.search(r"(^|(?<=\s))--(\s|$)", line)
        code, note = (line[: m.start()], line[m.start() :]) if m else (line, "")
        parts = re.split(r'("[^"]*")', code)
        code = "".join(p if i % 2 else turned(p, to, kept, fields) for i, p in enumerate(parts))
        note = re.sub(r"`([^`]*)`", lambda m: "`" + turned(m[1], to) + "`", note)
        note = re.sub(r"\b[a-z]+[A-Z]\w*\b", lambda m: to.get(m[0], m[0]), note)
        lines.append(code + note)
    return "\n".join(lines)


def turned_rt(text, to):
    out, at = [], 0
    for a, b in clause_spans(text):
        out += [text[at:a], turned(text[a:b], to)]
        at = b
    text = "".join(out) + text[at:]
    return re.sub(r"(?m)(?<=// ).*$", lambda m: re.sub(r"\b[a-z]+[A-Z]\w*\b", lambda w: to.get(w[0], w[0]), m[0]), text)


def goal_names(text):
    """The names of goals that a proof of a function declares and hands on: Rattle's own."""
    return set(re.findall(r"(?m)^([^\s:]+) : tie\.", text))


def main():
    to, texts, specs, proofs, sources, shown = plan()
    if "--list" in sys.argv:
        print("\n".join(sorted(shown)))
        print(len(to), "names")
        return
    for f in specs:
        write(f, turned_antt(texts[f], to))
    called = {m for f in sources for m in re.findall(r"\bfn (\w+)", texts[f])}
    fields = {m[1] for f in specs for m in re.finditer(r"(?m)^  (?:pub )?([^\s(){}:,;]+) :", texts[f])} - called
    for f in proofs:
        write(f, turned_antt(texts[f], to, goal_names(texts[f]), fields))
    for f in sources:
        write(f, turned_rt(texts[f], to))
    for f in files("README.md", "docs/**/*.md"):
        write(f, re.sub(r"`([^`\n]*)`", lambda m: "`" + turned(m[1], to) + "`", read(f)))


def write(path, text):
    if read(path) != text:
        with open(path, "w", encoding="utf-8") as it:
            it.write(text)


main()
