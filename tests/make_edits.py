#!/usr/bin/env python3
"""docs/EDITS.md from the comments at the head of the edits in crates/*/must-fail: make_edits.py [--check]

The first comment of an edit says the wrong program that it makes, in a sentence; one behind it that begins `fact:` the fact that fails in
it. Where there is no such line the edit's name says the wrong program, and its comment is the fact. Without arguments the document is
written; with --check nothing is, and the status is 1 where the document is not current."""
import glob
import os
import sys

ROOT = os.path.dirname(os.path.dirname(os.path.abspath(__file__)))
DOCUMENT = os.path.join(ROOT, "docs", "EDITS.md")
HEAD = """# Wrong programs

An edit, `crates/CRATE/must-fail/EDIT.edit`, makes a wrong program out of the right one, and the gate refuses it. A table a crate: what the
edited program does, with the demand that it breaks where the specification names one, and the fact that fails. The gate prints the error
that refuses each. `tests/make_edits.py` makes this page from the edits.
"""


def crates():
    """The crates, in the order of crates.txt."""
    with open(os.path.join(ROOT, "crates.txt"), encoding="utf-8") as file:
        lines = (line.split("#")[0].partition(":") for line in file)
        return [name.strip() for name, colon, _ in lines if colon]


def rows(path):
    """An edit's rows: its wrong program, where a comment says it, and the fact that fails in it."""
    with open(path, encoding="utf-8") as file:
        lines = [line[1:].strip() for line in file if line.startswith("#")]
    name = os.path.splitext(os.path.basename(path))[0]
    said = [line for line in lines if not line.startswith("fact:")]
    fact = ["fails: " + line[len("fact:"):].strip() for line in lines if line.startswith("fact:")]
    told = said + fact if fact else ["fails: " + line.rstrip(".") for line in said]
    if len(said) != 1 or len(fact) > 1:
        sys.exit("%s: an edit has one comment, and at most one `fact:` behind it" % os.path.relpath(path, ROOT))
    return ["| %s | %s |\n" % row for row in zip([name, ""], told)]


def document():
    """The whole page."""
    parts = [HEAD]
    for crate in crates():
        edits = sorted(glob.glob(os.path.join(ROOT, "crates", crate, "must-fail", "*.edit")))
        if edits:
            parts.append("\n## %s\n\n| Edit | What it does, and what fails |\n|---|---|\n" % crate)
            parts += [row for path in edits for row in rows(path)]
    return "".join(parts)


def main():
    page = document()
    if sys.argv[1:] == ["--check"]:
        with open(DOCUMENT, encoding="utf-8") as file:
            if file.read() != page:
                sys.exit("docs/EDITS.md is not current: run tests/make_edits.py")
    elif sys.argv[1:]:
        sys.exit(__doc__)
    else:
        with open(DOCUMENT, "w", encoding="utf-8") as file:
            file.write(page)


if __name__ == "__main__":
    main()
