#!/usr/bin/env python3
"""The table of source priorities as the printed sheets have it, read from the source itself: print_table.py [--source FILE] [SIZE ..]

A page a ring size, parted by form feeds; a row a bus, its sources from the first to the last. Without a size every page, 3 to 20, is
printed. FILE is a source that has the constant SOURCES; without it, crates/sources/src/lib.rt."""
import argparse
import os
import re
import sys

ROOT = os.path.dirname(os.path.dirname(os.path.abspath(__file__)))
SOURCE = os.path.join(ROOT, "crates", "sources", "src", "lib.rt")
SIZES = range(3, 21)


class Unreadable(Exception):
    """Why a source has no table that can be printed."""


def entries(text):
    """The numbers of the constant SOURCES, in their order; there are as many as its type says."""
    found = re.findall(r"^const SOURCES: \[u8; (\d+)\] = \[(.*?)^\];", text, re.DOTALL | re.MULTILINE)
    if len(found) != 1:
        raise Unreadable("it has no constant SOURCES, or more than one")
    count, body = found[0]
    words = [word.strip() for word in re.sub(r"//[^\n]*", "", body).split(",")]
    if words[-1] == "":
        words.pop()
    for word in words:
        if not re.fullmatch(r"[0-9]+", word):
            raise Unreadable("an entry of SOURCES is no number: %r" % word)
    if len(words) != int(count):
        raise Unreadable("SOURCES has %d entries, and its type says %s" % (len(words), count))
    if len(words) != sum(n * n for n in SIZES):
        raise Unreadable("SOURCES has %d entries; the rows of the sizes from 3 to 20 are %d" % (len(words), sum(n * n for n in SIZES)))
    return [int(word) for word in words]


def pages(table):
    """The rows of each size: sizes one behind the other, a row a bus."""
    rest, sheets = iter(table), {}
    for n in SIZES:
        sheets[n] = [[next(rest) for _ in range(n)] for _ in range(n)]
    return sheets


def page(n, rows):
    """The text of a page."""
    lines = ["Sources of a ring of %d, first to last" % n, ""]
    for bus, row in enumerate(rows, 1):
        lines.append(("%-5s" % ("B%d" % bus) + " ".join("%-3s" % ("G%d" % g) for g in row)).rstrip())
    return "\n".join(lines) + "\n"


def size(word):
    """A ring size that a word names."""
    if not re.fullmatch(r"[0-9]+", word) or int(word) not in SIZES:
        raise argparse.ArgumentTypeError("%r is no ring size: sizes are from 3 to 20" % word)
    return int(word)


def main():
    parser = argparse.ArgumentParser(description=__doc__, formatter_class=argparse.RawDescriptionHelpFormatter)
    parser.add_argument("--source", metavar="FILE", default=SOURCE)
    parser.add_argument("sizes", metavar="SIZE", type=size, nargs="*")
    asked = parser.parse_args()
    try:
        with open(asked.source, encoding="utf-8") as file:
            sheets = pages(entries(file.read()))
    except (OSError, UnicodeDecodeError, Unreadable) as why:
        sys.exit("print_table.py: %s: %s" % (asked.source, getattr(why, "strerror", None) or why))
    try:
        sys.stdout.write("\f".join(page(n, sheets[n]) for n in asked.sizes or SIZES))
        sys.stdout.flush()
    except OSError as why:
        # what is left unwritten is not tried again on the way out
        os.dup2(os.open(os.devnull, os.O_WRONLY), sys.stdout.fileno())
        sys.exit("print_table.py: standard output: %s" % why.strerror)


if __name__ == "__main__":
    main()
