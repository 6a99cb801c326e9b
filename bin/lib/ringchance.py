"""bin/ringchance [--bits] RATES [FILE]: the chance of a dark hour of each bus, from the rates of its parts, after a fault file's last report.

    # RATES: a part and its rate to a line
    G* chance 1e-7          every generator fails with this chance per hour
    GB* chance 1e-8
    BB* hours 250000        a mean number of hours between failures
    BB3 chance 2e-6         a later line decides; so BB3 alone has another rate
    G2 unrated              as is every part that no line names

    bin/ringchance examples/published-rates.rates examples/planning-desk.txt
    bin/ringchance RATES < FILE                     the faults from standard input; a file `-` is that too
    bin/ringchance --bits RATES FILE                the exact 64-bit floats, in hexadecimal digits

Parts are G1 to G20, GB1 to GB20 and BB1 to BB20, also those that the ring has not; `G*` are all of a kind, `*` all of every kind.
A bus has the sum over its sets of further faults, those of bin/ringcuts, of each set's chances multiplied; the largest product; and how
many sets there are. A bus that is dark already has the empty set, and 1.0. Figures have as many digits as tell the float from any other.
A bus may be refused: by 15 where a chance is not from 0 to 1, or hours are not finite or below 1, of any part of the ring; by 16 where
a part in one of its sets is unrated. The lines and the parts are named on standard error.
FILE has readable lines where it begins with `ring ` or `#`, every other goes to the program as it is; one of no bytes stands for a ring of
three without reports.
Status: 0 all served, 1 something refused, 2 nothing could be read or written.
"""
import math
import os
import struct

import faultlines
import ringtools
from faultlines import Mistake

# The kinds of a rate, by number.
CHANCE, HOURS, UNRATED = range(3)
FIGURES = {"chance": CHANCE, "hours": HOURS}
WHY_OUTSIDE = {CHANCE: "a chance is from 0 to 1", HOURS: "hours are finite and at least 1"}

PARTS = [faultlines.FIRST_CODE[kind] + i for kind in faultlines.KINDS for i in range(faultlines.MOST)]


def parts_in(text):
    """The codes of the parts that a line names: one, all of a kind, as `BB*`, or all, as `*`."""
    kinds = {"*": faultlines.KINDS, **{kind + "*": (kind,) for kind in faultlines.KINDS}}.get(text.upper())
    if kinds is None:
        return [faultlines.part_code(text, faultlines.MOST)]
    return [code for code in PARTS if faultlines.kind_of(faultlines.name_of(code)) in kinds]


class Rate:
    """What a line says: its parts, the number of a kind, and the figure."""

    def __init__(self, line):
        self.line = line
        first, *words = line.texts
        if first.lower() == "ring":
            raise Mistake("this is a line of faults; the rates come first, then the faults")
        self.parts = parts_in(first)
        word = words[0].lower() if words else ""
        if len(words) != 1 + (word in FIGURES) or word not in ("unrated", *FIGURES):
            raise Mistake("behind the part stands `chance X`, `hours X` or `unrated`")
        self.kind, self.figure = FIGURES.get(word, UNRATED), 0.0
        if word in FIGURES:
            try:
                self.figure = float(words[1])
            except ValueError:
                raise Mistake("a rate's figure is a number, as 1e-7 or 250000")

    def outside(self):
        """15: "a chance not from 0 to 1, or hours not finite or below 1"."""
        if self.kind == CHANCE:
            return not 0.0 <= self.figure <= 1.0
        return self.kind == HOURS and not (math.isfinite(self.figure) and self.figure >= 1.0)


class Rates:
    """The last line on each part."""

    def __init__(self, data):
        lines = faultlines.read_lines(faultlines.lines_in(data), Rate)
        self.rates = {code: rate for rate in lines for code in rate.parts}

    def entry(self, code):
        rate = self.rates.get(code)
        return struct.pack("<Bd", rate.kind, rate.figure) if rate else struct.pack("<Bd", UNRATED, 0.0)

    def program_input(self):
        """The bytes that the program takes before a fault file: of each part the number of its rate's kind and the float."""
        return b"".join(map(self.entry, PARTS))

    def of_ring(self, size):
        """The parts of a ring, and the rate of each, None where no line names it."""
        return [(code, self.rates.get(code)) for code in PARTS if code % 32 < size]

    def lines_outside(self, size):
        """The lines that a part of the ring is refused for."""
        return dict.fromkeys(rate for _, rate in self.of_ring(size) if rate and rate.outside())

    def unrated(self, size):
        """The names of a ring's unrated parts, and of a kind all of whose parts are."""
        found = [faultlines.name_of(code) for code, rate in self.of_ring(size) if not rate or rate.kind == UNRATED]
        names = []
        for kind in faultlines.KINDS:
            named = [name for name in found if faultlines.kind_of(name) == kind]
            names += [kind + "*"] if len(named) == size else named
        return " ".join(names)


def float_of(digits):
    return struct.unpack(">d", bytes.fromhex(digits))[0]


def figures_of(line):
    """The columns of a bus, from the line that the program printed."""
    bus, *words = line.split(" ")
    if words[0] == "refused":
        return [bus, " ".join(words)]
    return [bus, "sum %r" % float_of(words[0]), "largest %r" % float_of(words[1]), "sets " + words[2]]


def laid_out(lines):
    """The buses in columns. A refusal stands across them."""
    rows = [figures_of(line) for line in lines]
    widths = [max(map(len, column)) for column in zip(*[figures for _, *figures in rows if len(figures) > 1])] or [0]
    first = max(len(bus) for bus, *_ in rows)
    return "".join("  ".join(text.ljust(width) for text, width in zip(row, [first] + widths)).rstrip() + "\n" for row in rows)


def explain(place, rates, size, lines):
    """Why buses were refused: the lines of the rates, or the parts that have none."""
    refused = {number: [line.split(" ")[0] for line in lines if line.endswith(" refused %d" % number)] for number in (15, 16)}
    reasons = ["%s: %s: refused 15, %s" % (place, rate.line, WHY_OUTSIDE[rate.kind]) for rate in rates.lines_outside(size) if refused[15]]
    if refused[16]:
        reasons.append("%s: refused 16, a set has an unrated part; of this ring's are unrated: %s"
                       % (" ".join(refused[16]), rates.unrated(size)))
    if reasons:
        ringtools.say("ringchance", faultlines.first_twenty(reasons))


def named(place, make, data):
    """What is made of a file's bytes; a failure names the file before the line."""
    try:
        return make(data)
    except ringtools.Failure as failure:
        raise ringtools.Failure("\n".join("%s: %s" % (place, line) for line in str(failure).split("\n")))


def two_files(files):
    """The rates and the faults, None for standard input. Where there are no faults and standard input is a terminal, the use is shown."""
    if len(files) > 2:
        raise ringtools.Failure("two files, the rates and the faults, not %d: %s" % (len(files), " ".join(files)))
    if not files or len(files) == 1 and os.isatty(0):
        raise ringtools.Use
    rates, faults = [None if name == "-" else name for name in (files + ["-"])[:2]]
    if rates is None and faults is None:
        raise ringtools.Failure("the rates and the faults cannot both come from standard input")
    return rates, faults


def run(arguments):
    options, files = ringtools.told_apart(arguments, ("--bits",))
    rates_path, faults_path = two_files(files)
    place = rates_path or "standard input"
    rates = named(place, Rates, ringtools.read_input(rates_path, whole=True))
    data = ringtools.read_input(faults_path)
    file = named(faults_path or "standard input", faultlines.fault_file, data)
    output, status = ringtools.answer_of("ringchance", data, rates.program_input() + file)
    if status == ringtools.REFUSED:
        ringtools.write_output(output)
        return status
    lines = output.decode().splitlines()
    ringtools.write_output(output if options else laid_out(lines).encode())
    explain(place, rates, faultlines.ring_size(file), lines)
    return ringtools.REFUSED if any(" refused " in line for line in lines) else ringtools.SERVED


if __name__ == "__main__":
    ringtools.command("ringchance", __doc__, run)
