"""Readable lines and fault files: `ring 3`, `BB2 stuck open` to bytes and back, and what the controller refuses, in words.

A part is its kind and number, as G1, GB3 or BB2; numbers go from 1 to 20, and no further than the ring's size. Words are those
of WORDS. Where a byte has no name it is written as a number: `code 99 word 7`; a file that has not the shape of a fault file is
written as `bytes 3 1 0 64`. A file of no bytes stands for a ring of three without reports; the line `bytes` by itself makes one.
What follows a # is passed over, so are empty lines, and case, spaces and tabs do not matter. Between lines `scan` and `end`, which
bin/ringscan takes, stand reports that are handed over at once.
"""
import re

from ringtools import Failure, LONGEST_FILE, is_readable

KINDS = ("G", "GB", "BB")
FIRST_CODE = {"G": 0, "GB": 32, "BB": 64}
MOST = 20
MOST_REPORTS = 4096

# The words of a report, by number.
WORDS = ("fit", "stuck off", "stuck open", "stuck closed", "locked", "unlocked")

# The words that alter a generator's lock, and leave its health; the others alter a part's health, and leave the lock.
LOCK_WORDS = ("locked", "unlocked")

# The lines that a scan stands between.
SCAN_WORDS = ("scan", "end")

# The words that a booking's line and a cancellation's begin with.
LOAD_WORDS = ("book", "cancel")

# The words that each kind of part takes.
WORDS_OF_KIND = {"G": ("fit", "stuck off", *LOCK_WORDS), "GB": ("fit", "stuck open", "stuck closed"),
                 "BB": ("fit", "stuck open", "stuck closed")}


class Mistake(Exception):
    """Why a line cannot be read."""


def name_of(code):
    """The part of a code in the largest ring, or None."""
    for kind in KINDS:
        if FIRST_CODE[kind] <= code < FIRST_CODE[kind] + MOST:
            return "%s%d" % (kind, code - FIRST_CODE[kind] + 1)
    return None


def kind_of(name):
    return name.rstrip("0123456789")


def range_text(kind, size):
    return "a ring of %d has %s1 to %s%d" % (size, kind, kind, size)


def number_in(text, most, what):
    """A decimal number, at most so large."""
    if not re.fullmatch("[0-9]+", text):
        raise Mistake("%s is a number from 0 to %d" % (what, most))
    if len(text.lstrip("0")) > len(str(most)) or int(text) > most:
        raise Mistake("%s is at most %d" % (what, most))
    return int(text)


def part_code(text, size):
    """The code of a part's name in a ring."""
    name = re.fullmatch("(g|gb|bb)([0-9]+)", text.lower())
    if not name:
        raise Mistake("this names no part; parts are G1, GB1, BB1 and so on")
    kind = name.group(1).upper()
    digits = name.group(2).lstrip("0")
    if not digits or len(digits) > 2 or int(digits) > MOST:
        raise Mistake("%s are numbered from 1 to %d" % (kind, MOST))
    if int(digits) > size:
        raise Mistake(range_text(kind, size))
    return FIRST_CODE[kind] + int(digits) - 1


def word_number(texts):
    """The number of a word."""
    word = " ".join(texts).lower()
    if not texts:
        raise Mistake("the word is missing; words are: " + ", ".join(WORDS))
    if word in WORDS:
        return WORDS.index(word)
    if len(texts) == 2 and texts[0].lower() == "word":
        return number_in(texts[1], 255, "a word")
    raise Mistake("the word is none of: " + ", ".join(WORDS))


def report_in(texts, size):
    """The code and the word of a report's line."""
    if texts[0].lower() in SCAN_WORDS:
        raise Mistake("scans are read by bin/ringscan and bin/ringload")
    if texts[0].lower() in LOAD_WORDS:
        raise Mistake("bookings are read by bin/ringload")
    if texts[0].lower() == "code" and len(texts) > 1:
        return number_in(texts[1], 255, "a code"), word_number(texts[2:])
    return part_code(texts[0], size), word_number(texts[1:])


def size_in(texts):
    """The size in the line `ring N`."""
    if len(texts) != 2 or texts[0].lower() != "ring":
        raise Mistake("the first line is `ring N`, as `ring 3`")
    return number_in(texts[1], 255, "a ring has from 3 to 20 buses; the number that stands for them")


class Line:
    """A line that says something: its number in the text, and its words."""

    def __init__(self, number, texts):
        self.number = number
        self.texts = texts

    def __str__(self):
        text = "".join(c if c.isprintable() else "?" for c in " ".join(self.texts))
        return "line %d: %s" % (self.number, text if len(text) <= 60 else text[:60] + "..")


def lines_in(data):
    """The lines that say something. A line ends as on any system."""
    text = data.decode("utf-8-sig", "replace").replace("\r\n", "\n").replace("\r", "\n")
    numbered = enumerate((line.split("#")[0].split() for line in text.split("\n")), start=1)
    return [Line(number, texts) for number, texts in numbered if texts]


def first_twenty(lines):
    """A text of lines, and how many there are above twenty."""
    return "\n".join(lines[:20] + (["and %d lines more" % (len(lines) - 20)] if len(lines) > 20 else []))


def read_lines(lines, read):
    """What `read` makes of each line; every line with a mistake is named in the failure."""
    found, mistakes = [], []
    for line in lines:
        try:
            found.append(read(line))
        except Mistake as mistake:
            mistakes.append("%s: %s" % (line, mistake))
    if mistakes:
        raise Failure(first_twenty(mistakes))
    return found


def read_all(lines, read):
    """What `read` makes of the words of each line."""
    return read_lines(lines, lambda line: read(line.texts))


def size_of(lines):
    """The ring's size, from the first line."""
    if not lines:
        raise Failure("line 1: the first line is `ring N`, as `ring 3`")
    return read_all(lines[:1], size_in)[0]


def bytes_in(texts):
    """The bytes of a line `bytes 3 1 0`."""
    if texts[0].lower() != "bytes":
        raise Mistake("after a line `bytes` there are only such lines")
    return bytes(number_in(text, 255, "a byte") for text in texts[1:])


def is_bytes(lines):
    return bool(lines) and lines[0].texts[0].lower() == "bytes"


def joined(size, reports):
    """The bytes of a fault file."""
    count = len(reports)
    if count > 65535:
        raise Failure("a fault file counts at most 65535 reports, not %d" % count)
    return bytes([size, count % 256, count // 256] + [code for code, _ in reports] + [word for _, word in reports])


def encode(data):
    """The fault file of readable lines."""
    lines = lines_in(data)
    if is_bytes(lines):
        return b"".join(read_all(lines, bytes_in))
    size = size_of(lines)
    return joined(size, read_all(lines[1:], lambda texts: report_in(texts, size)))


def fault_file(data):
    """A fault file as it is, or that of readable lines."""
    return encode(data) if is_readable(data) else data


# ---- what a file of no bytes stands for

NO_BYTES = "no bytes: this file stands for a ring of three without reports"


def stands_for(file):
    """The bytes by which a fault file is read: its own, or where it has none those of a ring of three without reports."""
    return file or bytes((3, 0, 0))


def ring_size(file):
    """The number of buses that a fault file calls for."""
    return stands_for(file)[0]


def count_of(file):
    """The number of reports that a fault file calls for."""
    _, low, high = stands_for(file)[:3]
    return low + 256 * high


def remark_on(file, before=""):
    """A line on what a file of no bytes stands for; none on any other."""
    return [] if file else [before + NO_BYTES]


# ---- what the controller refuses

def file_refusal(file):
    """Refusals 1 to 4 and their reason, in the controller's order; 0 for a file of the right shape."""
    data = stands_for(file)
    if len(data) < 3:
        return 1, "a fault file has no bytes or at least 3, this one %d" % len(data)
    size, count = ring_size(data), count_of(data)
    if not 3 <= size <= MOST:
        return 2, "a ring has from 3 to %d buses, not %d" % (MOST, size)
    if count > MOST_REPORTS:
        return 3, "there are at most %d reports, not %d" % (MOST_REPORTS, count)
    if len(data) != 3 + 2 * count:
        return 4, "with %d reports a file has %d bytes, this one %s" % (
            count, 3 + 2 * count, "more than %d" % LONGEST_FILE if len(data) > LONGEST_FILE else len(data))
    return 0, ""


def report_refusal(size, code, word):
    """Refusals 5 and 6 of a report and their reason; 0 for one that is served."""
    name = name_of(code)
    if name is None:
        return 5, "code %d names no part" % code
    kind = kind_of(name)
    if code - FIRST_CODE[kind] >= size:
        return 5, range_text(kind, size)
    if word >= len(WORDS):
        return 6, "word %d is none: words go from 0 to %d" % (word, len(WORDS) - 1)
    if WORDS[word] in WORDS_OF_KIND[kind]:
        return 0, ""
    *others, last = WORDS_OF_KIND[kind]
    reason = "a %s is reported as %s or %s" % ("generator" if kind == "G" else "breaker", ", ".join(others), last)
    return 6, reason + ("; locks are for generators" if WORDS[word] in LOCK_WORDS else "")


def shaped(file):
    """Whether the bytes have the shape of a fault file, whatever they say."""
    data = stands_for(file)
    return len(data) >= 3 and len(data) == 3 + 2 * count_of(data)


def reports_of(file):
    """The codes and words of a file of the right shape."""
    data, count = stands_for(file), count_of(file)
    return list(zip(data[3:3 + count], data[3 + count:]))


def report_text(size, code, word):
    """A report as a line that `encode` takes back."""
    name = name_of(code)
    if name is None or code - FIRST_CODE[kind_of(name)] >= size:
        return "code %d word %d" % (code, word)
    return "%s %s" % (name, WORDS[word] if word < len(WORDS) else "word %d" % word)


def decode(data):
    """A fault file as lines that `encode` takes back, whatever its bytes. One that has none is shown as what it stands for, so that a user
    can go on with it."""
    number, reason = file_refusal(data)
    remark = ["# refused %d: %s" % (number, reason)] if number else remark_on(data, "# ")
    if not shaped(data):
        rows = [data[i:i + 16] for i in range(0, len(data), 16)]
        return "\n".join(remark + [" ".join(["bytes"] + [str(byte) for byte in row]) for row in rows]) + "\n"
    size = ring_size(data)
    lines = ["ring %d" % size]
    for code, word in reports_of(data):
        refusal, why = report_refusal(size, code, word)
        lines.append(report_text(size, code, word) + ("    # refused %d: %s" % (refusal, why) if refusal else ""))
    return "\n".join(remark + lines) + "\n"


def labelled_file(data):
    """A fault file, and for each of its reports the line that it stands in, or its number. A part that the ring lacks has its code
    here, so that it can be judged."""
    lines = lines_in(data) if is_readable(data) else []
    if lines and not is_bytes(lines):
        reports = read_all(lines[1:], lambda texts: report_in(texts, MOST))
        return joined(size_of(lines), reports), [str(line) for line in lines[1:]]
    file = fault_file(data)
    reports = reports_of(file) if shaped(file) else []
    return file, ["report %d: %s" % (i, report_text(ring_size(file), *report)) for i, report in enumerate(reports, start=1)]


def check(data):
    """What the controller would refuse in a fault file or in readable lines, a line each, or what a file of no bytes stands for; and the
    number of its answer, 0 where it serves."""
    file, labels = labelled_file(data)
    number, reason = file_refusal(file)
    if number:
        return ["refused %d, %s" % (number, reason)], number
    found = []
    for label, (code, word) in zip(labels, reports_of(file)):
        refusal, reason = report_refusal(ring_size(file), code, word)
        if refusal:
            found.append((refusal, "%s: refused %d, %s" % (label, refusal, reason)))
    return remark_on(file) + [line for _, line in found], found[0][0] if found else 0


# ---- the plant: health, locks and orders

class Plant:
    """A ring's health, locks and last orders, part by part, from readable lines: at first all fit, unlocked, off and open."""

    def __init__(self, size):
        self.size = size
        self.health = {}
        self.locks = {}
        self.orders = {}

    def order(self, text, on, kinds, advice):
        code = part_code(text, self.size)
        if kind_of(name_of(code)) not in kinds:
            raise Mistake("%s: %s" % (text, advice))
        self.orders[code] = on

    def tell(self, code, word):
        """A word on a part: it alters the health, or a generator's lock."""
        if name_of(code) is None:
            raise Mistake("code %d names no part" % code)
        if word >= len(WORDS) or WORDS[word] not in LOCK_WORDS:
            self.health[code] = word
        elif kind_of(name_of(code)) != "G":
            raise Mistake("locks are for generators")
        else:
            self.locks[code] = WORDS[word] == "locked"

    def take(self, texts):
        """A line: a report of health or of a lock, or an order."""
        first, last = texts[0].lower(), texts[-1].lower()
        if first in ("close", "open"):
            if len(texts) == 1:
                raise Mistake("name the breakers, as `%s BB2`" % first)
            for text in texts[1:]:
                self.order(text, first == "close", ("GB", "BB"), "a generator is ordered `on` or `off`, as `G1 on`")
        elif len(texts) == 2 and last in ("on", "off"):
            self.order(texts[0], last == "on", ("G",), "a breaker is ordered by `close` or `open`, as `close BB2`")
        else:
            self.tell(*report_in(texts, self.size))

    def case(self):
        """The bytes that the program takes: the size, the health of sixty parts, the locks of twenty generators, and the orders of sixty
        parts."""
        codes = [FIRST_CODE[kind] + i for kind in KINDS for i in range(MOST)]
        health, locks = [self.health.get(code, 0) for code in codes], [int(self.locks.get(code, False)) for code in codes[:MOST]]
        return bytes([self.size] + health + locks + [int(self.orders.get(code, False)) for code in codes])


def plant_case(data):
    """The case of readable lines of ring, health, locks and orders."""
    lines = lines_in(data)
    plant = Plant(size_of(lines))
    read_all(lines[1:], plant.take)
    return plant.case()


# ---- scans: several reports at once

MOST_SCANNED = 64       # the places of a scan
MOST_CALLS = 9999       # a call's number has at most four digits
BLANK_PLACE = bytes(3)


class Call:
    """A report by itself, or a scan: the line that it is or begins with, its reports, and the line of each."""

    def __init__(self, label):
        self.label = str(label)
        self.reports = []
        self.labels = []

    def __str__(self):
        return self.label

    def add(self, label, report):
        self.labels.append(str(label))
        self.reports.append(report)
        return self

    def refusal(self, size):
        """Why it is refused: the line, the number and the reason; None where it is served."""
        if len(self.reports) > MOST_SCANNED:
            return "%s: refused 11, a scan has at most %d reports, not %d" % (self, MOST_SCANNED, len(self.reports))
        for label, report in zip(self.labels, self.reports):
            number, reason = report_refusal(size, *report)
            if number:
                return "%s: refused %d, %s" % (label, number, reason)
        return None

    def case(self):
        """The bytes that the program takes: the count and 64 places, those past the count blank. The count is a byte; one above 64 is
        refused, whatever it is."""
        places = [place_of(*report) for report in self.reports[:MOST_SCANNED]]
        return bytes([min(len(self.reports), 255)]) + b"".join(places) + BLANK_PLACE * (MOST_SCANNED - len(places))


def place_of(code, word):
    """The three bytes of a place: the number of its part's kind, the part's own, and the word."""
    kind = kind_of(name_of(code))
    return bytes([KINDS.index(kind), code - FIRST_CODE[kind] + 1, word])


def scanned(code, word):
    """A report that a place of a scan can hold."""
    if name_of(code) is None:
        raise Mistake("code %d names no part; a scan has no place for it" % code)
    if word >= len(WORDS):
        raise Mistake("word %d is none; a scan has no place for it" % word)
    return code, word


def unpaired(lines):
    """What is missing to each `scan` without an `end` and each `end` without a `scan`, by the number of its line."""
    found, begun = {}, None
    for line in lines:
        word = line.texts[0].lower()
        if word == "scan":
            if begun:
                found[begun] = "its `end` is missing; line %d begins another scan" % line.number
            begun = line.number
        elif word == "end":
            if not begun:
                found[line.number] = "there is no `scan` before it"
            begun = None
    if begun:
        found[begun] = "its `end` is missing"
    return found


class Calls:
    """The calls of readable lines after `ring N`: a report by itself, or the reports between `scan` and `end`. A part has its code
    here though the ring may lack it, so that the controller judges it."""

    def __init__(self, lines):
        self.calls = []
        self.scan = None
        self.unpaired = unpaired(lines)
        read_lines(lines, self.take)

    def begin(self, line):
        self.calls.append(Call(line))
        return self.calls[-1]

    def take(self, line):
        """A line: a report, `scan` or `end`."""
        word = line.texts[0].lower()
        if word not in SCAN_WORDS:
            report = scanned(*report_in(line.texts, MOST))
            (self.scan or self.begin(line)).add(line, report)
        elif len(line.texts) > 1:
            raise Mistake("`%s` stands by itself in its line" % word)
        elif line.number in self.unpaired:
            raise Mistake(self.unpaired[line.number])
        else:
            self.scan = self.begin(line) if word == "scan" else None


def scans_of(data):
    """The size and the calls of readable lines, or of a fault file, whose reports stand by themselves; None for a fault file that is
    refused by its shape."""
    lines = lines_in(data) if is_readable(data) else []
    if lines and not is_bytes(lines):
        return size_of(lines), Calls(lines[1:]).calls
    file, labels = labelled_file(data)
    if file_refusal(file)[0]:
        return None
    calls = [Call(label).add(label, report) for label, report in zip(labels, reports_of(file))]
    read_lines(calls, lambda call: scanned(*call.reports[0]))
    return ring_size(file), calls


def together(calls):
    """One scan of all reports."""
    whole = Call("all together")
    for call in calls:
        for label, report in zip(call.labels, call.reports):
            whole.add(label, report)
    return whole


def scan_cases(size, calls):
    """The bytes that the program takes: the size, then the calls."""
    if len(calls) > MOST_CALLS:
        raise Failure("there are at most %d calls, not %d" % (MOST_CALLS, len(calls)))
    return bytes([size]) + b"".join(call.case() for call in calls)
