"""What the tests of the tools share."""
import os
import re
import struct
import subprocess
import sys
import unittest

ROOT = os.path.dirname(os.path.dirname(os.path.dirname(os.path.abspath(__file__))))
for folder in ("bin/lib", "tests", "tests/simulation"):
    sys.path.insert(0, os.path.join(ROOT, folder))
sys.dont_write_bytecode = True
import faultlines  # noqa: E402, F401
import make_vectors  # noqa: E402, F401
import ringchance  # noqa: E402, F401
import ringload  # noqa: E402, F401
import ringsim  # noqa: E402, F401
from make_vectors import RULES, sim  # noqa: E402, F401


class Answer:
    """What a command wrote, and its status."""

    def __init__(self, run):
        self.status = run.returncode
        self.out = run.stdout
        self.said = run.stderr.decode("utf-8", "replace")


def path(*names):
    return os.path.join(ROOT, *names)


def read(*names):
    with open(path(*names), "rb") as file:
        return file.read()


def run(words, data=b"", **options):
    options = {"stdout": subprocess.PIPE, "stderr": subprocess.PIPE, "timeout": 300, **options}
    if "stdin" not in options:
        options["input"] = data
    return Answer(subprocess.run(words, **options))


def tool(name, *words, data=b"", **options):
    """A command of bin/ on some words and an input."""
    return run([path("bin", name), *words], data, **options)


def program(name, data=b"", **options):
    """A built program itself."""
    return run([path("crates", name, "out", name)], data, **options)


def stored_runs():
    """The fault files of the stored cases, with the runs that the simulation gave them."""
    data, at = read("crates", "vectors", "data", "cases"), 0
    while at < len(data):
        size = int.from_bytes(data[at:at + 2], "little")
        file = data[at + 2:at + 2 + size]
        end = data.index(b"\0", at + 2 + size)
        yield file, data[at + 2 + size:end]
        at = end + 1


def number_of(data):
    """A number, low byte first."""
    return int.from_bytes(data, "little")


def words_for(record):
    """Words that make the health and the locks of a record: one for each part that is not fit, and one for each that is locked."""
    return [(code, word) for code, word in record.health.items() if word] + [(code, 4) for code, locked in record.locks.items() if locked]


RECORD = 674    # the bytes of a stored record


class CutCase:
    """A stored case of the minimal cut sets."""

    def __init__(self, data, at):
        self.record, self.bus = record_of(data[at:at + RECORD]), data[at + 674]
        self.n, self.room = self.record.n, number_of(data[at + 675:at + 677])
        self.number, self.count = data[at + 677], number_of(data[at + 678:at + 680])
        self.end = at + 680 + self.room
        self.buffer = data[at + 680:self.end]

    def sets(self):
        """The sets in the sheet of a served case, as tuples of codes."""
        triples = [self.buffer[2 + 3 * i:5 + 3 * i] for i in range(self.count)]
        return [tuple(code for code in triple if code != 255) for triple in triples]

    def file(self):
        """A fault file that makes the health and the locks of the record."""
        return make_vectors.fault_file(self.n, words_for(self.record))


def stored_cuts():
    """The stored cases of the minimal cut sets, as the simulation answered them."""
    data, at = read("crates", "vectors_cuts", "data", "cases"), 0
    while at < len(data):
        case = CutCase(data, at)
        yield case
        at = case.end


def booking_of(data):
    """A booking of a stored case."""
    return ringsim.Booking(number_of(data[:2]), data[2], number_of(data[3:7]))


def places_of(data):
    """The 64 places of the bookings of a stored case's record, also those behind the live ones."""
    return [booking_of(data[at:at + 7]) for at in range(142, 590, 7)]


def record_of(data):
    """A record of a stored case. Where more than 64 are live, the first booking stands for those that have no place."""
    health, orders = dict(zip(ringsim.ALL_CODES, data[1:61])), dict(zip(ringsim.ALL_CODES, map(bool, data[81:141])))
    locks = dict(zip(ringsim.GENERATOR_CODES, map(bool, data[61:81])))
    stand, live = places_of(data), data[141]
    watts = [number_of(data[at:at + 4]) for at in range(590, 674, 4)]
    return ringsim.Record(data[0], health, orders, locks, bookings=(stand + stand[:1] * live)[:live], watts=watts[:20], dark_watts=watts[20])


def report_of(data):
    """A report of a stored case."""
    return ringsim.Report(ringsim.Part(make_vectors.KINDS[data[0]], data[1]), data[2])


class StepCase:
    """A stored case of a start or a step."""

    def __init__(self, data):
        self.is_start, self.before, self.expected = data[1] == 255, data[:1] + data[2:675], data[680:1354]
        self.call, self.record, self.report = data[:678], record_of(self.before), report_of(data[675:678])
        self.room, self.number, self.after = data[678], data[679], record_of(self.expected)
        self.choices, self.buffer = data[1354:1394], data[1394:]


class ScanCase:
    """A stored case of a scan."""

    def __init__(self, data):
        self.before, self.expected = data[:RECORD], data[869:1543]
        self.record, self.count = record_of(self.before), data[674]
        self.places = [report_of(data[at:at + 3]) for at in range(675, 867, 3)]
        self.reports = self.places[:self.count]
        self.room, self.number, self.after = data[867], data[868], record_of(self.expected)
        self.choices, self.buffer = data[1543:1583], data[1583:]

    def flaws(self):
        """The refusal of each place's report by itself, 0 where it is good."""
        return [sim.report_refusal(self.record.n, report) for report in self.places]

    def sheet(self):
        """The sheet of a served case, and the bytes behind it."""
        end = 2 + 2 * (self.buffer[0] + self.buffer[1])
        return self.buffer[:end], self.buffer[end:]


class BookCase:
    """A stored case of a booking or a cancellation."""

    def __init__(self, data):
        self.before, self.expected = data[:RECORD], data[683:1357]
        self.record, self.is_booking, self.booking = record_of(self.before), data[674] == 0, booking_of(data[675:682])
        self.number, self.after = data[682], record_of(self.expected)


def way_of(n, bus, source, letter):
    """A way as document 01 has it, outward: the codes of its generator, its generator breaker, and its bus breakers from the generator's bus
    to the bus fed. Of two equally long the one through rising numbers is high."""
    up, down = (bus - source) % n, (source - bus) % n
    rises = (up <= down) == (letter == "h")
    walked = range(source, source + up) if rises else range(source - 1, source - 1 - down, -1)
    return [source - 1, 31 + source] + [64 + (k - 1) % n for k in walked]


def ways_in(n, choices):
    """The ways that the choices of a stored case name, of each bus that is lit, in number order."""
    named = [(bus, chr(choices[2 * bus - 2]), choices[2 * bus - 1]) for bus in range(1, n + 1)]
    return [way_of(n, bus, source, letter) for bus, letter, source in named if letter != "-"]


def outward(ways, before):
    """The second wave by Note 4 of document 02: the ways bus by bus, each part where it first comes, but for those ordered on before."""
    return list(dict.fromkeys(code for way in ways for code in way if code not in before))


def simulated_scans(data, together=False):
    """The simulation's answer to readable lines with scans, or to a fault file whose reports stand by themselves."""
    size, calls = faultlines.scans_of(data)
    reports = [[ringsim.report_of(*report) for report in call.reports] for call in calls]
    return make_vectors.scans_text(size, [sum(reports, [])] if together else reports).encode()


def rate_of(data):
    """A rate of a stored case."""
    figure = struct.unpack("<d", data[1:])[0]
    return {0: ringsim.chance_rate(figure), 1: ringsim.mean_hours_rate(figure)}.get(data[0], ringsim.UNRATED)


class ExposureCase:
    """A stored case of the chance of a dark hour."""

    def __init__(self, data):
        self.record, self.bus, rates = record_of(data[:RECORD]), data[674], data[675:1215]
        self.n, self.rates = self.record.n, {code: rate_of(rates[9 * k:9 * k + 9]) for k, code in enumerate(ringsim.ALL_CODES)}
        self.number, self.count, self.bits = data[1215], number_of(data[1216:1218]), data[1218:]


def load_call(call):
    """A call of bin/ringload as the simulation is asked: a word, and what it takes."""
    if call.kind == ringload.BOOKING:
        return "book", call.number, call.bus, call.watts
    if call.kind == ringload.CANCELLATION:
        return "cancel", call.number
    return ("report" if call.kind == ringload.REPORT else "scan", *[ringsim.report_of(*report) for report in call.call.reports])


def simulated_loads(data, with_run=False):
    """The simulation's answer to readable lines with bookings, in the columns of bin/ringload: the calls, a space more than two behind the
    longest, and the figures, two spaces behind the widest of each."""
    size, calls = ringload.calls_of(data)
    texts = ["ring %d" % size] + [call.text() for call in calls]
    answers = list(make_vectors.load_answers(size, map(load_call, calls)))
    figures = [["G%d %d" % figure for figure in enumerate(record.watts[:size], start=1)] + ["dark %d" % record.dark_watts]
               for _, record, _ in answers]
    wide = [max(len(row[k]) for row, answer in zip(figures, answers) if not answer[0]) for k in range(size + 1) if not answers[0][0]]
    text = ""
    for words, row, (refusal, _, line) in zip(texts, figures, answers):
        columns = ["refused %d" % refusal] if refusal else ["%-*s" % pair for pair in zip(wide, row)]
        text += "%-*s   %s" % (max(map(len, texts[:len(answers)])), words, "  ".join(columns).rstrip()) + "\n"
        text += "    %s\n" % line if line and with_run else ""
    return text.encode()


def rates_in(text):
    """The rates of readable lines, by a reading of our own: of the lines whose pattern fits a part the last decides."""
    rates = make_vectors.all_rated(ringsim.UNRATED)
    for pattern, *words in filter(None, (line.split("#")[0].split() for line in text.decode().splitlines())):
        rate = {"chance": ringsim.chance_rate, "hours": ringsim.mean_hours_rate}[words[0]](words[1]) if words[1:] else ringsim.UNRATED
        named = re.compile(pattern.replace("*", "[0-9]+") if pattern != "*" else ".*")
        rates = make_vectors.with_rate(rates, [code for code in rates if named.fullmatch(ringsim.name_of(code))], rate)
    return rates


def simulated_chances(rates, data):
    """The simulation's answer for rates and a fault file, in the columns of bin/ringchance, two spaces behind the widest of each."""
    refusal, answers = make_vectors.chances(rates_in(rates), data)
    if refusal:
        return b"refused %d\n" % refusal
    figures = [("sum %r" % answer.sum, "largest %r" % answer.largest, "sets %d" % answer.count) for answer in answers]
    wide = [max((len(row[k]) for row, answer in zip(figures, answers) if not answer.refusal), default=0) for k in range(3)]
    text = ""
    for bus, (row, answer) in enumerate(zip(figures, answers), start=1):
        columns = "refused %d" % answer.refusal if answer.refusal else "  ".join("%-*s" % pair for pair in zip(wide, row)).rstrip()
        text += "%-*s  %s\n" % (len("B%d" % len(answers)), "B%d" % bus, columns)
    return text.encode()


# Of the programs whose cases hold a record: the bytes of a case before those of its buffer, the first that is expected, and the room of the
# buffer; a booking has none, and the chance of a dark hour neither.
LAYOUTS = {
    "vectors_step": (1394, 679, lambda case: case[678]),
    "vectors_scan": (1583, 868, lambda case: case[867]),
    "vectors_cuts": (680, 677, lambda case: number_of(case[675:677])),
    "vectors_book": (1357, 682, lambda case: 0),
    "vectors_exposure": (1234, 1215, lambda case: 0),
}


def stored_cases(name):
    """The stored cases of a program, each with its bytes."""
    data, at = read("crates", name, "data", "cases"), 0
    size, _, room = LAYOUTS[name]
    while at < len(data):
        end = at + size + room(data[at:at + size])
        yield data[at:end]
        at = end


class ToolCase(unittest.TestCase):
    """Tests of a command: each has a status, and never a traceback."""

    def check(self, answer, status, out=None, said=None):
        self.assertNotIn("Traceback", answer.said)
        self.assertEqual(answer.status, status, answer.said)
        if out is not None:
            self.assertEqual(answer.out, out)
        if said is None:
            self.assertEqual(answer.said, "")
        else:
            self.assertRegex(answer.said, said)
