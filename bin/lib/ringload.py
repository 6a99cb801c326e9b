"""bin/ringload [--run] [FILE]: what each generator carries when equipment is booked on the buses.

    ring 3                  the size, first
    book 7 B3 1200          booking 7, on bus B3, of 1200 watts
    BB2 stuck open          a report by itself
    scan                    up to 64 reports of one cycle, between `scan` and `end`
    G1 stuck off
    BB2 fit
    end
    G2 locked               a generator is locked out for service, until `G2 unlocked`
    cancel 7                booking 7 is cancelled

    bin/ringload examples/bookings.txt              a line for the start, then one for each call
    bin/ringload --run FILE                         behind the start, each report and each scan its line of the run too
    bin/ringload < FILE                             from standard input

A line has the call, the watts of each generator, those of the live bookings on the buses that it feeds, and the watts on dark buses. The
run has the buses, the first wave and the second, as that of bin/ringctl. A booking has a number from 0 to 65535 and 1 to 100000 watts; at
most 64 are live. A call that is refused prints `refused` and the number, and changes nothing: 5, 6 or 11 as by bin/ringscan, 10 for a bus
that the ring has not, 12 for the watts, 13 for a number that is live already, or not when it is cancelled, 14 for a 65th booking. The line
and the reason are said on standard error, and the next call goes on from there.
Status: 0 all served, 1 something refused, 2 nothing could be read or written.
"""
import re

import faultlines
import ringtools
from faultlines import Mistake

# The kinds of a call, by number.
REPORT, SCAN, BOOKING, CANCELLATION = range(4)
ENTRY = 193             # the bytes of a call behind its kind

MOST_BOOKED = 64
MOST_WATTS = 100000


def number_in(text):
    return faultlines.number_in(text, 65535, "the number of a booking")


def bus_in(text):
    """A bus's number, also one that the ring has not, so that the controller judges it."""
    bus = re.fullmatch("b([0-9]+)", text.lower())
    if not bus:
        raise Mistake("a booking is on a bus, as B3")
    return faultlines.number_in(bus.group(1), 255, "a bus's number")


def low_first(number, size):
    return number.to_bytes(size, "little")


class Switching:
    """A report by itself, or a scan."""

    def __init__(self, line, kind):
        self.call, self.kind = faultlines.Call(line), kind

    def add(self, line, report):
        self.call.add(line, report)

    def text(self):
        """The call in words."""
        if self.kind == REPORT:
            return faultlines.report_text(faultlines.MOST, *self.call.reports[0])
        count = len(self.call.reports)
        return "scan of %d report%s" % (count, "" if count == 1 else "s")

    def entry(self):
        case = self.call.case()
        return case if self.kind == SCAN else case[1:4]

    def refusal(self, size, number):
        """The line and the reason of a refusal."""
        return self.call.refusal(size)


class Booking:
    """A booking: a number, a bus and watts."""

    kind = BOOKING

    def __init__(self, line):
        if len(line.texts) != 4:
            raise Mistake("a booking has a number, a bus and watts, as `book 7 B3 1200`")
        self.line, self.number, self.bus = line, number_in(line.texts[1]), bus_in(line.texts[2])
        self.watts = faultlines.number_in(line.texts[3], 2 ** 32 - 1, "the number of watts")

    def text(self):
        return "book %d B%d %d" % (self.number, self.bus, self.watts)

    def entry(self):
        return low_first(self.number, 2) + bytes([self.bus]) + low_first(self.watts, 4)

    def refusal(self, size, number):
        reasons = {10: faultlines.range_text("B", size), 12: "a booking has from 1 to %d watts" % MOST_WATTS,
                   13: "booking %d is live already" % self.number, 14: "%d bookings are live" % MOST_BOOKED}
        return "%s: refused %d, %s" % (self.line, number, reasons[number])


class Cancellation:
    """A cancellation: the number of a booking."""

    kind = CANCELLATION

    def __init__(self, line):
        if len(line.texts) != 2:
            raise Mistake("a cancellation has the number of a booking, as `cancel 7`")
        self.line, self.number = line, number_in(line.texts[1])

    def text(self):
        return "cancel %d" % self.number

    def entry(self):
        return low_first(self.number, 2)

    def refusal(self, size, number):
        return "%s: refused %d, booking %d is not live" % (self.line, number, self.number)


class Calls(faultlines.Calls):
    """The calls of readable lines after `ring N`: those of bin/ringscan, bookings and cancellations."""

    def begin(self, line):
        self.calls.append(Switching(line, SCAN if line.texts[0].lower() == "scan" else REPORT))
        return self.calls[-1]

    def take(self, line):
        word = line.texts[0].lower()
        if word not in faultlines.LOAD_WORDS:
            super().take(line)
        elif self.scan:
            raise Mistake("a scan has reports alone; its `end` is missing before `%s`" % word)
        else:
            self.calls.append(Booking(line) if word == "book" else Cancellation(line))


def calls_of(data):
    """The size and the calls of readable lines."""
    lines = faultlines.lines_in(data)
    size = faultlines.size_of(lines)
    calls = Calls(lines[1:]).calls
    if len(calls) > faultlines.MOST_CALLS:
        raise ringtools.Failure("there are at most %d calls, not %d" % (faultlines.MOST_CALLS, len(calls)))
    return size, calls


def program_input(size, calls):
    """The bytes that the program takes: the size, then the calls."""
    return bytes([size]) + b"".join(bytes([call.kind]) + call.entry().ljust(ENTRY, b"\0") for call in calls)


class Answer:
    """A line that the program printed: its refusal, 0 where there is none, and its figures, one a column."""

    def __init__(self, line):
        self.number = int(line.split(" ")[1]) if line.startswith("refused ") else 0
        self.columns = [line] if self.number else re.findall("[^ ]+ [0-9]+", line)


def run_of(size, calls):
    """The run's line of the start, of each report and of each scan, none where it is refused: that of ringscan's program, since bookings and
    cancellations do nothing to it; and none for these."""
    switching = [call.call for call in calls if call.kind in (REPORT, SCAN)]
    lines = iter(ringtools.output_of("ringscan", faultlines.scan_cases(size, switching), "ringload").decode().splitlines())
    called = [next(lines, "") if kind in (REPORT, SCAN) else "" for kind in [SCAN] + [call.kind for call in calls]]
    return ["" if line.startswith("refused ") else line.partition(" ")[2] for line in called]


def laid_out(texts, answers, run_lines):
    """The calls in words and their answers, in columns, and behind each its line of the run. A refusal stands across the columns."""
    figures = [answer.columns for answer in answers if not answer.number]
    widths = [max(map(len, column)) for column in zip(*figures)]
    first = max(map(len, texts)) + 3
    lines = []
    for text, answer, line in zip(texts, answers, run_lines):
        columns = answer.columns if answer.number else [c.ljust(width) for c, width in zip(answer.columns, widths)]
        lines.append((text.ljust(first) + "  ".join(columns)).rstrip())
        if line:
            lines.append("    " + line)
    return "\n".join(lines) + "\n"


def explain(size, calls, answers):
    """The line and the reason of each call that was refused."""
    if answers[0].number:
        ringtools.say("ringload", "ring %d: refused %d, %s" % (size, *faultlines.file_refusal(bytes([size, 0, 0]))))
    reasons = [call.refusal(size, answer.number) for call, answer in zip(calls, answers[1:]) if answer.number]
    if reasons:
        ringtools.say("ringload", faultlines.first_twenty(reasons))


def run(arguments):
    options, path = ringtools.one_file(arguments, ("--run",))
    size, calls = calls_of(ringtools.read_input(path, whole=True))
    output = ringtools.output_of("ringload", program_input(size, calls), "ringload")
    answers = [Answer(line) for line in output.decode().splitlines()]
    texts = ["ring %d" % size] + [call.text() for call in calls]
    run_lines = run_of(size, calls) if options else [""] * len(texts)
    ringtools.write_output(laid_out(texts[:len(answers)], answers, run_lines).encode())
    explain(size, calls, answers)
    return ringtools.REFUSED if any(answer.number for answer in answers) else ringtools.SERVED


if __name__ == "__main__":
    ringtools.command("ringload", __doc__, run)
