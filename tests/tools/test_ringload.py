"""bin/ringload and its program: bookings, cancellations, reports and scans, beside the simulation."""
import collections
import os
import pty
import random
import re
import subprocess
import tempfile
import time
import unittest

from support import ToolCase, make_vectors, path, program, read, ringload, ringsim, run, simulated_loads, tool

LINES = b"ring 3\nbook 7 B3 1200\nBB2 stuck open\nscan\nG1 stuck off\nBB3 stuck open\nend\ncancel 7\n"
COLUMNS = (b"ring 3              G1 0     G2 0     G3 0     dark 0\n"
           b"book 7 B3 1200      G1 0     G2 1200  G3 0     dark 0\n"
           b"BB2 stuck open      G1 1200  G2 0     G3 0     dark 0\n"
           b"scan of 2 reports   G1 0     G2 0     G3 1200  dark 0\n"
           b"cancel 7            G1 0     G2 0     G3 0     dark 0\n")
RUNS = {1: b"    B1=G1o B2=G2o B3=G2h / - / G1+ GB1+ G2+ GB2+ BB2+\n", 3: b"    B1=G1o B2=G2o B3=G1h / BB2- / BB3+\n",
        4: b"    B1=G2h B2=G2o B3=G3o / G1- GB1- BB3- / BB1+ G3+ GB3+\n"}
OPEN = make_vectors.report_on("BB", 2, 2)
RINGS = (3, 3, 4, 5, 8, 13, 20)


def text_of(n, calls):
    return make_vectors.loads_text(n, calls).encode()


def numbers_in(text):
    """The numbers by which calls are refused, in their order."""
    return [int(number) for number in re.findall(rb"\brefused ([0-9]+)$", text, re.M)]


class Calls:
    """Calls at random, some of which are refused, and a count of its own of what is booked and cancelled."""

    def __init__(self, rng, n, highest=255):
        self.rng, self.n, self.highest = rng, n, highest
        self.live = {}      # the watts of each number
        self.calls, self.totals = [], [0]

    def add(self, *call):
        self.calls.append(call)
        self.totals.append(sum(self.live.values()))

    def number(self, live):
        """A number that is live, or one that is not."""
        if live and self.live:
            return self.rng.choice(list(self.live))
        return self.rng.choice([number for number in self.rng.sample(range(65536), 65) + [0, 65535] if number not in self.live])

    def book(self):
        number, bus = self.number(self.rng.random() < .15), self.rng.randint(1, self.n)
        watts = make_vectors.any_watts(self.rng)
        if self.rng.random() < .15:
            bus = self.rng.choice([0, self.n + 1, 255])
        if self.rng.random() < .15:
            watts = self.rng.choice([0, 100001, 2 ** 32 - 1])
        if 1 <= bus <= self.n and 1 <= watts <= 100000 and number not in self.live and len(self.live) < 64:
            self.live[number] = watts
        self.add("book", number, bus, watts)

    def cancel(self):
        number = self.number(self.rng.random() < .8)
        self.live.pop(number, None)
        self.add("cancel", number)

    def report(self):
        bad = [report for report in make_vectors.bad_reports(self.rng, self.n) if 1 <= report.part.number <= self.highest]
        self.add("report", self.rng.choice(bad) if self.rng.random() < .1 else make_vectors.good_report(self.rng, self.n))

    def scan(self):
        reports = make_vectors.good_reports(self.rng, self.n, self.rng.choice([0, 1, 2, 3, 5, 8, 30, 64, 65]))
        bad = [report for report in make_vectors.bad_reports(self.rng, self.n) if 1 <= report.part.number <= self.highest]
        if reports and self.rng.random() < .1:
            reports[self.rng.randrange(len(reports))] = self.rng.choice(bad)
        self.add("scan", *reports)

    def many(self, count, booking=.5):
        """So many calls; of those that are no reports or scans, this share are bookings."""
        for _ in range(count):
            switching = self.rng.random() < .35
            (self.rng.choice([self.report, self.scan]) if switching else self.book if self.rng.random() < booking else self.cancel)()
        return self


def line_of(call):
    """A call as readable lines."""
    word, *taken = call
    if word in ("book", "cancel"):
        return {"book": "book %d B%d %d", "cancel": "cancel %d"}[word] % tuple(taken)
    words = ("fit", "stuck off", "stuck open", "stuck closed", "locked", "unlocked")
    reports = ["%s%d %s" % (report.part.kind, report.part.number, words[report.word]) for report in taken]
    return reports[0] if word == "report" else "\n".join(["scan"] + reports + ["end"])


def lines_of(n, calls):
    return ("\n".join(["ring %d" % n] + [line_of(call) for call in calls]) + "\n").encode()


class Program(unittest.TestCase):

    def holds(self, n, calls):
        """The program prints what the simulation does."""
        answer = program("ringload", make_vectors.loads_file(n, calls))
        self.assertEqual((answer.out, answer.said, answer.status), (text_of(n, calls), "", 0))
        return answer.out

    def test_the_gates_input(self):
        """Each kind of call, each refusal of bookings, reports and scans, 64 bookings, a dark bus and a dark ring."""
        n, calls = make_vectors.gate_loads()
        text = self.holds(n, calls)
        self.assertEqual(set(numbers_in(text)), {5, 6, 10, 11, 12, 13, 14})
        self.assertEqual({word for word, *_ in calls}, set(make_vectors.LOAD_CALLS))
        self.assertEqual(max(len(record.bookings) for _, record, _ in make_vectors.load_answers(n, calls)), 64)
        self.assertEqual(read("crates", "ringload", "stdin"), make_vectors.loads_file(n, calls))
        self.assertEqual(read("crates", "ringload", "stdout"), text)

    def test_long_lists(self):
        """Numbers of refusals and every figure are the simulation's, call by call; the figures add up to what the list itself counts as booked
        less what it counts as cancelled."""
        rng, seen, most = random.Random(40), collections.Counter(), 0
        for k in range(60):
            n = RINGS[k % len(RINGS)]
            made = Calls(rng, n).many(240, booking=rng.choice([.4, .5, .7, .95]))
            text = self.holds(n, made.calls).decode()
            last = total = 0
            for line, booked in zip(text.splitlines(), made.totals):
                if line.startswith("refused"):
                    self.assertEqual(booked, last)
                    seen[int(line.split()[1])] += 1
                else:
                    watts = [int(number) for number in re.findall(r"(?:G\d+|dark) (\d+)", line)]
                    self.assertEqual((len(watts), sum(watts)), (n + 1, booked))
                    total = sum(watts)
                last = booked
            most = max(most, len(made.live))
            self.assertEqual(total, sum(made.live.values()))
        self.assertEqual(set(seen), {5, 6, 10, 11, 12, 13, 14})
        self.assertEqual(most, 64)

    def test_a_refused_call_changes_nothing(self):
        """The calls that are served have the same lines by themselves."""
        rng = random.Random(42)
        for n in RINGS:
            calls = Calls(rng, n).many(60).calls
            lines = self.holds(n, calls).splitlines(True)
            served = [call for call, line in zip(calls, lines[1:]) if not line.startswith(b"refused")]
            self.assertLess(len(served), len(calls))
            self.assertEqual(self.holds(n, served), b"".join(line for line in lines if not line.startswith(b"refused")))

    def test_a_report_is_a_scan_of_one(self):
        rng = random.Random(43)
        calls = Calls(rng, 6).many(60).calls
        scans = [("scan", *call[1:]) if call[0] == "report" else call for call in calls]
        self.assertEqual(self.holds(6, calls), self.holds(6, scans))

    def test_every_size(self):
        for n in range(256):
            self.assertEqual(numbers_in(self.holds(n, [("book", 1, 1, 1)])), [] if 3 <= n <= 20 else [2])

    def test_every_bus(self):
        for n in (3, 20):
            calls = [("book", bus, bus, 5) for bus in range(256)]
            self.assertEqual(numbers_in(self.holds(n, calls)), [10] * (256 - n))

    def test_64_and_again(self):
        calls = [("book", number, number % 3 + 1, 100000) for number in range(65)]
        calls += [("report", make_vectors.report_on("G", g, 1)) for g in (1, 2, 3)]
        text = self.holds(3, calls + [("cancel", 0), ("book", 64, 1, 1), ("book", 65, 1, 1)])
        self.assertEqual(numbers_in(text), [14, 14])
        self.assertIn(b"\nG1 0 G2 0 G3 6400000 dark 0\n", text)
        self.assertIn(b"\nG1 0 G2 0 G3 0 dark 6400000\n", text)

    def test_a_number_is_free_as_soon_as_it_is_cancelled(self):
        calls = [call for _ in range(100) for call in (("book", 9, 1, 5), ("book", 9, 2, 6), ("cancel", 9), ("cancel", 9))]
        self.assertEqual(numbers_in(self.holds(4, calls)), [13] * 200)

    def test_other_kinds_are_cancellations(self):
        """A kind of 3 and above: the program is handed none above 3 by its command."""
        data = make_vectors.loads_file(3, [("book", 9, 1, 5), ("cancel", 9)])
        for kind in (3, 4, 255):
            changed = data[:195] + bytes([kind]) + data[196:]
            self.assertEqual(program("ringload", changed).out, text_of(3, [("book", 9, 1, 5), ("cancel", 9)]))

    def test_what_a_call_does_not_take_is_not_read(self):
        calls = Calls(random.Random(44), 5).many(40).calls
        data, sizes = make_vectors.loads_file(5, calls), {0: 3, 2: 7, 3: 2}
        for at in range(1, len(data), 194):
            end = at + 1 + sizes.get(data[at], 1 + 3 * min(data[at + 1], 64))
            data = data[:end] + b"\2" * (at + 194 - end) + data[at + 194:]
        self.assertEqual(program("ringload", data).out, text_of(5, calls))

    def test_input_that_breaks_off(self):
        """A call of fewer than 194 bytes is none, and is said to be broken off; what came before it is served."""
        calls = [("book", 7, 3, 1200), ("report", OPEN), ("cancel", 7)]
        data, lines = make_vectors.loads_file(3, calls), text_of(3, calls).splitlines(True)
        for end in list(range(1, 6)) + [194, 195, 196, 388, 389, 390, 582, 583]:
            answer = program("ringload", data[:end])
            said = "ringload: the last call is broken off\n" if (end - 1) % 194 else ""
            self.assertEqual((answer.out, answer.said, answer.status), (b"".join(lines[:1 + (end - 1) // 194]), said, 0), end)

    def test_a_line_comes_before_the_next_call_is_read(self):
        running = subprocess.Popen([path("crates", "ringload", "out", "ringload")], stdin=subprocess.PIPE, stdout=subprocess.PIPE)
        self.addCleanup(running.wait)
        self.addCleanup(running.stdout.close)
        self.addCleanup(running.stdin.close)
        data, lines = make_vectors.loads_file(3, [("report", OPEN)]), text_of(3, [("report", OPEN)]).splitlines(True)
        for piece, line in zip((data[:1], data[1:]), lines):
            running.stdin.write(piece)
            running.stdin.flush()
            self.assertEqual(running.stdout.readline(), line)

    def test_input_in_portions(self):
        running = subprocess.Popen([path("crates", "ringload", "out", "ringload")], stdin=subprocess.PIPE, stdout=subprocess.PIPE)
        data = make_vectors.loads_file(*make_vectors.gate_loads())
        for piece in (data[:1], data[1:100], data[100:195]):
            running.stdin.write(piece)
            running.stdin.flush()
            time.sleep(0.1)
        self.assertEqual(running.communicate(data[195:])[0], text_of(*make_vectors.gate_loads()))

    def test_as_many_calls_as_ringscan_takes(self):
        """9999; what comes behind is not read."""
        for count in (9999, 10000):
            data = bytes([3]) + make_vectors.loads_file(3, [("cancel", 1)])[1:] * count
            self.assertEqual(program("ringload", data).out.count(b"refused 13\n"), 9999)

    def test_the_program_says_what_it_cannot_do(self):
        self.assertEqual((program("ringload").out, program("ringload").said), (b"", "ringload: standard input is empty\n"))
        with open("/dev/full", "wb") as full:
            for data in (b"\2", b"\3", make_vectors.loads_file(*make_vectors.gate_loads())):
                self.assertEqual(program("ringload", data, stdout=full).said, "ringload: standard output cannot be written\n")


class BesideTheSimulation(ToolCase):

    def test_calls_at_random(self):
        rng, seen = random.Random(45), set()
        for _ in range(60):
            n = rng.choice([3, 4, 5, 8, 19])
            lines = lines_of(n, Calls(rng, n, highest=20).many(rng.randrange(40), booking=.8).calls)
            expected = simulated_loads(lines)
            seen.update(numbers_in(expected) or [0])
            status, said = int(b"refused" in expected), "^ringload: line " if b"refused" in expected else None
            self.check(tool("ringload", data=lines), status, expected, said)
            self.check(tool("ringload", "--run", data=lines), status, simulated_loads(lines, with_run=True), said)
        self.assertLessEqual({0, 5, 6, 10, 11, 12, 13}, seen)

    def test_the_reasons_are_those_of_the_program(self):
        """A line for each refused call, with its number, in their order; above twenty they are counted."""
        rng = random.Random(46)
        for _ in range(30):
            n = rng.choice([3, 5, 20])
            answer = tool("ringload", data=lines_of(n, Calls(rng, n, highest=20).many(50).calls))
            said = [int(number) for number in re.findall(r"^ringload: line \d+: .*: refused (\d+), ", answer.said, re.M)]
            self.assertEqual(said, numbers_in(answer.out)[:20])
            more = re.findall(r"^ringload: and (\d+) lines more$", answer.said, re.M)
            self.assertEqual(sum(map(int, more)), len(numbers_in(answer.out)) - len(said))

    def test_the_run_is_that_of_ringscan(self):
        for name in ("one-cycle", "twenty-studios", "generators-fail"):
            file = path("examples", name + ".txt")
            run_lines = [line[4:] for line in tool("ringload", "--run", file).out.splitlines() if line.startswith(b"    ")]
            self.assertEqual(run_lines, [line.split(b" ", 1)[1] for line in tool("ringscan", file).out.splitlines()])


class Ringload(ToolCase):
    """What the command reads, prints, says and ends with."""

    def test_columns(self):
        self.check(tool("ringload", data=LINES), 0, COLUMNS)
        self.assertEqual(simulated_loads(LINES), COLUMNS)

    def test_the_run(self):
        lines = COLUMNS.splitlines(True)
        expected = b"".join(line + RUNS.get(number, b"") for number, line in enumerate(lines, start=1))
        self.assertEqual(simulated_loads(LINES, with_run=True), expected)
        for words in (("--run",), ("--run", "-"), ("-", "--run")):
            self.check(tool("ringload", *words, data=LINES), 0, expected)

    def test_reads_readable_lines(self):
        for data in (b"# a show\n" + LINES, LINES.replace(b"\n", b"\r\n"), LINES.replace(b"book", b" BOOK\t").replace(b"B3", b"b03"),
                     LINES.rstrip(b"\n"), LINES.replace(b"cancel 7", b"Cancel 007 # done"), LINES.replace(b"1200", b"0001200"),
                     LINES.replace(b"BB2 stuck open", b"code 65 word 2"), b"\n\n" + LINES.replace(b"ring", b"RING")):
            self.check(tool("ringload", data=data), 0, COLUMNS)
        self.check(tool("ringload", "-", data=LINES), 0, COLUMNS)

    def test_reads_a_named_file(self):
        self.check(tool("ringload", path("examples", "bookings.txt")), 0, read("examples", "bookings.loads"))

    def test_only_the_start(self):
        self.check(tool("ringload", data=b"ring 3\n"), 0, b"ring 3   G1 0  G2 0  G3 0  dark 0\n")

    def test_refusals_in_words(self):
        lines = (b"ring 3\nbook 7 B3 1200\nbook 7 B1 5\nbook 8 B4 5\nbook 8 B0 0\nbook 8 B1 0\nbook 8 B1 100001\ncancel 8\nG3 stuck open\n"
                 b"GB4 fit\nscan\nBB1 fit\nBB1 stuck off\nend\n")
        numbers = (13, 10, 10, 12, 12, 13, 6, 5, 6)
        texts = ("book 7 B1 5", "book 8 B4 5", "book 8 B0 0", "book 8 B1 0", "book 8 B1 100001", "cancel 8", "G3 stuck open", "GB4 fit",
                 "scan of 2 reports")
        figures = "ring 3              G1 0  G2 0     G3 0  dark 0\nbook 7 B3 1200      G1 0  G2 1200  G3 0  dark 0\n"
        out = figures + "".join("%-20srefused %d\n" % pair for pair in zip(texts, numbers))
        said = ["line 3: book 7 B1 5: refused 13, booking 7 is live already",
                "line 4: book 8 B4 5: refused 10, a ring of 3 has B1 to B3",
                "line 5: book 8 B0 0: refused 10, a ring of 3 has B1 to B3",
                "line 6: book 8 B1 0: refused 12, a booking has from 1 to 100000 watts",
                "line 7: book 8 B1 100001: refused 12, a booking has from 1 to 100000 watts",
                "line 8: cancel 8: refused 13, booking 8 is not live",
                "line 9: G3 stuck open: refused 6, a generator is reported as fit, stuck off, locked or unlocked",
                "line 10: GB4 fit: refused 5, a ring of 3 has GB1 to GB3",
                "line 13: BB1 stuck off: refused 6, a breaker is reported as fit, stuck open or stuck closed"]
        answer = tool("ringload", data=lines)
        self.check(answer, 1, out.encode(), "^ringload: ")
        self.assertEqual(answer.said, "".join("ringload: %s\n" % line for line in said))

    def test_locks(self):
        """What is booked goes over to other generators when one is locked, is dark when all are, and goes back."""
        lines = (b"ring 3\nbook 7 B3 1200\nG2 locked\nbook 8 B1 5\nscan\nG1 locked\nG3 locked\nend\nG2 fit\nscan\nG1 unlocked\nG2 unlocked\n"
                 b"end\n")
        self.check(tool("ringload", data=lines), 0, simulated_loads(lines))
        self.check(tool("ringload", "--run", data=lines), 0, simulated_loads(lines, with_run=True))
        figures = ["G1 0     G2 0     G3 0  dark 0", "G1 0     G2 1200  G3 0  dark 0", "G1 1200  G2 0     G3 0  dark 0",
                   "G1 1205  G2 0     G3 0  dark 0", "G1 0     G2 0     G3 0  dark 1205", "G1 0     G2 0     G3 0  dark 1205",
                   "G1 5     G2 1200  G3 0  dark 0"]
        self.assertEqual([line[20:] for line in tool("ringload", data=lines).out.decode().splitlines()], figures)

    def test_a_lock_for_a_breaker(self):
        answer = tool("ringload", data=b"ring 3\nbook 7 B3 1200\nscan\nG2 locked\nGB1 locked\nend\nBB2 unlocked\ncancel 7\n")
        self.check(answer, 1, b"ring 3              G1 0  G2 0     G3 0  dark 0\nbook 7 B3 1200      G1 0  G2 1200  G3 0  dark 0\n"
                   b"scan of 2 reports   refused 6\nBB2 unlocked        refused 6\ncancel 7            G1 0  G2 0     G3 0  dark 0\n",
                   "^ringload: line 5: GB1 locked: refused 6, .*; locks are for generators\n"
                   "ringload: line 7: BB2 unlocked: refused 6, .*; locks are for generators\n$")

    def test_a_65th_booking_and_a_long_scan(self):
        lines = b"ring 3\n" + b"".join(b"book %d B1 1\n" % k for k in range(65)) + b"scan\n" + b"BB1 fit\n" * 300 + b"end\n"
        answer = tool("ringload", data=lines)
        self.check(answer, 1, simulated_loads(lines),
                   "^ringload: line 66: book 64 B1 1: refused 14, 64 bookings are live\n"
                   "ringload: line 67: scan: refused 11, a scan has at most 64 reports, not 300\n$")

    def test_sizes(self):
        for size in (0, 2, 21, 255):
            self.check(tool("ringload", "--run", data=b"ring %d\nbook 7 B1 5\n" % size), 1, b"ring %d   refused 2\n" % size,
                       "^ringload: ring %d: refused 2, a ring has from 3 to 20 buses, not %d\n$" % (size, size))
        self.check(tool("ringload", data=b"ring 300\n"), 2, b"",
                   "^ringload: line 1: ring 300: a ring has from 3 to 20 buses; .* at most 255\n$")

    def test_mistakes(self):
        """Status 2, and nothing of the lines is served."""
        for lines, said in ((b"book 65536 B1 5\n", "line 2: book 65536 B1 5: the number of a booking is at most 65535"),
                            (b"book 99999999999 B1 5\n", "line 2: book 99999999999 B1 5: the number of a booking is at most 65535"),
                            (b"book -1 B1 5\n", "line 2: book -1 B1 5: the number of a booking is a number from 0 to 65535"),
                            (b"book x B1 5\n", "line 2: book x B1 5: the number of a booking is a number from 0 to 65535"),
                            (b"book 7 B1 4294967296\n", "line 2: book 7 B1 4294967296: the number of watts is at most 4294967295"),
                            (b"book 7 B1 1.5\n", "line 2: book 7 B1 1.5: the number of watts is a number from 0 to 4294967295"),
                            (b"book 7 B256 5\n", "line 2: book 7 B256 5: a bus's number is at most 255"),
                            (b"book 7 3 5\n", "line 2: book 7 3 5: a booking is on a bus, as B3"),
                            (b"book 7 BB3 5\n", "line 2: book 7 BB3 5: a booking is on a bus, as B3"),
                            (b"book 7 B3\n", "line 2: book 7 B3: a booking has a number, a bus and watts, as `book 7 B3 1200`"),
                            (b"book\n", "line 2: book: a booking has a number, a bus and watts, as `book 7 B3 1200`"),
                            (b"book 7 B3 5 W\n", "line 2: book 7 B3 5 W: a booking has a number, a bus and watts, as `book 7 B3 1200`"),
                            (b"cancel\n", "line 2: cancel: a cancellation has the number of a booking, as `cancel 7`"),
                            (b"cancel 7 B3\n", "line 2: cancel 7 B3: a cancellation has the number of a booking, as `cancel 7`"),
                            (b"cancel 65536\n", "line 2: cancel 65536: the number of a booking is at most 65535"),
                            (b"scan\nbook 7 B3 5\nend\n",
                             "line 3: book 7 B3 5: a scan has reports alone; its `end` is missing before `book`"),
                            (b"scan\nBB1 fit\n", "line 2: scan: its `end` is missing"),
                            (b"end\n", "line 2: end: there is no `scan` before it"),
                            (b"unbook 7\n", "line 2: unbook 7: this names no part; parts are G1, GB1, BB1 and so on"),
                            (b"BB21 fit\n", "line 2: BB21 fit: BB are numbered from 1 to 20"),
                            (b"BB2 maybe\n",
                             "line 2: BB2 maybe: the word is none of: fit, stuck off, stuck open, stuck closed, locked, unlocked"),
                            (b"G2 word 6\n", "line 2: G2 word 6: word 6 is none; a scan has no place for it"),
                            (b"code 99 word 2\n", "line 2: code 99 word 2: code 99 names no part; a scan has no place for it")):
            for words in ((), ("--run",)):
                self.check(tool("ringload", *words, data=b"ring 3\n" + lines), 2, b"", "^%s\n$" % re.escape("ringload: " + said))
        self.check(tool("ringload", data=b"ring 3\nbook 7 B3 5\nhello\nbook 8\n"), 2, b"", "^ringload: line 3: .*\nringload: line 4: .*\n$")

    def test_the_first_line(self):
        for data in (b"", b"\n\n", b"# nothing\n", b"book 7 B3 1200\n", b"ring\n", b"\3\0\0", b"rings 3\n", b"\xff\xfe\n"):
            self.check(tool("ringload", data=data), 2, b"", "^ringload: line [12]: .*the first line is `ring N`, as `ring 3`\n$")

    def test_the_other_commands_say_who_reads_bookings(self):
        for name in ("ringctl", "ringscan", "ringcuts"):
            self.check(tool(name, data=LINES), 2, b"", "^%s: line 2: book 7 B3 1200: bookings are read by bin/ringload\n" % name)

    def test_as_many_calls_as_the_program_takes(self):
        self.assertEqual(tool("ringload", data=b"ring 3\n" + b"scan\nend\n" * 9999).out.count(b"\n"), 10000)
        self.check(tool("ringload", data=b"ring 3\n" + b"scan\nend\n" * 10000), 2, b"",
                   "^ringload: there are at most 9999 calls, not 10000\n$")

    def test_wrong_uses(self):
        self.check(tool("ringload", "--together", data=LINES), 2, b"", "no such option: --together")
        self.check(tool("ringload", "a", "b", data=LINES), 2, b"", "one file at a time, not 2: a b")
        self.check(tool("ringload", path("examples")), 2, b"", "examples cannot be read: Is a directory")
        self.check(tool("ringload", path("examples", "none.txt")), 2, b"", "none.txt cannot be read: No such file or directory")
        folder = os.open(path("examples"), os.O_RDONLY)
        self.addCleanup(os.close, folder)
        self.check(tool("ringload", stdin=folder), 2, b"", "standard input cannot be read: Is a directory")
        with open("/dev/zero", "rb") as zeros:
            self.check(tool("ringload", stdin=zeros), 2, b"", "standard input is longer than")

    def test_output_that_cannot_be_written(self):
        with open("/dev/full", "wb") as full:
            self.check(tool("ringload", data=LINES, stdout=full), 2, None, "standard output cannot be written: No space left on device")

    def test_help(self):
        for word in ("--help", "-h"):
            answer = tool("ringload", word)
            self.check(answer, 0)
            self.assertTrue(answer.out.startswith(b"bin/ringload [--run] [FILE]: "))
            for part in (b"book 7 B3 1200", b"cancel 7", b"Status: 0 all served, 1 something refused, 2"):
                self.assertIn(part, answer.out)

    def test_the_lines_of_the_help(self):
        text = ringload.__doc__
        block = re.findall(r"^    (\S.*)", text.split("\n\n")[1], re.M)
        lines = "".join(re.split(r"  +", line)[0] + "\n" for line in block).encode()
        self.check(tool("ringload", data=lines), 0, simulated_loads(lines))

    def test_without_a_file_on_a_terminal_the_use_is_shown(self):
        main, terminal = pty.openpty()
        self.addCleanup(os.close, main)
        self.addCleanup(os.close, terminal)
        self.check(tool("ringload", stdin=terminal), 2, b"", r"^bin/ringload \[--run\] \[FILE\]: ")

    def test_from_another_folder_by_a_link(self):
        with tempfile.TemporaryDirectory() as folder:
            os.symlink(path("bin", "ringload"), os.path.join(folder, "load"))
            self.check(run([os.path.join(folder, "load")], LINES, cwd=folder), 0, COLUMNS)


class Parts(unittest.TestCase):
    """The bytes that the command hands to its program."""

    def test_the_calls_are_those_of_the_simulation(self):
        rng = random.Random(47)
        for n in (3, 7, 20):
            calls = [call for call in Calls(rng, n, highest=20).many(80).calls if len(call) < 66]
            size, found = ringload.calls_of(lines_of(n, calls))
            mine, theirs = ringload.program_input(size, found), make_vectors.loads_file(n, calls)
            self.assertEqual((size, len(mine)), (n, len(theirs)))
            for at, (word, *taken) in zip(range(1, len(mine), 194), calls):
                used = 2 + 3 * len(taken) if word == "scan" else 194
                self.assertEqual(mine[at:at + used], theirs[at:at + used])

    def test_constants(self):
        self.assertEqual((ringload.MOST_BOOKED, ringload.MOST_WATTS), (ringsim.MOST_BOOKINGS, ringsim.MOST_WATTS))


if __name__ == "__main__":
    unittest.main()
