"""bin/ringscan and its program: scans of several reports, beside the simulation."""
import os
import pty
import random
import re
import subprocess
import tempfile
import time
import unittest

from support import (ScanCase, ToolCase, faultlines, make_vectors, path, program, read, ringsim, run, sim, simulated_scans,
                     stored_cases, stored_runs, tool, words_for)

LINES = b"ring 3\nscan\nBB2 stuck open\nBB3 stuck open\nend\nBB2 fit\nscan\nend\n"
START = b"0 B1=G1o B2=G2o B3=G2h / - / G1+ GB1+ G2+ GB2+ BB2+\n"
RUN = (START + b"1 B1=G1o B2=G2o B3=G3o / BB2- / G3+ GB3+\n2 B1=G1o B2=G2o B3=G2h / G3- GB3- / BB2+\n"
       b"3 B1=G1o B2=G2o B3=G2h / - / -\n")
OPEN = ("BB", 2, 2)
SHUT = make_vectors.report_on("BB", 1, 3)


def reports(*triples):
    return [make_vectors.report_on(*triple) for triple in triples]


def report_line(report):
    """A report in words."""
    words = ("fit", "stuck off", "stuck open", "stuck closed", "locked", "unlocked")
    return "%s%d %s" % (report.part.kind, report.part.number, words[report.word])


def lines_of(n, calls, rng=None):
    """Readable lines of calls. A report by itself may stand in a scan or not."""
    lines = ["ring %d" % n]
    for call in calls:
        alone = len(call) == 1 and (rng is None or rng.random() < .5)
        lines += [report_line(call[0])] if alone else ["scan"] + [report_line(report) for report in call] + ["end"]
    return ("\n".join(lines) + "\n").encode()


def text_of(n, calls):
    return make_vectors.scans_text(n, calls).encode()


def numbers_in(text):
    """The numbers by which calls are refused, in their order."""
    return [int(number) for number in re.findall(b"^refused ([0-9]+)$", text, re.M)]


def any_call(rng, n, highest):
    """Good reports, with a bad one among them now and then, as many as a scan has, none, or too many. Parts go up to a number."""
    call = make_vectors.good_reports(rng, n, rng.choice([0, 1, 1, 1, 2, 3, 5, 8, 30, 63, 64, 64, 65, 66, 200, 255]))
    if call and rng.random() < .25:
        bad = [report for report in make_vectors.bad_reports(rng, n) if 1 <= report.part.number <= highest]
        call[rng.randrange(len(call))] = rng.choice(bad)
    return call


def any_calls(rng, highest=20):
    n = rng.choice([3, 3, 4, 5, 8, 12, 19])
    return n, [any_call(rng, n, highest) for _ in range(rng.randrange(12))]


class Program(unittest.TestCase):

    def holds(self, n, calls):
        """The program prints what the simulation does."""
        answer = program("ringscan", make_vectors.scans_file(n, calls))
        self.assertEqual((answer.out, answer.said, answer.status), (text_of(n, calls), "", 0))
        return answer.out

    def test_the_gates_input(self):
        """Two faults, no reports, a bad one in the middle, a word 3 and its return, generators that return, one report, 64 and 65, a dark
        ring that is lit from one source, generators that are locked and unlocked, a lock for a breaker; what is refused changes nothing, since
        the next line goes on from the one before it."""
        n, calls = make_vectors.gate_scans()
        self.assertEqual([len(call) for call in calls], [2, 0, 3, 3, 3, 3, 1, 4, 64, 65, 6, 5, 2, 3, 1, 4, 2, 2])
        self.assertEqual(numbers_in(self.holds(n, calls)), [6, 11, 6])
        self.assertEqual(read("crates", "ringscan", "stdin"), make_vectors.scans_file(n, calls))
        self.assertEqual(read("crates", "ringscan", "stdout"), text_of(n, calls))
        served = [call for call in calls if len(call) <= 64 and not any(sim.report_refusal(n, report) for report in call)]
        without = [line.split(b" ", 1)[1] for line in self.holds(n, served).splitlines()]
        self.assertEqual([line.split(b" ", 1)[1] for line in self.holds(n, calls).splitlines() if line[:1].isdigit()], without)

    def test_calls_at_random(self):
        rng, seen = random.Random(30), set()
        for _ in range(250):
            seen.update(numbers_in(self.holds(*any_calls(rng, highest=255))))
        self.assertEqual(seen, {5, 6, 11})

    def test_stored_scans(self):
        """Every third scan of a stored case that 9 does not refuse, behind those that make the health and the locks of its record."""
        for case in [ScanCase(data) for data in list(stored_cases("vectors_scan"))[::3]]:
            if case.number != 9:
                worn = [ringsim.report_of(code, word) for code, word in words_for(case.record)]
                before = [worn[at:at + 64] for at in range(0, len(worn), 64)]
                self.holds(case.record.n, before + [case.reports if case.count <= 64 else case.places + [SHUT]])

    def test_every_size(self):
        for n in range(256):
            self.assertEqual(numbers_in(self.holds(n, [reports(OPEN)])), [] if 3 <= n <= 20 else [2])

    def test_every_count(self):
        """Of 64 places as many are read as the count says; from 65 on it is refused by 11, whatever stands in them."""
        places = make_vectors.good_reports(random.Random(31), 4, 64)
        for count in range(256):
            data = bytes([4, count]) + b"".join(map(make_vectors.report_bytes, places))
            self.assertEqual(program("ringscan", data).out, text_of(4, [places[:count] if count <= 64 else places + [SHUT]]))

    def test_places_past_the_count_are_not_read(self):
        rng = random.Random(32)
        for _ in range(60):
            count = rng.randrange(64)
            call = make_vectors.good_reports(rng, 5, count)
            behind = b"".join(make_vectors.report_bytes(make_vectors.any_report(rng)) for _ in range(64 - count))
            data = bytes([5, count]) + b"".join(map(make_vectors.report_bytes, call)) + behind
            self.assertEqual(program("ringscan", data).out, text_of(5, [call]))

    def test_a_bad_report_at_every_place(self):
        rng = random.Random(33)
        for place in range(64):
            call = make_vectors.good_reports(rng, 4, 64)
            bad = make_vectors.bad_reports(rng, 4)[place % 4]
            self.assertEqual(len(numbers_in(self.holds(4, [make_vectors.with_report(call, place, bad), reports(OPEN)]))), 1)

    def test_input_that_breaks_off(self):
        """A call of fewer than 193 bytes is none, and is said to be broken off; what came before it is served."""
        calls = [reports(OPEN), reports(("G", 1, 1), ("BB", 2, 0)), []]
        data = make_vectors.scans_file(3, calls)
        lines = text_of(3, calls).splitlines(True)
        for end in list(range(1, 6)) + [193, 194, 195, 386, 387, 388, 579, 580]:
            answer = program("ringscan", data[:end])
            said = "ringscan: the last scan is broken off\n" if (end - 1) % 193 else ""
            self.assertEqual((answer.out, answer.said, answer.status), (b"".join(lines[:1 + (end - 1) // 193]), said, 0), end)

    def test_input_in_portions(self):
        running = subprocess.Popen([path("crates", "ringscan", "out", "ringscan")], stdin=subprocess.PIPE, stdout=subprocess.PIPE)
        data = make_vectors.scans_file(*make_vectors.gate_scans())
        for piece in (data[:1], data[1:100], data[100:194]):
            running.stdin.write(piece)
            running.stdin.flush()
            time.sleep(0.1)
        self.assertEqual(running.communicate(data[194:])[0], text_of(*make_vectors.gate_scans()))

    def test_a_line_comes_before_the_next_call_is_read(self):
        running = subprocess.Popen([path("crates", "ringscan", "out", "ringscan")], stdin=subprocess.PIPE, stdout=subprocess.PIPE)
        self.addCleanup(running.wait)
        self.addCleanup(running.stdout.close)
        self.addCleanup(running.stdin.close)
        data = make_vectors.scans_file(3, [reports(OPEN)])
        for piece, line in zip((data[:1], data[1:]), text_of(3, [reports(OPEN)]).splitlines(True)):
            running.stdin.write(piece)
            running.stdin.flush()
            self.assertEqual(running.stdout.readline(), line)

    def test_as_many_calls_as_have_a_number(self):
        """9999; what comes behind is not read."""
        for count in (9999, 10000):
            answer = program("ringscan", make_vectors.scans_file(3, [[]] * count))
            self.assertEqual(answer.out, text_of(3, [[]] * 9999))

    def test_the_program_says_what_it_cannot_do(self):
        self.assertEqual((program("ringscan").out, program("ringscan").said), (b"", "ringscan: standard input is empty\n"))
        with open("/dev/full", "wb") as full:
            for data in (b"\2", b"\3", make_vectors.scans_file(20, [[]] * 500)):
                self.assertEqual(program("ringscan", data, stdout=full).said, "ringscan: standard output cannot be written\n")


class Runs(ToolCase):
    """What the command prints, beside the simulation."""

    def holds(self, n, calls, data, *words):
        expected = text_of(n, calls)
        refused = numbers_in(expected)
        self.check(tool("ringscan", *words, data=data), int(bool(refused)), expected, "^ringscan: .*refused" if refused else None)
        return refused

    def test_calls_at_random(self):
        rng, seen = random.Random(34), set()
        for _ in range(50):
            n, calls = any_calls(rng)
            seen.update(self.holds(n, calls, lines_of(n, calls, rng)) or [0])
        self.assertEqual(seen, {0, 5, 6, 11})

    def test_all_together(self):
        rng, seen = random.Random(35), set()
        for _ in range(50):
            n, calls = any_calls(rng)
            calls = [call for call in calls if len(call) < rng.choice([9, 9, 300])][:rng.randrange(6)]
            seen.update(self.holds(n, [sum(calls, [])], lines_of(n, calls, rng), "--together") or [0])
        self.assertEqual(seen, {0, 5, 6, 11})

    def test_the_reasons_are_those_of_the_program(self):
        """A line for each refused call, with its number, in their order."""
        rng = random.Random(36)
        for _ in range(30):
            n, calls = any_calls(rng)
            answer = tool("ringscan", data=lines_of(n, calls, rng))
            said = re.findall(r"^ringscan: line \d+: .*: refused (\d+), ", answer.said, re.M)
            self.assertEqual([int(number) for number in said], numbers_in(answer.out))

    def test_counts(self):
        for count in (0, 1, 63, 64, 65, 255, 256, 300, 5000):
            call = [make_vectors.report_on("BB", k % 5 + 1, (2, 0, 3)[k % 3]) for k in range(count)]
            data = lines_of(5, [call, reports(OPEN)])
            self.holds(5, [call, reports(OPEN)], data)
            self.holds(5, [call], lines_of(5, [[report] for report in call]), "--together")
            if count > 64:
                self.assertEqual(tool("ringscan", data=data).said,
                                 "ringscan: line 2: scan: refused 11, a scan has at most 64 reports, not %d\n" % count)

    def test_the_run_of_single_reports_is_the_controllers(self):
        """A file without scans prints the lines of bin/ringctl, but for its header, where all is served."""
        for name in ("twenty-studios", "generators-fail", "planning-desk"):
            for end in (".txt", ".faults"):
                file = path("examples", name + end)
                self.check(tool("ringscan", file), 0, tool("ringctl", file).out.split(b"\n", 1)[1])
        for data, text in [pair for pair in stored_runs() if not pair[1].startswith(b"refused")][::20]:
            expected = text.split(b"\n", 1)[1]
            self.check(tool("ringscan", data=data), 0, expected)
            self.check(tool("ringscan", data=faultlines.decode(data).encode()), 0, expected)

    def test_the_longest_file(self):
        data = bytes([3, 0, 16]) + b"\x41" * 4096 + bytes([2, 0] * 2048)
        self.check(tool("ringscan", data=data), 0, sim.printed_run(data).split(b"\n", 1)[1])
        self.check(tool("ringscan", data=data + b"\0"), 1, b"refused 4\n")
        self.check(tool("ringscan", "--together", data=data), 1, START + b"refused 11\n",
                   "^ringscan: all together: refused 11, a scan has at most 64 reports, not 4096\n$")

    def test_together_is_the_last_line_of_single_reports(self):
        """The choices are the same, and no stroke is needed that the single reports do without."""
        rng = random.Random(37)
        for _ in range(30):
            n = rng.choice([3, 5, 20])
            data = lines_of(n, [[report] for report in make_vectors.good_reports(rng, n, rng.randrange(1, 65))])
            single = tool("ringctl", data=data).out.splitlines()[1:]
            whole = tool("ringscan", "--together", data=data).out.splitlines()
            self.assertEqual((len(whole), whole[0]), (2, single[0]))
            self.assertEqual(whole[1].split(b" / ")[0].split()[1:], single[-1].split(b" / ")[0].split()[1:])
            strokes = {stroke for line in single[1:] for stroke in line.split(b" / ", 1)[1].split()}
            self.assertLessEqual(set(whole[1].split(b" / ", 1)[1].split()) - {b"-", b"/"}, strokes)


class Ringscan(ToolCase):
    """What the command reads, says and ends with."""

    def test_reads_readable_lines(self):
        for data in (LINES, b"# a storm\n" + LINES, LINES.replace(b"\n", b"\r\n"), LINES.replace(b"scan", b" SCAN # cycle"),
                     LINES.rstrip(b"\n"), LINES.replace(b"end", b"\tEnd\n\n").replace(b"BB", b"bb0"),
                     LINES.replace(b"BB2 fit", b"code 65 word 0"), LINES.replace(b"BB2 fit", b"scan\nBB2 fit\nend")):
            self.check(tool("ringscan", data=data), 0, RUN)
        self.check(tool("ringscan", "-", data=LINES), 0, RUN)

    def test_reads_a_named_file(self):
        self.check(tool("ringscan", path("examples", "one-cycle.txt")), 0, read("examples", "one-cycle.scans"))

    def test_together(self):
        expected = START + b"1 B1=G1o B2=G2o B3=G2h / - / -\n"
        for words in (("--together",), ("--together", "-"), ("-", "--together")):
            self.check(tool("ringscan", *words, data=LINES), 0, expected)
        self.check(tool("ringscan", "--together", data=b"ring 3\n"), 0, expected)
        self.check(tool("ringscan", data=b"ring 3\n"), 0, START)

    def test_a_fault_file(self):
        """Its reports stand by themselves, so that a bad one refuses no other."""
        data = make_vectors.fault_file(3, [(65, 2), (67, 2), (65, 1), (0, 3), (0, 0), (65, 0)])
        self.check(tool("ringctl", data=data), 1, b"refused 5\n")
        self.check(tool("ringscan", data=data), 1, simulated_scans(data),
                   "^ringscan: report 2: code 67 word 2: refused 5, a ring of 3 has BB1 to BB3\n"
                   "ringscan: report 3: BB2 stuck off: refused 6, a breaker is reported as fit, stuck open or stuck closed\n"
                   "ringscan: report 4: G1 stuck closed: refused 6, a generator is reported as fit, stuck off, locked or unlocked\n$")
        self.assertEqual(numbers_in(simulated_scans(data)), [5, 6, 6])
        self.check(tool("ringscan", "--together", data=data), 1, START + b"refused 5\n",
                   "^ringscan: report 2: code 67 word 2: refused 5, .*\n$")
        self.check(tool("ringscan", data=b"# bytes\nbytes 3 2 0\nbytes 65 65 2 0\n"), 0, tool("ringscan", data=b"\3\2\0\x41\x41\2\0").out)

    def test_a_fault_file_of_another_shape_is_refused_whole(self):
        for data, number in ((b"\3", 1), (b"\3\0", 1), (b"\2\0\0", 2), (b"\x15\0\0", 2), (b"\3\1\x10", 3), (b"\3\1\0", 4), (b"\3\1\0\x40", 4),
                             (b"# bytes\nbytes 3 1 0 64\n", 4)):
            for words in ((), ("--together",)):
                self.check(tool("ringscan", *words, data=data), 1, b"refused %d\n" % number)

    def test_what_is_no_readable_line(self):
        for data, number in ((b"Ring 3\nscan\nend\n", 2), (b"\nring 3\n", 3), (b"scan\nBB2 fit\nend\n", 2), (b"bytes 3 0 0\n", 2)):
            self.check(tool("ringscan", data=data), 1, b"refused %d\n" % number,
                       "^ringscan: this looks like text; readable lines begin with `ring N` or `#`\n$")

    def test_an_endless_input_ends(self):
        with open("/dev/zero", "rb") as zeros:
            self.check(tool("ringscan", stdin=zeros), 1, b"refused 2\n")

    def test_sizes(self):
        for size in (0, 2, 21, 255):
            self.check(tool("ringscan", data=b"ring %d\nscan\nBB2 fit\nend\n" % size), 1, b"refused 2\n")
        self.check(tool("ringscan", data=b"ring 300\n"), 2, b"",
                   "^ringscan: line 1: ring 300: a ring has from 3 to 20 buses; .* at most 255\n$")
        for data in (b"ring \n", b"ring three\n", b"# nothing\n", b"#\nBB2 fit\n"):
            self.check(tool("ringscan", data=data), 2, b"", "^ringscan: line [12]: ")

    def test_a_part_that_the_ring_has_not_is_judged(self):
        answer = tool("ringscan", data=b"ring 3\nscan\nBB2 stuck open\nGB4 fit\nBB1 stuck off\nend\nBB2 stuck open\n")
        self.check(answer, 1, START + b"refused 5\n2 B1=G1o B2=G2o B3=G1h / BB2- / BB3+\n",
                   "^ringscan: line 4: GB4 fit: refused 5, a ring of 3 has GB1 to GB3\n$")

    def test_locks(self):
        """G2 is locked, fails meanwhile, is replaced and stays out; in one cycle it is locked and unlocked."""
        lines = b"ring 3\nG2 locked\nscan\nG2 stuck off\nBB3 stuck open\nG2 fit\nend\ng2 UNLOCKED\nscan\nG2 locked\nG2 unlocked\nend\n"
        answer = tool("ringscan", data=lines)
        self.check(answer, 0, simulated_scans(lines))
        self.assertEqual(answer.out, START + b"1 B1=G1o B2=G1h B3=G1h / G2- GB2- BB2- / BB1+ BB3+\n"
                         b"2 B1=G1o B2=G1h B3=G1l / BB3- / BB2+\n3 B1=G1o B2=G2o B3=G2h / BB1- / G2+ GB2+\n"
                         b"4 B1=G1o B2=G2o B3=G2h / - / -\n")
        self.check(tool("ringscan", "--together", data=lines), 0, simulated_scans(lines, together=True))
        self.check(tool("ringscan", data=make_vectors.fault_file(3, [(1, 4), (1, 5)])), 0, simulated_scans(b"ring 3\nG2 locked\nG2 unlocked\n"))

    def test_a_lock_for_a_breaker(self):
        """A bad report: the scan is refused by 6, and nothing of it is served."""
        answer = tool("ringscan", data=b"ring 3\nscan\nG1 locked\nGB1 locked\nend\nscan\nBB2 unlocked\nend\nG3 locked\n")
        self.check(answer, 1, START + b"refused 6\nrefused 6\n3 B1=G1o B2=G2o B3=G2h / - / -\n",
                   "^ringscan: line 4: GB1 locked: refused 6, a breaker is reported as fit, stuck open or stuck closed; locks are for generators\n"
                   "ringscan: line 7: BB2 unlocked: refused 6, a breaker is reported as fit, stuck open or stuck closed; "
                   "locks are for generators\n$")

    def test_many_refused_calls(self):
        answer = tool("ringscan", data=b"ring 3\n" + b"G1 stuck open\n" * 25)
        self.check(answer, 1, START + b"refused 6\n" * 25,
                   "ringscan: line 21: G1 stuck open: refused 6, .*\nringscan: and 5 lines more\n$")

    def test_mistakes(self):
        for lines, said in ((b"scan\nBB1 fit\nscan\nBB2 fit\nend\n", "line 2: scan: its `end` is missing; line 4 begins another scan"),
                            (b"scan\nscan\nend\nend\n", "line 2: scan: its `end` is missing; line 3 begins another scan\n"
                             "ringscan: line 5: end: there is no `scan` before it"),
                            (b"end\n", "line 2: end: there is no `scan` before it"),
                            (b"BB2 fit\nscan\nBB1 fit\n\n", "line 3: scan: its `end` is missing"),
                            (b"scan\n", "line 2: scan: its `end` is missing"),
                            (b"scan BB2 fit\nend\n", "line 2: scan BB2 fit: `scan` stands by itself in its line"),
                            (b"scan\nend scan\n", "line 3: end scan: `end` stands by itself in its line"),
                            (b"scanning\n", "line 2: scanning: this names no part; parts are G1, GB1, BB1 and so on"),
                            (b"ring 3\n", "line 2: ring 3: this names no part; parts are G1, GB1, BB1 and so on"),
                            (b"BB21 fit\n", "line 2: BB21 fit: BB are numbered from 1 to 20"),
                            (b"BB2 stuck\n",
                             "line 2: BB2 stuck: the word is none of: fit, stuck off, stuck open, stuck closed, locked, unlocked"),
                            (b"BB2\n", "line 2: BB2: the word is missing; words are: fit, stuck off, stuck open, stuck closed, locked, unlocked"),
                            (b"G1 lock\n", "line 2: G1 lock: the word is none of: fit, stuck off, stuck open, stuck closed, locked, unlocked"),
                            (b"G1 word 6\n", "line 2: G1 word 6: word 6 is none; a scan has no place for it"),
                            (b"code 99 word 2\n", "line 2: code 99 word 2: code 99 names no part; a scan has no place for it"),
                            (b"BB1 word 7\n", "line 2: BB1 word 7: word 7 is none; a scan has no place for it"),
                            (b"code 300 word 2\n", "line 2: code 300 word 2: a code is at most 255")):
            for words in ((), ("--together",)):
                self.check(tool("ringscan", *words, data=b"ring 3\n" + lines), 2, b"", "^%s\n$" % re.escape("ringscan: " + said))

    def test_all_mistakes_are_named_and_nothing_is_served(self):
        answer = tool("ringscan", data=b"ring 3\nBB2 stuck open\nBX fit\nscan\nBB2 word 9\nscan\n")
        self.check(answer, 2, b"", "^ringscan: ")
        self.assertEqual(re.findall("line ([0-9]+): [^:]+: ", answer.said), ["3", "4", "5", "6"])
        self.check(tool("ringscan", data=b"ring 3\n" + b"scan\n" * 50), 2, b"", "ringscan: and 30 lines more\n$")

    def test_mistakes_in_a_fault_file(self):
        data = make_vectors.fault_file(3, [(65, 2), (99, 2), (65, 7)])
        self.check(tool("ringscan", data=data), 2, b"",
                   "^ringscan: report 2: code 99 word 2: code 99 names no part; a scan has no place for it\n"
                   "ringscan: report 3: BB2 word 7: word 7 is none; a scan has no place for it\n$")

    def test_too_many_calls(self):
        lines = b"ring 3\n" + b"scan\nend\n" * 10000
        self.check(tool("ringscan", data=lines), 2, b"", "^ringscan: there are at most 9999 calls, not 10000\n$")
        self.check(tool("ringscan", data=lines[:-9]), 0, text_of(3, [[]] * 9999))
        self.check(tool("ringscan", "--together", data=lines), 0, text_of(3, [[]]))

    def test_the_other_commands_point_here(self):
        for words in (["ringctl"], ["ringctl", "--changes"], ["ringcuts"], ["ringview"], ["ringplant"], ["faultfile", "encode"],
                      ["faultfile", "check"]):
            for file in ("-", path("examples", "one-cycle.txt")):
                answer = tool(*words, file, data=LINES)
                self.check(answer, 2, b"", "^%s: line [0-9]+: scan: scans are read by bin/ringscan and bin/ringload\n" % words[0])
                self.assertIn(": end: scans are read by bin/ringscan and bin/ringload\n", answer.said)

    def test_what_cannot_be_read(self):
        self.check(tool("ringscan", path("examples")), 2, b"", "^ringscan: .*examples cannot be read: Is a directory\n$")
        self.check(tool("ringscan", "no-such-file"), 2, b"", "^ringscan: no-such-file cannot be read: No such file")
        self.check(run(["sh", "-c", path("bin", "ringscan") + " <&-"]), 2, b"", "^ringscan: standard input cannot be read")
        folder = os.open(path("examples"), os.O_RDONLY)
        self.addCleanup(os.close, folder)
        self.check(tool("ringscan", stdin=folder), 2, b"", "^ringscan: standard input cannot be read: Is a directory")

    def test_what_cannot_be_written(self):
        with open("/dev/full", "wb") as full:
            for data, words in ((LINES, ()), (LINES, ("--together",)), (b"\3\1\0", ()), (b"ring 3\nG4 fit\n", ()), (LINES, ("--help",))):
                self.check(tool("ringscan", *words, data=data, stdout=full), 2, None,
                           "^ringscan: standard output cannot be written: No space left")
        self.check(run(["sh", "-c", "%s %s >&-" % (path("bin", "ringscan"), path("examples", "one-cycle.txt"))]), 2, b"",
                   "^ringscan: standard output cannot be written")
        reader, writer = os.pipe()
        os.close(reader)
        self.addCleanup(os.close, writer)
        self.check(tool("ringscan", data=LINES, stdout=writer), 2, None, "^ringscan: standard output cannot be written: Broken pipe")

    def test_all_three_closed(self):
        self.assertEqual(run(["sh", "-c", path("bin", "ringscan") + " <&- >&- 2>&-"]).status, 2)

    def test_words_that_are_wrong(self):
        for words, said in ((("one", "two"), "^ringscan: one file at a time, not 2: one two\n$"),
                            (("--all",), "^ringscan: no such option: --all; --help shows the use\n$"),
                            (("--together=1",), "no such option: --together=1")):
            self.check(tool("ringscan", *words, data=LINES), 2, b"", said)

    def test_help(self):
        answer = tool("ringscan", "--help")
        self.check(answer, 0)
        for word in (b"--together", b"scan", b"end", b"Status"):
            self.assertIn(word, answer.out)

    def test_on_a_terminal_it_shows_its_use(self):
        try:
            ends = pty.openpty()
        except OSError:
            self.skipTest("there are no terminals here")
        for end in ends:
            self.addCleanup(os.close, end)
        self.check(tool("ringscan", stdin=ends[1]), 2, b"", r"^bin/ringscan \[--together\] \[FILE\]")

    def test_a_name_with_spaces(self):
        with tempfile.TemporaryDirectory() as folder:
            name = os.path.join(folder, "my scans; $x")
            with open(name, "wb") as out:
                out.write(LINES)
            self.check(tool("ringscan", name), 0, RUN)


if __name__ == "__main__":
    unittest.main()
