"""bin/ringchance and its program: the chance of a dark hour of every bus, beside the simulation."""
import math
import os
import pty
import random
import struct
import subprocess
import tempfile
import time
import unittest

from support import (ToolCase, faultlines, make_vectors, path, program, rates_in, read, ringchance, ringsim, run, simulated_chances, sim,
                     tool)

RATES = path("examples", "published-rates.rates")
PUBLISHED = read("examples", "published-rates.rates")
LINES = b"ring 3\nG3 stuck off\nBB2 stuck open\n"
FILE = bytes([3, 2, 0, 2, 65, 1, 2])
TEXT = simulated_chances(PUBLISHED, FILE)
STARTED = bytes([3, 0, 0])
INPUT = make_vectors.chances_file(make_vectors.EXAMPLE, FILE)


def small_file(rng):
    """A file drawn as compare.py draws them, refused or of a ring below eight, which the simulation searches soon."""
    while True:
        data = sim.fault_file(rng)
        file = sim.parse_fault_file(data)
        if file.refusal or file.n < 8:
            return data


def any_line(rng, outside=False):
    """A line of rates at random, with digits enough that another order or rounding would show."""
    part = rng.choice(["*", "G*", "GB*", "BB*", *["%s%d" % (kind, rng.randint(1, 20)) for kind in make_vectors.KINDS * 2]])
    digits = make_vectors.any_digits(rng, -30, -1)
    figure = rng.choice(["2.0", "-1e-9", "nan", "inf"]) if outside else repr(digits)
    return rng.choice(["%s chance %s" % (part, figure), "%s hours %s" % (part, figure if outside else repr(1 / digits)), part + " unrated"])


def any_rates(rng):
    """Readable rates at random: first every part has one, in most, and then some have others."""
    first = ["* chance 3e-5"] if rng.random() < .9 else []
    lines = first + [any_line(rng) for _ in range(rng.randrange(12))]
    return "\n".join(lines + ([any_line(rng, outside=True)] if rng.random() < .1 else []) + [""]).encode()


class Files:
    """A folder with a file of rates and one of faults."""

    def __init__(self, case, rates=PUBLISHED, faults=FILE):
        folder = tempfile.TemporaryDirectory()
        case.addCleanup(folder.cleanup)
        self.rates, self.faults = (os.path.join(folder.name, name) for name in ("mine.rates", "mine.faults"))
        for name, data in ((self.rates, rates), (self.faults, faults)):
            make_vectors.write(name, data)


class Program(ToolCase):

    def holds(self, rates, data):
        """The program prints what the simulation answers, bit for bit."""
        expected = make_vectors.chances_text(rates, data).encode()
        answer = program("ringchance", make_vectors.chances_file(rates, data))
        self.assertEqual((answer.out, answer.said, answer.status), (expected, "", 0), data)
        return expected

    def test_the_gates_input(self):
        """Sums, a dark bus that needs no rate, a bus that is refused by 16, and rates above n that would be refused."""
        rates, data = make_vectors.gate_chances()
        text = self.holds(rates, data)
        self.assertEqual(read("crates", "ringchance", "stdin"), make_vectors.chances_file(rates, data))
        self.assertEqual(read("crates", "ringchance", "stdout"), text)
        self.assertIn(b"\nB6 refused 16\n", text)
        self.assertTrue(text.endswith(b"\nB11 3ff0000000000000 3ff0000000000000 1\n"))
        self.assertTrue(any(ringsim.rate_is_bad(rate) for rate in rates.values()))

    def test_published_rates_on_started_rings(self):
        for n in range(3, 21):
            text = self.holds(make_vectors.EXAMPLE, bytes([n, 0, 0]))
            self.assertEqual(len(text.splitlines()), n)

    def test_rates_and_files_at_random(self):
        rng, seen = random.Random(80), set()
        for _ in range(200):
            text = self.holds(rates_in(any_rates(rng)), small_file(rng))
            seen |= {line.split(b"refused")[1] for line in text.splitlines() if b"refused" in line}
        self.assertLessEqual({b" 15", b" 16"}, seen)

    def test_each_rate_outside(self):
        """15 by each such rate of the ring's first part or its last; not by one above n."""
        for rate in make_vectors.OUTSIDE:
            for code, refused in ((0, True), (66, True), (67, False), (83, False)):
                text = self.holds(make_vectors.with_rate(make_vectors.EXAMPLE, [code], rate), STARTED)
                self.assertEqual(text.count(b"refused 15"), 3 if refused else 0)

    def test_each_part_unrated(self):
        for code in ringsim.ALL_CODES:
            self.holds(make_vectors.with_rate(make_vectors.EXAMPLE, [code], ringsim.UNRATED), bytes([5, 0, 0]))

    def test_every_kind_above_1_is_unrated(self):
        for kind in (2, 3, 128, 255):
            data = bytes([kind]) + INPUT[1:]
            unrated = make_vectors.with_rate(make_vectors.EXAMPLE, [0], ringsim.UNRATED)
            self.assertEqual(program("ringchance", data).out, make_vectors.chances_text(unrated, FILE).encode())

    def test_edges(self):
        """Products that vanish, either zero, and 1.0."""
        for chance in (0.0, -0.0, 5e-324, 1e-162, 1e-108, .5, 1.0):
            self.holds(make_vectors.all_rated(ringsim.chance_rate(chance)), FILE)
        for hours in (1.0, 3.0, 2.0 ** 1023, 1.7976931348623157e308):
            self.holds(make_vectors.all_rated(ringsim.mean_hours_rate(hours)), FILE)

    def test_files_that_are_refused(self):
        for data in [*make_vectors.examples(), *make_vectors.short_files()]:
            if sim.parse_fault_file(data).refusal:
                self.holds(make_vectors.EXAMPLE, data)

    def test_the_longest_file_and_a_longer_one(self):
        for more in (0, 1, 1000):
            self.holds(make_vectors.EXAMPLE, bytes([3, 0, 16]) + b"\x40" * 4096 + b"\0" * (4096 + more))

    def test_input_that_breaks_off(self):
        for end in (0, 1, 9, 539):
            answer = program("ringchance", INPUT[:end])
            self.assertEqual((answer.out, answer.said, answer.status), (b"", "ringchance: the rates are broken off\n", 0))

    def test_input_in_portions(self):
        running = subprocess.Popen([path("crates", "ringchance", "out", "ringchance")], stdin=subprocess.PIPE, stdout=subprocess.PIPE)
        for piece in (INPUT[:1], INPUT[1:100], INPUT[100:541]):
            running.stdin.write(piece)
            running.stdin.flush()
            time.sleep(0.1)
        self.assertEqual(running.communicate(INPUT[541:])[0], make_vectors.chances_text(make_vectors.EXAMPLE, FILE).encode())

    def test_the_program_says_what_it_cannot_do(self):
        with open("/dev/full", "wb") as full:
            for data in (INPUT, INPUT[:541]):
                self.assertEqual(program("ringchance", data, stdout=full).said, "ringchance: standard output cannot be written\n")
        folder = os.open(path("examples"), os.O_RDONLY)
        self.addCleanup(os.close, folder)
        answer = program("ringchance", stdin=folder)
        self.assertEqual((answer.out, answer.said), (b"", "ringchance: the rates are broken off\n"))


class Ringchance(ToolCase):

    def holds(self, rates, data, said=None):
        """The command prints the simulation's floats, in decimal digits and in bits."""
        files, expected = Files(self, rates, data), simulated_chances(rates, data)
        status = int(b"refused" in expected)
        self.check(tool("ringchance", files.rates, files.faults), status, expected, said)
        bits = make_vectors.chances_text(rates_in(rates), data).encode()
        self.check(tool("ringchance", "--bits", files.rates, files.faults), status, bits, said)
        return expected

    def test_reads_files_and_standard_input(self):
        files = Files(self)
        self.check(tool("ringchance", files.rates, files.faults), 0, TEXT)
        for data in (FILE, LINES, b"# a remark\n" + LINES):
            self.check(tool("ringchance", RATES, data=data), 0, TEXT)
            self.check(tool("ringchance", RATES, "-", data=data), 0, TEXT)
        self.check(tool("ringchance", "-", files.faults, data=PUBLISHED), 0, TEXT)

    def test_digits_stand_for_the_floats(self):
        """Each figure, read back, has the bits that --bits prints."""
        rng = random.Random(81)
        for _ in range(20):
            files = Files(self, "\n".join(["* chance 0.001", *[any_line(rng) for _ in range(8)]]).encode(), small_file(rng))
            shown, bits = (tool("ringchance", *words, files.rates, files.faults).out.decode() for words in ([], ["--bits"]))
            if "refused" not in bits:
                for line, exact in zip(shown.splitlines(), bits.splitlines()):
                    bus, _, total, _, largest, _, count = line.split()
                    figures = [struct.pack(">d", float(text)).hex() for text in (total, largest)]
                    self.assertEqual([bus, *figures, count], exact.split())

    def test_rates_and_files_at_random(self):
        rng = random.Random(82)
        for _ in range(40):
            rates, data = any_rates(rng), small_file(rng)
            expected = simulated_chances(rates, data)
            self.holds(rates, data, "^ringchance: .*refused 1[56]" if b" refused" in expected else None)

    def test_the_last_line_on_a_part_decides(self):
        for lines in (b"* chance 1\nG* chance 1e-7\nGB* chance 1e-8\nBB* chance 1e-8\n",
                      b"bb* HOURS 7\n*\tchance 1e-8   # breakers\r\n\r\n  g* Chance 1E-7\n",
                      b"* unrated\nG* chance .0000001\nGB* chance 1e-8\nBB* chance 1e-8\nGB20 chance 9\nG4 unrated\n"):
            self.check(tool("ringchance", Files(self, lines).rates, data=FILE), 0, TEXT)
        self.holds(b"* chance 1e-8\nG2 chance 1e-7\nG2 hours 1000\nG2 chance 1e-6\nBB3 hours 250000\nGB2 hours 1.5e6\n", FILE)

    def test_hours(self):
        """Their chance is 1.0 divided by them: 1e7 hours are the float 1e-7, and 1e8 hours 1e-8."""
        lines = b"G* hours 1e7\nGB* hours 100000000\nBB* hours 1e8\n"
        self.check(tool("ringchance", Files(self, lines).rates, data=FILE), 0, TEXT)

    def test_a_dark_bus(self):
        """It has the empty set: 1.0, also where no part is rated."""
        dark = b"ring 3\nG3 stuck off\nBB2 stuck open\nBB3 stuck open\n"
        answer = tool("ringchance", RATES, data=dark)
        self.check(answer, 0, simulated_chances(PUBLISHED, faultlines.encode(dark)))
        self.assertRegex(answer.out, rb"\nB3  sum 1\.0 +largest 1\.0 +sets 1\n$")
        answer = tool("ringchance", Files(self, b"").rates, data=dark)
        self.check(answer, 1, b"B1  refused 16\nB2  refused 16\nB3  sum 1.0  largest 1.0  sets 1\n",
                   r"^ringchance: B1 B2: refused 16, a set has an unrated part; of this ring's are unrated: G\* GB\* BB\*\n$")

    def test_refused_by_15(self):
        """The lines that are at fault are named, those of the ring's parts alone."""
        lines = (b"* chance 1e-8\nG* hours 0.5\nBB2 chance 1.5\nGB4 chance -1\nGB* hours inf\nGB* chance 1\n\nBB3 chance nan # a remark\n"
                 b"BB1 chance 3\nBB1 chance 0.25\nG2 hours 1e400\n")
        files = Files(self, lines)
        answer = tool("ringchance", files.rates, data=FILE)
        self.check(answer, 1, b"B1  refused 15\nB2  refused 15\nB3  refused 15\n", "refused 15")
        wrong = {2: "G* hours 0.5: refused 15, hours are finite and at least 1", 11: "G2 hours 1e400: refused 15, hours are finite and at least 1",
                 3: "BB2 chance 1.5: refused 15, a chance is from 0 to 1", 8: "BB3 chance nan: refused 15, a chance is from 0 to 1"}
        self.assertEqual(answer.said.splitlines(), ["ringchance: %s: line %d: %s" % (files.rates, *pair) for pair in wrong.items()])
        self.check(tool("ringchance", "--bits", files.rates, data=FILE), 1, b"B1 refused 15\nB2 refused 15\nB3 refused 15\n", "refused 15")

    def test_refused_by_16(self):
        """Only the buses that have the part in a set; and the unrated parts of the ring are named."""
        lines, data = PUBLISHED + b"GB3 unrated\nG5 unrated\nG7 unrated\nBB20 unrated\n", bytes([6, 0, 0])
        expected = self.holds(lines, data, "^ringchance: B3 B5: refused 16, ")
        self.assertEqual([line.endswith(b"refused 16") for line in expected.splitlines()], [False, False, True, False, True, False])
        answer = tool("ringchance", Files(self, lines).rates, data=data)
        self.assertEqual(answer.said, "ringchance: B3 B5: refused 16, a set has an unrated part; of this ring's are unrated: G5 GB3\n")

    def test_15_before_16(self):
        self.holds(b"G* unrated\nBB1 chance 2\n", FILE, "refused 15, a chance is from 0 to 1")

    def test_a_file_that_is_refused(self):
        for data, number in ((b"\3", 1), (b"\3\0", 1), (b"\2\0\0", 2), (b"\3\1\x10", 3), (b"\3\1\0", 4), (b"\3\1\0\3\1", 5),
                             (b"\3\1\0\x40\1", 6)):
            for words in ((), ("--bits",)):
                self.check(tool("ringchance", *words, RATES, data=data), 1, b"refused %d\n" % number)
        self.check(tool("ringchance", RATES, data=b"Ring 3\n"), 1, b"refused 2\n", "^ringchance: this looks like text; readable lines begin")
        self.check(tool("ringchance", RATES, data=b"ring 3\nG1 stuck open\n"), 1, b"refused 6\n")

    def test_lines_of_rates_that_cannot_be_read(self):
        """Every one is named with its file and its number, and nothing is printed."""
        wrong = {
            b"X1 chance 1": "this names no part; parts are G1, GB1, BB1 and so on", b"G chance 1": "this names no part",
            b"B3 chance 1": "this names no part", b"3 unrated": "this names no part", b"X* unrated": "this names no part",
            b"G1* chance 1": "this names no part", b"** unrated": "this names no part", b"G-1 unrated": "this names no part",
            b"\xff\0 unrated": "this names no part",
            b"G0 chance 1": "G are numbered from 1 to 20", b"GB21 chance 1": "GB are numbered from 1 to 20",
            b"BB999999 unrated": "BB are numbered from 1 to 20",
            b"G1": "behind the part stands `chance X`, `hours X` or `unrated`", b"G1 chance": "behind the part stands",
            b"G1 hours": "behind the part stands", b"G1 chance 1 2": "behind the part stands", b"G1 unrated 1": "behind the part stands",
            b"G1 1e-7": "behind the part stands", b"G1 maybe": "behind the part stands", b"G1 stuck off": "behind the part stands",
            b"G1 chance one": "a rate's figure is a number, as 1e-7 or 250000", b"G1 hours 1,5": "a rate's figure is a number",
            b"G1 chance 0x1p-3": "a rate's figure is a number", b"G1 chance 1e-7%": "a rate's figure is a number",
            b"ring 3": "this is a line of faults; the rates come first, then the faults",
        }
        for line, reason in wrong.items():
            files = Files(self, b"# rates\n" + PUBLISHED + b"\n" + line + b"\nG2 chance 1e-7\n")
            answer = tool("ringchance", files.rates, files.faults)
            self.check(answer, 2, b"", "^ringchance: ")
            shown = line.decode("utf-8", "replace").replace("\0", "?")
            self.assertTrue(answer.said.startswith("ringchance: %s: line 7: %s: %s" % (files.rates, shown, reason)), answer.said)
            self.assertEqual(answer.said.count("\n"), 1)
        files = Files(self, b"\n".join(wrong))
        answer = tool("ringchance", files.rates, files.faults)
        self.check(answer, 2, b"", "^ringchance: ")
        self.assertEqual(answer.said.count(files.rates + ": "), 21)
        self.assertRegex(answer.said, "and %d lines more\n$" % (len(wrong) - 20))
        self.check(tool("ringchance", "-", files.faults, data=b"G1\n"), 2, b"", "^ringchance: standard input: line 1: G1: ")

    def test_lines_of_faults_that_cannot_be_read(self):
        files = Files(self, faults=b"ring 3\nG9 stuck off\n")
        self.check(tool("ringchance", files.rates, files.faults), 2, b"", "^ringchance: .*mine.faults: line 2: G9 stuck off: a ring of 3 has")
        self.check(tool("ringchance", RATES, data=b"ring 3\nscan\n"), 2, b"", "^ringchance: standard input: line 2: scan: scans are read by")
        self.check(tool("ringchance", RATES, RATES), 2, b"", "published-rates.rates: line 2: .*: the first line is `ring N`")
        self.check(tool("ringchance", path("examples", "planning-desk.txt"), RATES), 2, b"", "planning-desk.txt: line [0-9]+: .*the rates come first")

    def test_files_that_cannot_be_read(self):
        for words, name in ((("no-such.rates",), "no-such.rates"), ((RATES, "no-such.txt"), "no-such.txt"), ((path("examples"),), "examples"),
                            ((RATES, path("examples")), "examples")):
            self.check(tool("ringchance", *words, data=FILE), 2, b"", "^ringchance: .*%s cannot be read: " % name)
        folder = os.open(path("examples"), os.O_RDONLY)
        self.addCleanup(os.close, folder)
        self.check(tool("ringchance", RATES, stdin=folder), 2, b"", "^ringchance: standard input cannot be read: ")

    def test_what_cannot_be_written(self):
        with open("/dev/full", "wb") as full:
            for words in ((), ("--bits",), ("--help",)):
                self.check(tool("ringchance", *words, RATES, data=FILE, stdout=full), 2, None, "^ringchance: standard output cannot be written")

    def test_use(self):
        shown = tool("ringchance", "--help")
        self.check(shown, 0)
        for word in (b"--bits", b"RATES", b"chance 1e-7", b"hours 250000", b"unrated", b"Status: 0 "):
            self.assertIn(word, shown.out)
        self.check(tool("ringchance"), 2, b"", "^bin/ringchance .--bits. RATES .FILE.: ")
        self.check(tool("ringchance", "--bits", data=FILE), 2, b"", "^bin/ringchance ")
        self.check(tool("ringchance", "--exact", RATES, data=FILE), 2, b"", "^ringchance: no such option: --exact; --help shows the use\n$")
        self.check(tool("ringchance", "a", "b", "c"), 2, b"", "^ringchance: two files, the rates and the faults, not 3: a b c\n$")
        for words in (("-",), ("-", "-")):
            self.check(tool("ringchance", *words, data=FILE), 2, b"", "^ringchance: the rates and the faults cannot both come from standard input\n$")
        terminal, other = pty.openpty()
        self.addCleanup(os.close, terminal)
        self.addCleanup(os.close, other)
        self.check(tool("ringchance", RATES, stdin=other), 2, b"", "^bin/ringchance ")

    def test_from_another_folder_and_through_a_link(self):
        with tempfile.TemporaryDirectory() as folder:
            os.symlink(path("bin", "ringchance"), os.path.join(folder, "chance"))
            self.check(run([os.path.join(folder, "chance"), RATES], FILE, cwd=folder), 0, TEXT)


class Parts(unittest.TestCase):
    """The bytes that the command hands to its program."""

    def test_the_rates_are_those_of_the_simulation(self):
        rng = random.Random(83)
        for _ in range(60):
            lines = any_rates(rng)
            mine, rates = ringchance.Rates(lines).program_input(), rates_in(lines)
            self.assertEqual(len(mine), 540)
            for place, code in enumerate(ringsim.ALL_CODES):
                kind, figure = struct.unpack("<Bd", mine[9 * place:9 * place + 9])
                expected = (2,) if rates[code] == ringsim.UNRATED else (("chance", "hours").index(rates[code][0]), rates[code][1])
                self.assertEqual((kind, struct.pack("<d", figure)), (expected[0], struct.pack("<d", (*expected, 0.0)[1])))

    def test_which_rates_are_outside(self):
        for rate in make_vectors.OUTSIDE + [ringsim.chance_rate(x) for x in (0.0, -0.0, 5e-324, 1.0)] + [
                ringsim.mean_hours_rate(x) for x in (1.0, 1e300, 1.7976931348623157e308)]:
            mine, = ringchance.Rates(("G1 %s %r" % rate).encode()).rates.values()
            self.assertEqual(mine.outside(), ringsim.rate_is_bad(rate), rate)
            self.assertTrue(mine.figure == rate[1] or math.isnan(rate[1]))

    def test_parts(self):
        self.assertEqual(ringchance.PARTS, list(ringsim.ALL_CODES))


if __name__ == "__main__":
    unittest.main()
