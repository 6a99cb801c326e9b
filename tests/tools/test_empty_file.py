"""A file of no bytes, Note 9 of document 02: it "stands for a ring of three without reports and prints what `3 0 0` prints", and "refusal 1 is
for one or two bytes". What cannot be read is no such file."""
import dataclasses
import json
import os
import re
import tempfile
import unittest
from unittest import mock

from support import RULES, ToolCase, faultlines, make_vectors, path, program, read, ringsim, run, sim, simulated_chances, stored_runs, tool

# The papers' words: the header of a file without reports, and "line 0 of the printed run now ends `G1+ GB1+ G2+ GB2+ BB2+`".
START = b"0 B1=G1o B2=G2o B3=G2h / - / G1+ GB1+ G2+ GB2+ BB2+\n"
RUN = b"ring 3 reports 0\n" + START
WHOLE = bytes([3, 0, 0])

RATES = path("examples", "published-rates.rates")
PUBLISHED = read("examples", "published-rates.rates")

# First bytes about which a reader of files could go wrong: none, too small, sizes of rings, too large, that of a remark, and the last.
FIRST = (0, 1, 2, 3, 4, 20, 21, 35, 255)
SHORT = [bytes([byte]) for byte in FIRST] + [bytes([byte, other]) for byte in FIRST for other in (0, 1, 255)]

# The programs that read a fault file: what they read before it, and the simulation's answer.
PROGRAMS = {
    "ringctl": (b"", sim.printed_run),
    "ringcuts": (b"", lambda data: make_vectors.cuts_text(data).encode()),
    "ringtrace": (b"", lambda data: make_vectors.trace_text(data).encode()),
    "ringchance": (make_vectors.chances_file(make_vectors.EXAMPLE, b""), lambda data: make_vectors.chances_text(make_vectors.EXAMPLE, data).encode()),
}

# The commands that read a fault file.
COMMANDS = (("ringctl",), ("ringctl", "--changes"), ("ringcuts",), ("ringcuts", "--counts"), ("ringcuts", "--bus", "B3"),
            ("ringchance", RATES), ("ringchance", "--bits", RATES), ("ringview",), ("ringscan",), ("ringscan", "--together"),
            ("faultfile", "decode"), ("faultfile", "check"))


def expected(command):
    """What a command prints for a ring of three without reports, by the papers and the simulation; a page is test_the_page's."""
    cuts = make_vectors.cuts_text(WHOLE)
    return {
        ("ringctl",): RUN, ("ringctl", "--changes"): RUN, ("ringcuts",): cuts.encode(), ("ringcuts", "--counts"): b"B1 10\nB2 10\nB3 10\n",
        ("ringcuts", "--bus", "B3"): cuts[cuts.index("B3 10\n"):].encode(), ("ringchance", RATES): simulated_chances(PUBLISHED, WHOLE),
        ("ringchance", "--bits", RATES): make_vectors.chances_text(make_vectors.EXAMPLE, WHOLE).encode(), ("ringscan",): START,
        ("ringscan", "--together"): START + b"1 B1=G1o B2=G2o B3=G2h / - / -\n",
        ("faultfile", "decode"): b"# no bytes: this file stands for a ring of three without reports\nring 3\n",
        ("faultfile", "check"): b"no bytes: this file stands for a ring of three without reports\nthe controller's answer: served\n",
    }[command]


class Papers(unittest.TestCase):

    def test_the_simulation(self):
        self.assertEqual(sim.printed_run(b""), RUN)
        self.assertEqual(sim.printed_run(WHOLE), RUN)
        for data in SHORT:
            self.assertEqual(sim.printed_run(data), b"refused 1\n")
        for data in (b"", WHOLE):
            file = sim.parse_fault_file(data)
            self.assertEqual((file.refusal, file.n, file.codes, file.words), (0, 3, b"", b""))

    def test_before_the_note(self):
        """Without it the file of no bytes was refused; the note alters the answer to no other."""
        rules = dataclasses.replace(RULES, note9=False)
        self.assertEqual(ringsim.printed_run(b"", rules), b"refused 1\n")
        for data in [data for data, _ in stored_runs() if data] + SHORT:
            self.assertEqual(ringsim.parse_fault_file(data, rules), sim.parse_fault_file(data))


class Stored(unittest.TestCase):
    """What the stored runs hold: they are the simulation's by test_programs.py."""

    def test_no_bytes(self):
        runs = dict(stored_runs())
        self.assertEqual((runs[b""], runs[WHOLE]), (RUN, RUN))

    def test_one_and_two_bytes(self):
        short = {data: text for data, text in stored_runs() if 0 < len(data) < 3}
        self.assertEqual(set(short.values()), {b"refused 1\n"})
        self.assertLessEqual({b"\0", b"\3", b"\x14", b"\xff", b"\0\0", b"\3\0", b"\x14\0", b"\3\1"}, set(short))
        self.assertEqual({text for data, text in stored_runs() if text == b"refused 1\n" and data not in short}, set())


class Files:
    """An empty file, and a file that is not there."""

    def __init__(self, case):
        folder = tempfile.TemporaryDirectory()
        case.addCleanup(folder.cleanup)
        self.empty, self.missing = (os.path.join(folder.name, name) for name in ("empty", "missing"))
        make_vectors.write(self.empty, b"")


def opened(case, name):
    """A file or a folder as standard input."""
    number = os.open(name, os.O_RDONLY)
    case.addCleanup(os.close, number)
    return number


def broken(case, data):
    """A standard input of which some bytes can be read, and then no more: a read fails, and the input has not ended."""
    reader, writer = os.pipe()
    case.addCleanup(os.close, reader)
    case.addCleanup(os.close, writer)
    os.set_blocking(reader, False)
    os.write(writer, data)
    return reader


class Programs(ToolCase):

    def test_no_bytes(self):
        for name, (before, simulated) in PROGRAMS.items():
            self.assertEqual(simulated(b""), simulated(WHOLE))
            for data in (b"", WHOLE):
                with self.subTest((name, data)):
                    self.check(program(name, before + data), 0, simulated(WHOLE))

    def test_any_input_that_ends_at_once(self):
        files = Files(self)
        for name in ("ringctl", "ringcuts", "ringtrace"):
            for file in (files.empty, os.devnull):
                self.check(program(name, stdin=opened(self, file)), 0, PROGRAMS[name][1](WHOLE))

    def test_one_and_two_bytes(self):
        for name, (before, _) in PROGRAMS.items():
            for data in SHORT:
                with self.subTest((name, data)):
                    self.check(program(name, before + data), 0, b"refused 1\n")

    def test_every_first_byte(self):
        for byte in range(256):
            self.check(program("ringctl", bytes([byte])), 0, b"refused 1\n")
            self.check(program("ringctl", bytes([byte, 0])), 0, b"refused 1\n")

    def test_a_read_that_fails_is_no_empty_file(self):
        """With no byte read before it, with some, and with a whole file."""
        for name, (before, _) in PROGRAMS.items():
            for data in (b"", b"\3", b"\3\0", WHOLE):
                with self.subTest((name, data)):
                    answer = program(name, stdin=broken(self, before + data))
                    self.assertEqual((answer.out, answer.said), (b"", "%s: standard input cannot be read\n" % name))

    def test_a_directory_is_no_empty_file(self):
        """The rates are read before a fault file, so that of a directory ringchance has none."""
        for name, said in (("ringctl", "standard input cannot be read"), ("ringcuts", "standard input cannot be read"),
                           ("ringtrace", "standard input cannot be read"), ("ringchance", "the rates are broken off")):
            answer = program(name, stdin=opened(self, path("examples")))
            self.assertEqual((answer.out, answer.said), (b"", "%s: %s\n" % (name, said)))

    def test_a_closed_input_is_no_empty_file(self):
        for name in ("ringctl", "ringcuts", "ringtrace"):
            answer = run(["sh", "-c", path("crates", name, "out", name) + " <&-"])
            self.assertEqual((answer.out, answer.said), (b"", "%s: standard input cannot be read\n" % name))


def story(page):
    return json.loads(re.search(r'<script type="application/json" id="story">(.*?)</script>', page.decode(), re.S).group(1))


class Commands(ToolCase):

    def answers(self, command):
        """The answers to a file of no bytes that is named, standard input of several kinds, and the readable line that makes one."""
        files = Files(self)
        yield tool(*command, files.empty)
        yield from (tool(*command, stdin=opened(self, name)) for name in (files.empty, os.devnull))
        yield from (tool(*command, *words) for words in ((), ("-",)))
        if command[-1] != "decode":
            yield tool(*command, data=b"# from the works\nbytes\n")

    def test_no_bytes(self):
        for command in COMMANDS:
            if command != ("ringview",):
                with self.subTest(command):
                    for answer in self.answers(command):
                        self.check(answer, 0, expected(command))

    def test_as_what_it_stands_for(self):
        for command in COMMANDS:
            if command[0] != "faultfile":
                with self.subTest(command):
                    self.assertEqual(tool(*command).out, tool(*command, data=WHOLE).out)
                    self.assertEqual(tool(*command).out, tool(*command, data=b"ring 3\n").out)

    def test_the_page(self):
        _, first, *strokes = [line.split(" ") for line in make_vectors.trace_text(WHOLE).splitlines()]
        feeds = [" ".join(bus.split("=")[1] for bus in buses) for _, *buses in [first] + strokes]
        call = {"report": "", "line": START.decode().strip(), "strokes": [stroke for stroke, *_ in strokes], "feeds": feeds}
        self.assertEqual(call["strokes"], ["G1+", "GB1+", "G2+", "GB2+", "BB2+"])
        for answer in self.answers(("ringview",)):
            self.check(answer, 0)
            self.assertEqual(story(answer.out), {"size": 3, "calls": [call]})
        self.assertIn(b"<title>ring of 3", tool("ringview").out)

    def test_one_and_two_bytes(self):
        """But for `#`, with which readable lines begin."""
        for command in COMMANDS:
            for data in (b"\0", b"\3", b"\x14", b"\xff", b"\0\0", b"\3\0", b"\3\3", b"\x14\0", b"\xff\xff"):
                with self.subTest((command, data)):
                    answer = tool(*command, data=data)
                    reason = b"a fault file has no bytes or at least 3, this one %d\n" % len(data)
                    if command == ("ringview",):
                        self.check(answer, 1, b"", "^ringview: refused 1; bin/faultfile check says why\n$")
                    elif command == ("faultfile", "check"):
                        self.check(answer, 1, b"refused 1, %sthe controller's answer: refused 1\n" % reason)
                    elif command == ("faultfile", "decode"):
                        numbers = " ".join(map(str, data)).encode()
                        self.check(answer, 0, b"# refused 1: %sbytes %s\n" % (reason, numbers))
                    else:
                        self.check(answer, 1, b"refused 1\n")

    def test_what_cannot_be_read_is_no_empty_file(self):
        files = Files(self)
        for command in COMMANDS + (("faultfile", "encode"),):
            with self.subTest(command):
                for name in (files.missing, path("examples")):
                    self.check(tool(*command, name), 2, b"", "^%s: %s cannot be read: " % (command[0], re.escape(name)))
                said = "^%s: standard input cannot be read: " % command[0]
                self.check(tool(*command, stdin=opened(self, path("examples"))), 2, b"", said)
                self.check(run(["sh", "-c", '"$@" <&-', "sh", path("bin", command[0]), *command[1:], "-"]), 2, b"", said)
                for data in (b"", b"\3", WHOLE):
                    self.check(tool(*command, stdin=broken(self, data)), 2, b"", said)

    def test_one_bus_that_the_ring_has_not(self):
        self.check(tool("ringcuts", "--bus", "B4"), 2, b"", "^ringcuts: a ring of 3 has B1 to B3, not B4\n$")

    def rates(self, lines):
        folder = tempfile.TemporaryDirectory()
        self.addCleanup(folder.cleanup)
        make_vectors.write(os.path.join(folder.name, "mine.rates"), lines)
        return os.path.join(folder.name, "mine.rates")

    def test_rates_are_judged_for_a_ring_of_three(self):
        """Those of its parts alone, and refusals name them."""
        self.check(tool("ringchance", self.rates(PUBLISHED + b"G4 chance 2\nBB20 unrated\n")), 0, expected(("ringchance", RATES)))
        self.check(tool("ringchance", self.rates(PUBLISHED + b"BB3 chance 2\nBB4 chance 3\n")), 1,
                   b"B1  refused 15\nB2  refused 15\nB3  refused 15\n",
                   "^ringchance: .*: line [0-9]+: BB3 chance 2: refused 15, a chance is from 0 to 1\n$")
        self.check(tool("ringchance", self.rates(b"")), 1, b"B1  refused 16\nB2  refused 16\nB3  refused 16\n",
                   r"^ringchance: B1 B2 B3: refused 16, a set has an unrated part; of this ring's are unrated: G\* GB\* BB\*\n$")

    def test_help(self):
        for name in ("ringctl", "ringcuts", "ringchance", "ringview", "ringscan", "faultfile"):
            self.assertRegex(tool(name, "--help").out, rb"(?s)no bytes\s+stands\s+for\s+a\s+ring\s+of\s+three\s+without\s+reports")


class Lines(ToolCase):
    """Readable lines and the file of no bytes."""

    def test_its_lines_make_a_whole_file(self):
        shown = tool("faultfile", "decode").out
        self.check(tool("faultfile", "encode", data=shown), 0, WHOLE)
        self.check(tool("faultfile", "check", data=shown), 0, b"the controller's answer: served\n")
        self.check(tool("ringctl", data=shown), 0, RUN)

    def test_one_can_be_made(self):
        for lines in (b"bytes", b"bytes\n", b"# from the works\nbytes\n", b"bytes\nBYTES # none\n"):
            self.check(tool("faultfile", "encode", data=lines), 0, b"")

    def test_a_text_without_lines_makes_none(self):
        for lines in (b"", b"\n", b" \t\r\n\n", b"# nothing\n", b"#"):
            self.check(tool("faultfile", "encode", data=lines), 2, b"", "^faultfile: line 1: the first line is `ring N`")
        for command in COMMANDS:
            if command[0] != "faultfile":
                self.check(tool(*command, data=b"# nothing\n"), 2, b"", "line 1: the first line is `ring N`")

    def test_commands_without_a_fault_file(self):
        """Bookings and orders are readable lines, and begin with the ring."""
        for name in ("ringload", "ringplant"):
            self.check(tool(name), 2, b"", "^%s: line 1: the first line is `ring N`" % name)


class Parts(unittest.TestCase):
    """What the commands read a fault file by."""

    def test_every_file_below_three_bytes(self):
        files = [b""] + [bytes([byte]) for byte in range(256)] + [bytes([byte, other]) for byte in range(256) for other in range(256)]
        for data in files:
            self.assertEqual(faultlines.file_refusal(data)[0], sim.parse_fault_file(data).refusal)
            self.assertEqual(faultlines.shaped(data), not data)

    def test_the_reports_of_no_bytes(self):
        self.assertEqual((faultlines.ring_size(b""), faultlines.reports_of(b""), faultlines.file_refusal(b"")), (3, [], (0, "")))
        self.assertEqual((faultlines.labelled_file(b""), faultlines.scans_of(b"")), ((b"", []), (3, [])))

    def test_the_programs_get_it_as_it_is(self):
        """That it stands for a ring of three is the programs' to say."""
        for data in (b"", b"# from the works\nbytes\n"):
            self.assertEqual(faultlines.fault_file(data), b"")

    def test_one_function_says_what_it_stands_for(self):
        """Were it another file, everything that reads one would follow."""
        other = bytes([5, 1, 0, 65, 1])
        with mock.patch.object(faultlines, "stands_for", lambda file: file or other):
            self.assertEqual(faultlines.decode(b"").splitlines()[1:], faultlines.decode(other).splitlines())
            self.assertEqual((faultlines.check(b"")[0][1:], faultlines.check(b"")[1]), faultlines.check(other))
            self.assertEqual(faultlines.labelled_file(b"")[1], faultlines.labelled_file(other)[1])
            self.assertEqual((faultlines.ring_size(b""), faultlines.reports_of(b""), faultlines.shaped(b"")), (5, [(65, 1)], True))
            size, calls = faultlines.scans_of(b"")
            self.assertEqual((size, [call.reports for call in calls]), (5, [[(65, 1)]]))


if __name__ == "__main__":
    unittest.main()
