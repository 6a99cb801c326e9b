"""bin/ringcuts and its program: the minimal cut sets of every bus, beside the simulation."""
import os
import pty
import random
import subprocess
import time
import unittest

from support import ToolCase, faultlines, make_vectors, path, program, read, ringsim, run, sim, stored_cuts, tool
import selftest

LINES = b"ring 3\nG3 stuck off\nBB2 stuck open\n"
FILE = bytes([3, 2, 0, 2, 65, 1, 2])
TEXT = make_vectors.cuts_text(FILE).encode()
STARTED = bytes([3, 0, 0])


def sets_of(text):
    """The sets that a text lists for each bus, as tuples of names."""
    buses = []
    for line in text.decode().splitlines():
        words = line.split(" ")
        if words[0][:1] == "B" and words[0][1:].isdigit():
            buses.append([])
        else:
            buses[-1].append(tuple(words) if line != "-" else ())
    return buses


def names(codes):
    return tuple(ringsim.name_of(code) for code in codes)


def small_file(rng):
    """A file drawn as compare.py draws them, refused or of a ring below ten, which the simulation searches soon."""
    while True:
        data = sim.fault_file(rng)
        file = sim.parse_fault_file(data)
        if file.refusal or file.n < 10:
            return data


class Stored(unittest.TestCase):
    """What the stored cases hold: they are the simulation's by test_programs.py."""

    def test_every_number(self):
        self.assertEqual({case.number for case in stored_cuts()}, {0, 8, 9, 10})

    def test_refused_ones_have_no_count_and_the_buffer_as_it_was(self):
        for case in stored_cuts():
            if case.number:
                self.assertEqual((case.count, case.buffer), (0, bytes([170] * case.room)))

    def test_sheets(self):
        """A count, sets of rising codes by size and then by codes, 255 for unused, and the bytes behind kept."""
        for case in stored_cuts():
            if case.number == 0:
                sets = case.sets()
                self.assertEqual(sets, sorted(set(sets), key=lambda codes: (len(codes), codes)))
                self.assertTrue(all(list(codes) == sorted(codes) for codes in sets))
                sheet = ringsim.darkening_sheet(sets)
                self.assertEqual(case.buffer, sheet + bytes([170] * (case.room - len(sheet))))

    def test_sets_of_every_size_and_a_count_above_255(self):
        served = [case for case in stored_cuts() if case.number == 0]
        self.assertEqual({len(codes) for case in served for codes in case.sets()}, {0, 1, 2, 3})
        self.assertEqual(max(case.count for case in served), 264)

    def test_the_quick_judgement_is_the_simulations(self):
        rng = random.Random(19)
        for n in [3, 4, 5, 6] * 8 + [7, 8, 12]:
            record, bus = make_vectors.worn_record(rng, n), rng.randint(1, n)
            sets = make_vectors.cut_sets(record, bus)
            self.assertEqual(sets, sim.darkening_sets(n, bus, record.health, record.locks))
            if n < 6:
                self.assertEqual(sets, sim.darkening_sets(n, bus, record.health, record.locks, is_dark=ringsim.dark_by_choosing))


class Program(ToolCase):

    def holds(self, data):
        """The program prints what the simulation finds."""
        answer = program("ringcuts", data)
        self.assertEqual((answer.out, answer.said, answer.status), (make_vectors.cuts_text(data).encode(), "", 0), data)

    def test_ten_sets_for_b3(self):
        """Those of a started ring of three, as document 02 says: each generator off or cut off, or B3 cut off without its own."""
        ten = {(a, b, c) for a in ("G1", "GB1") for b in ("G2", "GB2") for c in ("G3", "GB3")}
        ten |= {("G3", "BB2", "BB3"), ("GB3", "BB2", "BB3")}
        answer = program("ringcuts", STARTED)
        self.assertIn(b"\nB3 10\n", answer.out)
        self.assertEqual({frozenset(parts) for parts in sets_of(answer.out)[2]}, {frozenset(parts) for parts in ten})

    def test_every_stored_sheet(self):
        """Each served case, by a fault file that makes its health and its locks: all buses of all started rings, and rings with faults."""
        printed = {}
        for case in stored_cuts():
            if case.number == 0:
                if case.file() not in printed:
                    printed[case.file()] = sets_of(program("ringcuts", case.file()).out)
                self.assertEqual(printed[case.file()][case.bus - 1], [names(codes) for codes in case.sets()])

    def test_table_4_of_document_004(self):
        """The sets of three of all buses of a started ring together; there are no smaller ones."""
        for n, (triples, _, _) in selftest.TABLE_4.items():
            found = {parts for sets in sets_of(program("ringcuts", bytes([n, 0, 0])).out) for parts in sets}
            self.assertEqual((len(found), {len(parts) for parts in found}), (triples, {3}), n)

    def test_files_at_random(self):
        rng = random.Random(20)
        for _ in range(150):
            self.holds(small_file(rng))

    def test_files_that_are_refused(self):
        for data in [*make_vectors.examples(), *make_vectors.short_files()]:
            if sim.parse_fault_file(data).refusal:
                self.holds(data)

    def test_files_that_are_spoiled_in_one_place(self):
        rng = random.Random(21)
        for _ in range(150):
            data = bytearray(FILE)
            data[rng.randrange(len(data))] = rng.choice([0, 1, 2, 3, 4, 5, 6, 31, 32, 34, 35, 63, 64, 66, 67, 84, 255])
            self.holds(bytes(data[:rng.choice([len(data)] * 5 + [rng.randrange(8)])]))

    def test_the_last_word_decides(self):
        self.holds(make_vectors.fault_file(4, [(64, 2), (35, 2), (64, 3), (35, 0), (65, 2), (65, 2), (0, 1)]))
        self.holds(make_vectors.fault_file(5, [(66, k % 2 * 2) for k in range(4096)]))
        self.holds(make_vectors.fault_file(4, [(2, 1), (1, 1), (2, 0), (64, 2), (2, 1), (2, 0), (0, 0)]))
        self.holds(make_vectors.fault_file(4, [(2, 4), (1, 4), (2, 5), (64, 2), (1, 1), (1, 0), (0, 5)]))

    def test_locked_generators(self):
        """They are in no set, and a ring with locks has the sets of one in which the same generators are stuck off."""
        rng = random.Random(23)
        for n in (3, 4, 5, 6, 7):
            for numbers in ([1], [2], [n], [1, 2], rng.sample(range(1, n + 1), 2), range(1, n), range(1, n + 1)):
                faults = [(rng.choice([32, 64]) + rng.randrange(n), rng.choice([2, 3])) for _ in range(rng.randrange(3))]
                locked, off = (make_vectors.fault_file(n, faults + [(k - 1, word) for k in numbers]) for word in (4, 1))
                self.holds(locked)
                text = program("ringcuts", locked).out
                self.assertEqual(text, program("ringcuts", off).out)
                self.assertFalse({"G%d" % k for k in numbers} & {name for sets in sets_of(text) for parts in sets for name in parts})

    def test_input_in_portions(self):
        running = subprocess.Popen([path("crates", "ringcuts", "out", "ringcuts")], stdin=subprocess.PIPE, stdout=subprocess.PIPE)
        running.stdin.write(FILE[:1])
        running.stdin.flush()
        time.sleep(0.2)
        self.assertEqual(running.communicate(FILE[1:])[0], TEXT)

    def test_the_program_says_what_it_cannot_do(self):
        with open("/dev/full", "wb") as full:
            for data in (FILE, b"\3", bytes([20, 0, 0])):
                self.assertEqual(program("ringcuts", data, stdout=full).said, "ringcuts: standard output cannot be written\n")
        folder = os.open(path("examples"), os.O_RDONLY)
        self.addCleanup(os.close, folder)
        answer = program("ringcuts", stdin=folder)
        self.assertEqual((answer.out, answer.said), (b"", "ringcuts: standard input cannot be read\n"))


class Ringcuts(ToolCase):

    def test_reads_a_fault_file_and_readable_lines(self):
        for data in (FILE, LINES, b"# a remark\n" + LINES, LINES.replace(b"\n", b"\r\n").replace(b"stuck", b"\tSTUCK")):
            self.check(tool("ringcuts", data=data), 0, TEXT)
        self.check(tool("ringcuts", "-", data=FILE), 0, TEXT)

    def test_lines_of_files_at_random(self):
        rng = random.Random(22)
        for data in [small_file(rng) for _ in range(20)]:
            expected = program("ringcuts", data).out
            self.check(tool("ringcuts", data=faultlines.decode(data).encode()), int(expected.startswith(b"refused")), expected)

    def test_reads_a_named_file(self):
        for end in (".txt", ".faults"):
            self.check(tool("ringcuts", path("examples", "planning-desk" + end)), 0, read("examples", "planning-desk.cuts"))

    def test_refused_is_status_1(self):
        for data, number in ((b"\3", 1), (b"\3\0", 1), (b"\2\0\0", 2), (b"\3\1\x10", 3), (b"\3\1\0", 4), (b"\3\1\0\3\1", 5),
                             (b"\3\1\0\x40\1", 6), (b"\3\1\0\0\2", 6)):
            for words in ((), ("--bus", "B9"), ("--counts",)):
                self.check(tool("ringcuts", *words, data=data), 1, b"refused %d\n" % number)

    def test_what_is_no_readable_line_goes_to_the_program(self):
        self.check(tool("ringcuts", data=b"Ring 3\n"), 1, b"refused 2\n", "^ringcuts: this looks like text; readable lines begin with")
        self.check(tool("ringcuts", data=b"ring 3\nG1 stuck open\n"), 1, b"refused 6\n")

    def test_the_longest_file_and_longer_ones(self):
        for more, out in ((0, program("ringcuts", STARTED).out), (1, b"refused 4\n"), (100000, b"refused 4\n")):
            data = bytes([3, 0, 16]) + b"\x40" * 4096 + b"\0" * (4096 + more)
            self.check(tool("ringcuts", data=data), int(more > 0), out)

    def test_an_endless_input_ends(self):
        with open("/dev/zero", "rb") as zeros:
            self.check(tool("ringcuts", stdin=zeros), 1, b"refused 2\n")

    def test_one_bus(self):
        pieces = [tool("ringcuts", "--bus", "B%d" % bus, data=FILE) for bus in (1, 2, 3)]
        self.assertEqual(b"".join(piece.out for piece in pieces), TEXT)
        for words in (("--bus", "3"), ("--bus", "b3"), ("--bus=B3",), ("--bus=03",), ("-", "--bus", "B3"), ("--bus", "B3", "-")):
            self.check(tool("ringcuts", *words, data=FILE), 0, pieces[2].out)

    def test_counts(self):
        lines = [line + b"\n" for line in TEXT.splitlines() if line[:1] == b"B" and line[1:2].isdigit()]
        self.assertEqual(len(lines), 3)
        self.check(tool("ringcuts", "--counts", data=LINES), 0, b"".join(lines))
        self.check(tool("ringcuts", "--counts", "--bus", "B2", data=LINES), 0, lines[1])

    def test_dark_buses(self):
        dark = b"ring 3\nG1 stuck off\nG2 stuck off\nGB3 stuck open\n"
        self.check(tool("ringcuts", data=dark), 0, b"B1 1\n-\nB2 1\n-\nB3 1\n-\n")
        self.check(tool("ringcuts", "--bus", "B2", data=dark), 0, b"B2 1\n-\n")

    def test_locked_generators(self):
        """B3 hangs on its own generator; while that is locked the bus is dark, and has the empty set alone."""
        cut = b"ring 3\nBB2 stuck open\nBB3 stuck open\n"
        self.check(tool("ringcuts", "--bus", "B3", data=cut), 0, b"B3 2\nG3\nGB3\n")
        self.check(tool("ringcuts", "--bus", "B3", data=cut + b"G3 locked\n"), 0, b"B3 1\n-\n")
        self.check(tool("ringcuts", "--bus", "B3", data=cut + b"G3 locked\nG3 stuck off\nG3 unlocked\n"), 0, b"B3 1\n-\n")
        self.check(tool("ringcuts", "--bus", "B3", data=cut + b"G3 locked\nG3 unlocked\n"), 0, b"B3 2\nG3\nGB3\n")
        lines = b"ring 3\nG1 locked\nG3 locked\n"
        self.check(tool("ringcuts", data=lines), 0, make_vectors.cuts_text(faultlines.encode(lines)).encode())
        self.assertEqual(tool("ringcuts", data=lines).out, tool("ringcuts", data=lines.replace(b"locked", b"stuck off")).out)
        self.check(tool("ringcuts", data=b"ring 3\nGB1 locked\n"), 1, b"refused 6\n")

    def test_buses_of_a_ring_of_twenty(self):
        whole = tool("ringcuts", data=b"ring 20\n")
        self.check(whole, 0, program("ringcuts", bytes([20, 0, 0])).out)
        self.assertIn(tool("ringcuts", "--bus", "B20", data=b"ring 20\n").out, whole.out)
        self.check(tool("ringcuts", "--bus", "B1", "--counts", data=b"ring 20\n"), 0, b"B1 2\n")

    def test_words_that_are_wrong(self):
        for words, said in ((("--bus", "B4"), "^ringcuts: a ring of 3 has B1 to B3, not B4\n$"),
                            (("--bus", "B0"), "^ringcuts: buses are numbered from 1 to 20, not `B0`\n$"),
                            (("--bus", "21"), "buses are numbered from 1 to 20, not `21`"),
                            (("--bus", "9" * 9999), "buses are numbered from 1 to 20"),
                            (("--bus", "BB3"), "^ringcuts: `BB3` names no bus; buses are B1, B2 and so on, one at a time\n$"),
                            (("--bus", "-3"), "`-3` names no bus"),
                            (("--bus", "B1,B2"), "`B1,B2` names no bus"),
                            (("--bus", "\u00b3"), "names no bus"),
                            (("--bus", "--counts"), "`--counts` names no bus"),
                            (("--bus=",), "`` names no bus"),
                            (("--bus",), "^ringcuts: behind --bus its value is missing; --help shows the use\n$"),
                            (("--bus", "B1", "--bus", "B2"), "^ringcuts: --bus is given twice\n$"),
                            (("--bus", "B1", "B2", "B3"), "one file at a time, not 2: B2 B3"),
                            (("one", "two"), "one file at a time, not 2: one two"),
                            (("--all",), "no such option: --all"),
                            (("--counts=3",), "no such option: --counts=3")):
            self.check(tool("ringcuts", *words, data=FILE), 2, b"", said)

    def test_what_cannot_be_read(self):
        self.check(tool("ringcuts", path("examples")), 2, b"", "cannot be read: Is a directory")
        self.check(tool("ringcuts", "no-such-file"), 2, b"", "no-such-file cannot be read: No such file")
        self.check(run(["sh", "-c", path("bin", "ringcuts") + " <&-"]), 2, b"", "standard input cannot be read")
        self.check(tool("ringcuts", data=b"ring 3\nBB2 stuck\n"), 2, b"", "^ringcuts: line 2: BB2 stuck: the word is none of: fit")

    def test_a_directory_as_standard_input(self):
        folder = os.open(path("examples"), os.O_RDONLY)
        self.addCleanup(os.close, folder)
        self.check(tool("ringcuts", stdin=folder), 2, b"", "^ringcuts: standard input cannot be read: Is a directory")

    def test_what_cannot_be_written(self):
        with open("/dev/full", "wb") as full:
            for words in ((), ("--bus", "B1"), ("--help",)):
                self.check(tool("ringcuts", *words, data=FILE, stdout=full), 2, None, "standard output cannot be written: No space left")
        file = path("examples", "planning-desk.faults")
        self.check(run(["sh", "-c", "%s %s >&-" % (path("bin", "ringcuts"), file)]), 2, b"", "standard output cannot be written")
        reader, writer = os.pipe()
        os.close(reader)
        self.addCleanup(os.close, writer)
        self.check(tool("ringcuts", data=FILE, stdout=writer), 2, None, "standard output cannot be written: Broken pipe")

    def test_all_three_closed(self):
        self.assertEqual(run(["sh", "-c", path("bin", "ringcuts") + " <&- >&- 2>&-"]).status, 2)

    def test_help(self):
        answer = tool("ringcuts", "--help")
        self.check(answer, 0)
        for word in (b"--bus", b"--counts", b"Status"):
            self.assertIn(word, answer.out)

    def test_on_a_terminal_it_shows_its_use(self):
        try:
            ends = pty.openpty()
        except OSError:
            self.skipTest("there are no terminals here")
        for end in ends:
            self.addCleanup(os.close, end)
        self.check(tool("ringcuts", stdin=ends[1]), 2, b"", r"^bin/ringcuts \[--bus B3\] \[--counts\] \[FILE\]")


if __name__ == "__main__":
    unittest.main()
