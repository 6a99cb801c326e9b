"""bin/faultfile: readable lines to bytes and back, and what is refused, in words."""
import itertools
import random
import tempfile
import unittest

from support import ToolCase, faultlines, path, read, ringsim, sim, stored_runs, tool


class Encode(ToolCase):

    def encodes(self, lines, numbers):
        self.check(tool("faultfile", "encode", data=lines.encode()), 0, bytes(numbers))

    def mistake(self, lines, said):
        self.check(tool("faultfile", "encode", data=lines if isinstance(lines, bytes) else lines.encode()), 2, b"", said)

    def test_lines(self):
        self.encodes("ring 3\n", [3, 0, 0])
        self.encodes("ring 3\nBB2 stuck open\n", [3, 1, 0, 65, 2])
        self.encodes("ring 20\nG20 stuck off\nGB1 stuck closed\nBB20 fit", [20, 3, 0, 19, 32, 83, 1, 3, 0])
        self.encodes("ring 3\nG1 fit\nG3 stuck off\ng3 FIT\n", [3, 3, 0, 0, 2, 2, 0, 1, 0])
        self.encodes("ring 3\nG1 locked\nG3 unlocked\ng3 Locked\nG1 word 5\n", [3, 4, 0, 0, 2, 2, 0, 4, 5, 4, 5])

    def test_words_of_the_other_kind(self):
        """The controller refuses them; bin/faultfile check says why."""
        self.encodes("ring 3\nGB1 stuck off\nGB1 locked\nBB3 unlocked\nG2 stuck open\n", [3, 4, 0, 32, 32, 66, 1, 1, 4, 5, 2])

    def test_what_is_forgiven(self):
        self.encodes("# first\r\n\r\n  RING\t3 # three\r\nbb2   Stuck\tOPEN\r\n", [3, 1, 0, 65, 2])
        self.encodes("ring 3\rBB02 fit", [3, 1, 0, 65, 0])
        self.check(tool("faultfile", "encode", data=b"\xef\xbb\xbfring 3\nBB1 fit\n"), 0, bytes([3, 1, 0, 64, 0]))

    def test_bytes_without_a_name(self):
        self.encodes("ring 3\ncode 99 word 7\nBB2 word 9\ncode 67 stuck open", [3, 3, 0, 99, 65, 67, 7, 9, 2])
        self.encodes("bytes 3 1\nbytes 0 64\n", [3, 1, 0, 64])
        self.encodes("bytes", [])
        self.encodes("ring 255", [255, 0, 0])

    def test_mistakes_name_the_line_and_the_part(self):
        self.mistake("ring 3\nGB33 stuck open\n", "^faultfile: line 2: GB33 stuck open: GB are numbered from 1 to 20\n$")
        self.mistake("ring 3\n\nBB4 stuck open\n", "^faultfile: line 3: BB4 stuck open: a ring of 3 has BB1 to BB3\n$")
        self.mistake("ring 3\nBB0 fit\n", "line 2: BB0 fit: BB are numbered from 1 to 20")
        self.mistake("ring 3\nB2 stuck open\n", "line 2: B2 stuck open: this names no part")
        self.mistake("ring 3\nBB2\n", "line 2: BB2: the word is missing")
        self.mistake("ring 3\nBB2 broken\n",
                     "line 2: BB2 broken: the word is none of: fit, stuck off, stuck open, stuck closed, locked, unlocked\n$")
        for word in ("lock", "unlock", "locked out", "un locked", "stuck locked", "lockedd"):
            self.mistake("ring 3\nG1 locked\nG2 %s\n" % word, "^faultfile: line 3: G2 %s: the word is none of: fit, stuck off" % word)
        self.mistake("ring 3\nlocked\n", "line 2: locked: this names no part")
        self.mistake("ring 3\nG4 locked\n", "line 2: G4 locked: a ring of 3 has G1 to G3")
        self.mistake("ring 3\nBB2 stuck open now\n", "line 2: BB2 stuck open now: the word is none of")
        self.mistake("ring 3\nBB2 word 256\n", "line 2: BB2 word 256: a word is at most 255")
        self.mistake("ring 3\ncode x word 1\n", "line 2: code x word 1: a code is a number from 0 to 255")
        self.mistake("ring 3\nBB%s fit\n" % ("9" * 9999), "line 2: BB9999.*numbered from 1 to 20")
        self.mistake("ring %s\n" % ("9" * 9999), "line 1: ring 9999")
        self.mistake("BB2 fit\n", "line 1: BB2 fit: the first line is `ring N`")
        self.mistake("ring\n", "line 1: ring: the first line")
        self.mistake("", "line 1: the first line is `ring N`")
        self.mistake("bytes 256\n", "line 1: bytes 256: a byte is at most 255")
        self.mistake("bytes 3\nring 3\n", "line 2: ring 3: after a line `bytes`")
        self.mistake("ring 3\nBB\u00b2 fit\n", "line 2: .* names no part")
        self.mistake(b"\xff\xfe\x00\n\x1b[2J", "line 1: ")

    def test_every_mistake_is_told(self):
        answer = tool("faultfile", "encode", data=b"ring 3\n" + b"BB9 fit\n" * 25)
        self.check(answer, 2, b"", "line 21: BB9 fit")
        self.assertIn("and 5 lines more", answer.said)

    def test_too_many_reports(self):
        self.check(tool("faultfile", "encode", data=b"ring 3\n" + b"BB1 fit\n" * 65536), 2, b"", "at most 65535 reports")


class Decode(ToolCase):

    def comes_back(self, data):
        shown = tool("faultfile", "decode", data=data)
        self.assertEqual(shown.status, 0)
        self.assertTrue(shown.out.startswith((b"ring ", b"#")), shown.out[:40])
        self.check(tool("faultfile", "encode", data=shown.out), 0, data)

    def test_every_stored_file_comes_back(self):
        """One of no bytes is shown as what it stands for: test_empty_file.py."""
        for data, _ in stored_runs():
            if data:
                self.assertEqual(faultlines.encode(faultlines.decode(data).encode()), data)

    def test_any_bytes_come_back(self):
        rng = random.Random(14)
        for size in [1, 2, 3, 4, 5, 5, 7, 7, 9, 40, 300] * 40:
            data = bytes(rng.randrange(256) if rng.random() < .5 else rng.randrange(7) for _ in range(size))
            self.assertEqual(faultlines.encode(faultlines.decode(data).encode()), data)

    def test_by_the_command(self):
        for data in (b"\3", b"\3\0", b"\3\0\0", b"\3\1\0\x40", b"#", b"\3\1\0\x63\7", b"\x23\0\0", b"\3\1\0\x43\2", b"\3\1\x20" + bytes(2 * 8193)):
            self.comes_back(data)
        self.check(tool("faultfile", "decode", data=b"ring 3\nBB2 fit\n"), 0, None, "look like readable lines already")

    def test_what_it_shows(self):
        self.check(tool("faultfile", "decode", data=bytes([3, 2, 0, 65, 0, 2, 1])), 0, b"ring 3\nBB2 stuck open\nG1 stuck off\n")
        self.check(tool("faultfile", "decode", data=bytes([3, 2, 0, 0, 0, 1, 0])), 0, b"ring 3\nG1 stuck off\nG1 fit\n")
        self.check(tool("faultfile", "decode", data=bytes([3, 3, 0, 0, 2, 0, 4, 5, 5])), 0, b"ring 3\nG1 locked\nG3 unlocked\nG1 unlocked\n")
        self.check(tool("faultfile", "decode", data=bytes([3, 2, 0, 34, 0, 4, 6])), 0,
                   b"ring 3\nGB3 locked    # refused 6: a breaker is reported as fit, stuck open or stuck closed; locks are for generators\n"
                   b"G1 word 6    # refused 6: word 6 is none: words go from 0 to 5\n")
        self.check(tool("faultfile", "decode", data=bytes([3, 1, 0, 67, 2])), 0,
                   b"ring 3\ncode 67 word 2    # refused 5: a ring of 3 has BB1 to BB3\n")
        self.check(tool("faultfile", "decode", data=bytes([3, 1, 0, 64])), 0,
                   b"# refused 4: with 1 reports a file has 5 bytes, this one 4\nbytes 3 1 0 64\n")

    def test_refused_files_are_refused_by_the_same_number(self):
        for data, run in list(stored_runs())[:60:3]:
            self.assertEqual(tool("ringctl", data=tool("faultfile", "decode", data=data).out).out, run)


class Check(ToolCase):

    def test_words_for_each_line(self):
        lines = b"ring 3\nBB2 stuck open\n\nG2 fit\nG2 stuck closed\nBB4 fit\nG1 stuck open\nBB1 stuck off\nBB1 word 9\n"
        self.check(tool("faultfile", "check", data=lines), 1,
                   b"line 5: G2 stuck closed: refused 6, a generator is reported as fit, stuck off, locked or unlocked\n"
                   b"line 6: BB4 fit: refused 5, a ring of 3 has BB1 to BB3\n"
                   b"line 7: G1 stuck open: refused 6, a generator is reported as fit, stuck off, locked or unlocked\n"
                   b"line 8: BB1 stuck off: refused 6, a breaker is reported as fit, stuck open or stuck closed\n"
                   b"line 9: BB1 word 9: refused 6, word 9 is none: words go from 0 to 5\n"
                   b"the controller's answer: refused 6\n")

    def test_locks(self):
        for served in (b"ring 3\nG1 locked\n", b"ring 3\nG1 unlocked\nG1 locked\nG1 locked\nG1 fit\n", b"\3\2\0\0\2\4\5"):
            self.check(tool("faultfile", "check", data=served), 0, b"the controller's answer: served\n")
        self.check(tool("faultfile", "check", data=b"ring 3\nG1 locked\nGB1 locked\nBB4 locked\nBB3 unlocked\n"), 1,
                   b"line 3: GB1 locked: refused 6, a breaker is reported as fit, stuck open or stuck closed; locks are for generators\n"
                   b"line 4: BB4 locked: refused 5, a ring of 3 has BB1 to BB3\n"
                   b"line 5: BB3 unlocked: refused 6, a breaker is reported as fit, stuck open or stuck closed; locks are for generators\n"
                   b"the controller's answer: refused 6\n")
        self.check(tool("faultfile", "check", data=b"\3\2\0\0\x40\4\4"), 1,
                   b"report 2: BB1 locked: refused 6, a breaker is reported as fit, stuck open or stuck closed; locks are for generators\n"
                   b"the controller's answer: refused 6\n")

    def test_whole_files(self):
        self.check(tool("faultfile", "check", data=b"ring 3\nBB2 stuck open\n"), 0, b"the controller's answer: served\n")
        self.check(tool("faultfile", "check", data=b"ring 2\n"), 1,
                   b"refused 2, a ring has from 3 to 20 buses, not 2\nthe controller's answer: refused 2\n")
        self.check(tool("faultfile", "check", data=b"\3\1\0\0\2"), 1,
                   b"report 1: G1 stuck open: refused 6, a generator is reported as fit, stuck off, locked or unlocked\n"
                   b"the controller's answer: refused 6\n")
        for served in (b"\3\1\0\0\0", b"ring 3\nG1 fit\n", b"ring 3\nG2 stuck off\nG2 fit\n"):
            self.check(tool("faultfile", "check", data=served), 0, b"the controller's answer: served\n")
        self.check(tool("faultfile", "check", data=b"ring 3\nGB33 fit\n"), 2, b"", "line 2: GB33 fit: GB are numbered")

    def test_numbers_are_the_simulations(self):
        rng = random.Random(15)
        files = [data for data, _ in stored_runs()]
        files += [bytes(rng.choice([0, 1, 2, 3, 4, 5, 6, 20, 32, 51, 64, 83, 84, 255]) for _ in range(rng.randrange(12))) for _ in range(3000)]
        for data in files:
            self.assertEqual(faultlines.check(data)[1], sim.parse_fault_file(data).refusal, data)
            lines = faultlines.decode(data).encode()
            self.assertEqual(faultlines.check(lines)[1], sim.parse_fault_file(data).refusal, lines)

    def test_every_report(self):
        """Every code and word of every ring has the simulation's number: 5, 6 or none, and never 7."""
        seen = set()
        for size, code, word in itertools.product(range(3, 21), range(256), [*range(9), 255]):
            number, reason = faultlines.report_refusal(size, code, word)
            self.assertEqual(number, sim.report_refusal(size, ringsim.report_of(code, word)), (size, code, word))
            self.assertEqual(bool(reason), number > 0)
            seen.add(number)
        self.assertEqual(seen, {0, 5, 6})


class Words(ToolCase):

    def test_files_as_words(self):
        self.check(tool("faultfile", "encode", path("examples", "cut-off.txt")), 0, read("examples", "cut-off.faults"))
        self.check(tool("faultfile", "decode", path("examples", "bus-breaker-open.faults")), 0, b"ring 3\nBB2 stuck open\n")

    def test_wrong_words(self):
        self.check(tool("faultfile"), 2, b"", "^bin/faultfile encode")
        self.check(tool("faultfile", "recode"), 2, b"", "encode, decode or check, not `recode`")
        self.check(tool("faultfile", "encode", "a", "b"), 2, b"", "one file at a time")
        self.check(tool("faultfile", "decode", "no-such-file"), 2, b"", "no-such-file cannot be read")
        self.check(tool("faultfile", "decode", path("examples")), 2, b"", "Is a directory")
        self.check(tool("faultfile", "--help"), 0)

    def test_too_long(self):
        with tempfile.TemporaryFile() as long:
            long.truncate(20 * 1024 * 1024)
            long.seek(0)
            self.check(tool("faultfile", "decode", stdin=long), 2, b"", "longer than")

    def test_full_output(self):
        with open("/dev/full", "wb") as full:
            self.check(tool("faultfile", "decode", data=b"\3\0\0", stdout=full), 2, None, "standard output cannot be written")


if __name__ == "__main__":
    unittest.main()
