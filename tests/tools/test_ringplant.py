"""bin/ringplant and its program: the plant reckoning by readable lines."""
import random
import unittest

from support import ToolCase, faultlines, make_vectors, program, ringsim, tool


class Ringplant(ToolCase):

    def test_answers(self):
        self.check(tool("ringplant", data=b"ring 3\n"), 0, b"B1 dark\nB2 dark\nB3 dark\n")
        self.check(tool("ringplant", data=b"Ring 3\r\nG1 ON\nclose gb1\tBB3"), 0, b"B1 G1\nB2 dark\nB3 G1\n")
        self.check(tool("ringplant", data=b"ring 3\nG1 on\nG2 on\nclose GB1 GB2 BB2\nclose BB3\n"), 0,
                   b"B1 clash G1 G2\nB2 clash G1 G2\nB3 clash G1 G2\n")

    def test_the_last_line_on_a_part_decides(self):
        self.check(tool("ringplant", data=b"ring 3\nG1 on\nclose GB1\nopen GB1\nGB1 stuck open\nGB1 stuck closed\n"), 0,
                   b"B1 G1\nB2 dark\nB3 dark\n")
        self.check(tool("ringplant", data=b"ring 3\nG1 on\nG1 stuck off\nclose GB1\n"), 0, b"B1 dark\nB2 dark\nB3 dark\n")

    def test_locks(self):
        """A locked generator does not run, whatever it is ordered; neither lock nor health alters the other."""
        both = b"ring 3\nG1 on\nG2 on\nclose GB1 GB2 BB1\n"
        self.check(tool("ringplant", data=both), 0, b"B1 clash G1 G2\nB2 clash G1 G2\nB3 dark\n")
        self.check(tool("ringplant", data=both + b"G1 locked\n"), 0, b"B1 G2\nB2 G2\nB3 dark\n")
        self.check(tool("ringplant", data=b"ring 3\nG1 Locked\n" + both[7:]), 0, b"B1 G2\nB2 G2\nB3 dark\n")
        self.check(tool("ringplant", data=both + b"G1 locked\nG2 locked\n"), 0, b"B1 dark\nB2 dark\nB3 dark\n")
        for words, fed in ((b"locked\nG1 unlocked", True), (b"unlocked", True), (b"locked\nG1 locked\nG1 unlocked", True),
                           (b"locked\nG1 stuck off\nG1 fit", False), (b"stuck off\nG1 locked\nG1 fit", False),
                           (b"locked\nG1 stuck off\nG1 unlocked", False), (b"locked\nG1 stuck off\nG1 unlocked\nG1 fit", True),
                           (b"unlocked\nG1 locked", False), (b"locked\nG1 off\nG1 on", False), (b"word 4", False), (b"word 4\nG1 word 5", True)):
            self.check(tool("ringplant", data=b"ring 3\nG1 on\nclose GB1\nG1 " + words + b"\n"), 0,
                       b"B1 %s\nB2 dark\nB3 dark\n" % (b"G1" if fed else b"dark"))

    def test_a_lock_for_a_breaker(self):
        for line in (b"GB1 locked", b"BB3 unlocked", b"code 32 word 4"):
            self.check(tool("ringplant", data=b"ring 3\nG1 locked\n" + line + b"\n"), 2, b"",
                       "^ringplant: line 3: %s: locks are for generators\n$" % line.decode())
        self.check(tool("ringplant", data=b"ring 3\nG4 locked\n"), 2, b"", "line 2: G4 locked: a ring of 3 has G1 to G3")
        self.check(tool("ringplant", data=b"ring 3\ncode 3 word 4\n"), 0, b"B1 dark\nB2 dark\nB3 dark\n")

    def test_refused(self):
        self.check(tool("ringplant", data=b"ring 2\nG1 on\n"), 1, b"refused 2\n")
        self.check(tool("ringplant", data=b"ring 3\nG1 stuck open\n"), 1, b"refused 9\n")
        self.check(tool("ringplant", data=b"ring 3\nBB1 word 7\n"), 1, b"refused 9\n")

    def test_mistakes(self):
        for lines, said in ((b"ring 3\nclose G1\n", "line 2: close G1: G1: a generator is ordered `on` or `off`"),
                            (b"ring 3\nBB2 on\n", "line 2: BB2 on: BB2: a breaker is ordered by `close` or `open`"),
                            (b"ring 3\nclose\n", "line 2: close: name the breakers"),
                            (b"ring 3\nclose BB4\n", "line 2: close BB4: a ring of 3 has BB1 to BB3"),
                            (b"ring 3\nG99 on\n", "line 2: G99 on: G are numbered from 1 to 20"),
                            (b"ring 3\ncode 99 word 1\n", "line 2: code 99 word 1: code 99 names no part"),
                            (b"ring 3\nG1 maybe\n", "line 2: G1 maybe: the word is none of"),
                            (b"G1 on\n", "line 1: G1 on: the first line is `ring N`"),
                            (b"", "the first line is `ring N`"),
                            (b"\3\1\0\x41\2", "line 1: ")):
            self.check(tool("ringplant", data=lines), 2, b"", said)

    def test_by_the_simulation(self):
        rng = random.Random(16)
        for i in range(300):
            n = rng.choice([3, 3, 4, 5, 12, 20, 21, 2])
            case = (n, make_vectors.random_health(rng, min(n, 20), i % 5 == 0), make_vectors.random_locks(rng, 20, rng.choice([0, .2, .7])),
                    make_vectors.random_commands(rng, 20))
            self.assertEqual(program("ringplant", make_vectors.plant_bytes(*case)).out.decode(), make_vectors.plant_text(*case))

    def test_too_few_bytes(self):
        answer = program("ringplant", b"\3" * 140)
        self.assertEqual((answer.out, answer.said), (b"", "ringplant: standard input has fewer than 141 bytes\n"))

    def test_the_lines_make_the_case(self):
        lines = b"ring 20\nG20 stuck off\nGB20 stuck open\nBB20 stuck closed\nG20 on\nclose GB20 BB20\nG3 locked\nG20 locked\nG4 unlocked\n"
        self.check(tool("ringplant", data=lines), 0, b"".join(b"B%d dark\n" % k for k in range(1, 21)))
        case = faultlines.plant_case(lines)
        expected = [20] + [0] * 140
        expected[61 + 2] = expected[61 + 19] = 1
        for code, word in ((19, 1), (51, 2), (83, 3)):
            expected[1 + ringsim.ALL_CODES.index(code)] = word
            expected[81 + ringsim.ALL_CODES.index(code)] = 1
        self.assertEqual(list(case), expected)

    def test_full_output(self):
        with open("/dev/full", "wb") as full:
            self.check(tool("ringplant", data=b"ring 3\n", stdout=full), 2, None, "standard output cannot be written")
            self.assertEqual(program("ringplant", bytes([3] + [0] * 140), stdout=full).said, "ringplant: standard output cannot be written\n")


if __name__ == "__main__":
    unittest.main()
