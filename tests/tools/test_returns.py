"""Generators that return, Note 3 of document 02: "word 0 makes a generator fit again", and "refusal 7 is given to no input any more"."""
import ast
import glob
import json
import re
import unittest

from support import (LAYOUTS, RULES, ScanCase, StepCase, ToolCase, faultlines, make_vectors, path, program, read, ringsim, sim, stored_cases,
                     stored_runs, tool)

# The papers' words: the start of a ring of three, "G1 off: G2h G2o G2h", and the ways that these take.
HEAD = b"ring 3 reports %d\n"
START = b"0 B1=G1o B2=G2o B3=G2h / - / G1+ GB1+ G2+ GB2+ BB2+\n"
NOTHING = b"%d B1=G1o B2=G2o B3=G2h / - / -\n"
FAILS = b"1 B1=G2h B2=G2o B3=G2h / G1- GB1- / BB1+\n"
RETURNS = b"2 B1=G1o B2=G2o B3=G2h / BB1- / G1+ GB1+\n"
RINGS = (3, 4, 5, 20)


class Rules(unittest.TestCase):

    def test_the_rules_that_are_built(self):
        """Notes 3 to 9 and no later one; every question to the simulation is bound to them."""
        self.assertEqual(RULES, ringsim.rules_named("notes=3,4,5,6,7,8,9"))
        self.assertEqual({part.keywords["rules"] for part in vars(sim).values()}, {RULES})

    def test_the_simulation_is_asked_under_the_rules_alone(self):
        """No question that takes rules goes past `sim`, but for one that hands on the rules that it was given; none names others."""
        files = [path("tests", "make_vectors.py")] + glob.glob(path("tests", "tools", "*.py")) + glob.glob(path("tests", "browser", "*.py"))
        self.assertGreater(len(files), 10)
        for name in files:
            for node in ast.walk(ast.parse(read(name))):
                self.assertNotIn(getattr(node, "attr", ""), ("BASE", "ALL_NOTES"), name)
                if isinstance(node, ast.Call) and isinstance(node.func, ast.Attribute) and hasattr(sim, node.func.attr):
                    handed_on = node.args and getattr(node.args[-1], "id", "") == "rules"
                    self.assertTrue(handed_on or getattr(node.func.value, "id", "") not in ("rs", "ringsim", "compare"),
                                    "%s, line %d: %s" % (name, node.lineno, node.func.attr))


def answers_of(name):
    """The numbers of a program's stored answers, but for printed runs."""
    if name == "vectors_plant":
        data = read("crates", name, "data", "cases")
        return {data[at] for at in range(141, len(data), 202)}
    return {case[LAYOUTS[name][1]] for case in stored_cases(name)}


class Seven(unittest.TestCase):

    def test_no_stored_answer_is_7(self):
        """What the programs are held to; that they give it is test_programs.py's, and the gate's."""
        refused = {text for _, text in stored_runs() if text.startswith(b"refused")}
        self.assertEqual(refused, {b"refused %d\n" % number for number in (1, 2, 3, 4, 5, 6)})
        self.assertEqual(answers_of("vectors_step"), {0, 2, 5, 6, 8, 9})
        self.assertEqual(answers_of("vectors_scan"), {0, 5, 6, 8, 9, 11})
        self.assertEqual(answers_of("vectors_cuts"), {0, 8, 9, 10})
        self.assertEqual(answers_of("vectors_book"), {0, 9, 10, 12, 13, 14})
        self.assertEqual(answers_of("vectors_exposure"), {0, 9, 10, 15, 16})
        self.assertEqual(answers_of("vectors_plant"), {0, 2, 9})

    def test_no_output_of_the_gate_is_7(self):
        for name in ("ringctl", "ringcuts", "ringload", "ringplant", "ringscan", "ringtrace"):
            self.assertNotIn(b"refused 7", read("crates", name, "stdout"))

    def test_no_report_gets_7(self):
        """The programs on every code up to the last, and a word too many: the simulation's run, which has no 7."""
        seen = set()
        for code in [*range(22), *range(30, 54), *range(62, 86), 255]:
            for word in range(7):
                data = bytes([3, 1, 0, code, word])
                run = program("ringctl", data).out
                self.assertEqual(run, sim.printed_run(data), data)
                self.assertEqual(program("ringtrace", data).out.decode(), make_vectors.trace_text(data), data)
                seen.add(run[8:].strip() if run.startswith(b"refused") else b"served")
        self.assertEqual(seen, {b"served", b"5", b"6"})

    def test_no_scan_gets_7(self):
        """The program on a scan of one report, for every kind, some numbers and every word."""
        numbers = set()
        for kind in make_vectors.KINDS:
            for number in (0, 1, 3, 4, 255):
                calls = [[make_vectors.report_on(kind, number, word)] for word in range(6)]
                text = program("ringscan", make_vectors.scans_file(3, calls)).out
                self.assertEqual(text, make_vectors.scans_text(3, calls).encode())
                numbers.update(re.findall(b"^refused ([0-9]+)$", text, re.M))
        self.assertEqual(numbers, {b"5", b"6"})


class Line:
    """A line of a run: its buses, and its waves."""

    def __init__(self, text):
        front, *self.waves = text.split(" / ")
        self.buses = front.split(" ")[1:]

    def dark(self):
        return [bus for bus in self.buses if bus.endswith("=-")]


class Return:
    """A word 0 for a generator in a served run: the words on the health of all parts before it, the locks, the line of the run before it, and
    its own."""

    def __init__(self, n, code, words, locks, before, after):
        self.n, self.code, self.words, self.locks = n, code, words, locks
        self.before, self.after = Line(before), Line(after)
        self.was_off = words.get(code, 0) == 1

    def is_of_the_only_one(self):
        return all(self.words.get(code, 0) == 1 for code in range(self.n))

    def stuck_around(self):
        """The words on the breakers next to the generator's bus."""
        return [self.words.get(breaker, 0) for breaker in make_vectors.breakers_around(self.n, self.code + 1)]


def returns_of(data, text):
    lines, words, locks = text.decode().splitlines()[1:], {}, ringsim.no_locks()
    for (code, word), before, after in zip(faultlines.reports_of(data), lines, lines[1:]):
        if code < faultlines.MOST and word == 0:
            yield Return(data[0], code, dict(words), dict(locks), before, after)
        if word < 4:
            words[code] = word
        else:
            locks[code] = word == 4


class StoredRuns(unittest.TestCase):
    """What the stored runs hold: they are the simulation's by test_programs.py."""

    @classmethod
    def setUpClass(cls):
        cls.runs = dict(stored_runs())
        served = [(data, text) for data, text in cls.runs.items() if not text.startswith(b"refused")]
        cls.returns = [found for data, text in served for found in returns_of(data, text)]

    def some(self, holds):
        """In each of the rings there is a return of which this holds."""
        for n in RINGS:
            self.assertTrue(any(found.n == n and holds(found) for found in self.returns), n)

    def test_the_papers_file(self):
        """Document 01's `3 1 0 0 0`, which was its example of refusal 7; and word 0 for every generator of a started ring."""
        self.assertEqual(self.runs[b"\3\1\0\0\0"], HEAD % 1 + START + NOTHING % 1)
        for n in RINGS:
            lines = self.runs[make_vectors.fault_file(n, [(code, 0) for code in range(n)])].splitlines()
            self.assertEqual([line.split(b" / ")[1:] for line in lines[2:]], [[b"-", b"-"]] * n)

    def test_every_size_and_generator(self):
        self.assertEqual({(found.n, found.code) for found in self.returns if found.was_off and found.n in RINGS},
                         {(n, code) for n in RINGS for code in range(n)})

    def test_a_fit_one_changes_nothing(self):
        fit = [found for found in self.returns if not found.was_off]
        self.assertEqual({found.n for found in fit}, set(range(3, 21)))
        for found in fit:
            self.assertEqual((found.after.buses, found.after.waves), (found.before.buses, ["-", "-"]))

    def test_dark_buses_are_judged_by_the_latest_word(self):
        """A bus that stays dark has no way from a generator that is fit after the word, not stuck off and not locked; one that is lit has."""
        for found in self.returns:
            health = {**dict.fromkeys(ringsim.ALL_CODES, 0), **found.words, found.code: 0}
            for bus, choice in enumerate(found.after.buses, start=1):
                fed = sim.could_be_fed(found.n, bus, health, found.locks)
                self.assertEqual(fed, not choice.endswith("=-"))

    def test_all_dark_and_lit_by_one(self):
        self.some(lambda found: found.is_of_the_only_one() and len(found.before.dark()) == found.n and not found.after.dark())

    def test_a_dark_bus_that_is_lit_again_and_one_that_stays_dark(self):
        self.some(lambda found: 0 < len(found.before.dark()) < found.n and not found.after.dark())
        self.some(lambda found: found.was_off and found.before.dark() and found.before.dark() == found.after.dark())
        self.some(lambda found: "B%d=-" % (found.code + 1) in found.after.buses and found.was_off)

    def test_the_first_in_priority_takes_its_bus_back(self):
        self.some(lambda found: found.code == 0 and found.before.buses[0][3:4] == "G" and found.after.buses[0] == "B1=G1o")
        self.some(lambda found: found.code == 1 and found.before.buses[1] == "B2=G1h" and found.after.buses[1] == "B2=G2o")

    def test_breakers_around_it_are_stuck(self):
        for place in range(3):
            for word in (2, 3):
                self.some(lambda found: found.was_off and found.stuck_around()[place] == word)

    def test_nothing_is_called_for(self):
        """A generator that was off and is not wanted: both waves are empty."""
        self.some(lambda found: found.was_off and found.after.waves == ["-", "-"])


class Gate(unittest.TestCase):
    """What the gate runs the other programs on."""

    def test_generators_return(self):
        for name in ("ringtrace", "ringcuts"):
            data = read("crates", name, "stdin")
            self.assertTrue(any(found.was_off for found in returns_of(data, sim.printed_run(data))), name)
        n, calls = make_vectors.gate_scans()
        self.assertEqual(read("crates", "ringscan", "stdin"), make_vectors.scans_file(n, calls))
        words = [report.word for call in calls for report in call if report.part == ringsim.Part("G", 2) and report.word < 2]
        self.assertEqual(words, [1, 0, 1, 0, 1])


class StoredSteps(unittest.TestCase):

    def test_word_0_for_generators(self):
        """Served for off and fit ones; 5 for numbers 0 and n + 1; 8 a byte below the sheet that is served; 9 before both."""
        numbers, served, short = set(), {}, []
        for case in map(StepCase, stored_cases("vectors_step")):
            if case.is_start or case.report.part.kind != "G" or case.report.word != 0:
                continue
            part, number = case.report.part, case.number
            numbers.add((number, "damaged" if sim.record_is_bad(case.record) else part.number - case.record.n if number == 5
                         else case.record.health[part.code]))
            if number == 0:
                served[case.call] = 2 + 2 * sum(case.buffer[:2])
            elif number == 8:
                short.append(case)
        self.assertLessEqual({(0, 0), (0, 1), (5, 1), (5, -3), (8, 0), (8, 1), (9, "damaged")}, numbers)
        self.assertEqual({number for number, _ in numbers}, {0, 5, 8, 9})
        self.assertGreater(sum(served.get(case.call) == case.room + 1 for case in short), 100)


class StoredScans(unittest.TestCase):

    def served(self):
        cases = [ScanCase(data) for data in stored_cases("vectors_scan")]
        return [case for case in cases if case.number == 0]

    def test_rings_and_words(self):
        served = self.served()
        generators = [[report for report in case.reports if report.part.kind == "G"] for case in served]
        some = [(case, words) for case, words in zip(served, generators) if words]
        for n in RINGS:
            here = [(case, words) for case, words in some if case.record.n == n]
            off = [(case, [case.record.health[code] for code in range(n)]) for case, _ in here]
            self.assertTrue(any(all(health) and not any(case.after.health[code] for code in range(n)) for case, health in off))
            self.assertTrue(any(len(words) == 64 for _, words in here))
            self.assertTrue(any({report.word for report in words} == {0} and 3 in [report.word for report in case.reports]
                                for case, words in here))


class Tools(ToolCase):
    """`G1 fit` by each command; bin/faultfile is in test_faultfile.py."""

    def test_word_0_for_a_fit_generator(self):
        """`3 1 0 0 0` by the commands: served, with two empty waves."""
        expected = HEAD % 1 + START + NOTHING % 1
        self.assertEqual(sim.printed_run(b"\3\1\0\0\0"), expected)
        self.assertEqual(program("ringctl", b"\3\1\0\0\0").out, expected)
        for data in (b"\3\1\0\0\0", b"ring 3\nG1 fit\n", b"ring 3\ncode 0 word 0\n"):
            self.check(tool("ringctl", data=data), 0, expected)
            self.check(tool("ringscan", data=data), 0, START + NOTHING % 1)
            self.check(tool("ringscan", "--together", data=data), 0, START + NOTHING % 1)

    def test_ringctl(self):
        lines, run = b"ring 3\nG1 stuck off\nG1 fit\n", HEAD % 2 + START + FAILS + RETURNS
        self.assertEqual(sim.printed_run(faultlines.encode(lines)), run)
        self.check(tool("ringctl", data=lines), 0, run)
        changes = b"1 B1=G2h / G1- GB1- / BB1+\n2 B1=G1o / BB1- / G1+ GB1+\n"
        self.check(tool("ringctl", "--changes", data=lines), 0, HEAD % 2 + START + changes)

    def test_ringscan(self):
        self.check(tool("ringscan", data=b"ring 3\nG1 stuck off\nscan\nG1 fit\nend\n"), 0, START + FAILS + RETURNS)
        self.check(tool("ringscan", data=b"ring 3\nscan\nG1 stuck off\nG1 fit\nend\n"), 0, START + NOTHING % 1)
        self.check(tool("ringscan", "--together", data=b"ring 3\nG1 stuck off\nG1 fit\n"), 0, START + NOTHING % 1)
        again = b"ring 3\nG1 stuck off\nscan\nG1 fit\nG1 stuck off\nend\n"
        self.check(tool("ringscan", data=again), 0, START + FAILS + b"2 B1=G2h B2=G2o B3=G2h / - / -\n")

    def test_ringscan_says_which_words_a_generator_takes(self):
        answer = tool("ringscan", data=b"ring 3\nscan\nG1 fit\nG2 stuck closed\nend\nG3 fit\n")
        self.check(answer, 1, START + b"refused 6\n" + NOTHING % 2,
                   "^ringscan: line 4: G2 stuck closed: refused 6, a generator is reported as fit, stuck off, locked or unlocked\n$")

    def test_ringplant(self):
        orders = b"G1 on\nclose GB1\n"
        self.check(tool("ringplant", data=b"ring 3\nG1 stuck off\nG1 fit\n" + orders), 0, b"B1 G1\nB2 dark\nB3 dark\n")
        self.check(tool("ringplant", data=b"ring 3\nG1 fit\nG1 stuck off\n" + orders), 0, b"B1 dark\nB2 dark\nB3 dark\n")

    def test_ringcuts(self):
        """Without G1 and G3 a fault of G2 alone darkens B3; when both are back it has its ten sets again."""
        lines = b"ring 3\nG1 stuck off\nG3 stuck off\nG1 fit\nG3 fit\n"
        answer = tool("ringcuts", data=lines)
        self.check(answer, 0, make_vectors.cuts_text(faultlines.encode(lines)).encode())
        self.assertIn(b"\nB3 10\n", answer.out)
        self.assertNotRegex(answer.out, b"(?m)^G2$")
        self.assertRegex(tool("ringcuts", data=b"ring 3\nG1 stuck off\nG3 stuck off\n").out, b"(?m)^G2$")

    def test_ringview(self):
        answer = tool("ringview", data=b"ring 3\nG1 stuck off\nG1 fit\n")
        self.check(answer, 0)
        told = json.loads(re.search(r'<script type="application/json" id="story">(.*?)</script>', answer.out.decode(), re.S).group(1))
        self.assertEqual(told["calls"][2], {
            "report": "G1 fit", "line": RETURNS.decode().strip(), "strokes": ["BB1-", "G1+", "GB1+"],
            "feeds": ["G2 G2 G2", "- G2 G2", "- G2 G2", "G1 G2 G2"]})

    def test_help(self):
        for name in ("faultfile", "ringscan"):
            self.assertIn(b"G1 fit", tool(name, "--help").out)


if __name__ == "__main__":
    unittest.main()
