"""Every example and exercise, with its expected run: by the simulation, and by the tools."""
import glob
import os
import re
import unittest

from support import ToolCase, faultlines, make_vectors, path, rates_in, read, ringsim, sim, simulated_chances, simulated_loads, simulated_scans, tool


def named(*pattern):
    return sorted(os.path.splitext(os.path.basename(name))[0] for name in glob.glob(path("examples", *pattern)))


SCANS = named("*.scans")
LOADS = named("*.loads")
EXAMPLES = [name for name in named("*.txt") if name not in SCANS + LOADS]
CUTS = named("*.cuts")
CHANCES = named("*.chances")
RATES = path("examples", "published-rates.rates")
ERRORS = named("errors", "*.txt")


def simulated_plant(lines):
    """The simulation's answer to readable lines of ring, health, locks and orders."""
    case = faultlines.plant_case(lines)
    health, orders = dict(zip(ringsim.ALL_CODES, case[1:61])), dict(zip(ringsim.ALL_CODES, map(bool, case[81:])))
    return make_vectors.plant_text(case[0], health, dict(zip(ringsim.GENERATOR_CODES, map(bool, case[61:81]))), orders).encode()


def simulated_run(lines):
    return sim.printed_run(faultlines.encode(lines))


def simulated_cuts(lines):
    return make_vectors.cuts_text(faultlines.encode(lines)).encode()


def published_chances(lines):
    return simulated_chances(read("examples", "published-rates.rates"), faultlines.encode(lines))


SIMULATED = {"ringctl": simulated_run, "ringcuts": simulated_cuts, "ringplant": simulated_plant, "ringscan": simulated_scans,
             "ringload": simulated_loads, "ringchance": published_chances}

# What a command takes before the lines of an exercise.
BEFORE = {"ringchance": [RATES]}


def strokes(line):
    """The strokes of a run's line."""
    return [stroke for wave in line.split(b" / ")[1:] if wave != b"-" for stroke in wave.split()]


class Examples(ToolCase):

    def test_each_has_its_files(self):
        examples = [(name, end) for name in EXAMPLES for end in ("txt", "faults", "run")] + [(name, "cuts") for name in CUTS]
        examples += [(name, "chances") for name in CHANCES] + [("published-rates", "rates")]
        examples += [(name, end) for name in SCANS for end in ("txt", "scans")] + [(name, end) for name in LOADS for end in ("txt", "loads")]
        errors = [(name, end) for name in ERRORS for end in ("txt", "feeds")]
        for folder, wanted in (("examples", examples), ("examples/errors", errors)):
            files = [name for name in os.listdir(path(folder)) if not name.endswith(".md") and name != "errors"]
            self.assertEqual(sorted(files), sorted("%s.%s" % names for names in wanted))
        self.assertLessEqual(set(CUTS + CHANCES), set(EXAMPLES))

    def test_each_is_in_the_list(self):
        text = read("examples", "README.md").decode()
        for name in EXAMPLES + SCANS + LOADS:
            self.assertIn("| %s |" % name, text)
        for name in ERRORS:
            self.assertIn("examples/errors/%s.txt" % name, text)

    def test_runs(self):
        for name in EXAMPLES:
            with self.subTest(name):
                expected, file = read("examples", name + ".run"), read("examples", name + ".faults")
                status = int(expected.startswith(b"refused"))
                self.assertEqual(sim.printed_run(file), expected)
                self.check(tool("faultfile", "encode", path("examples", name + ".txt")), 0, file)
                for end in (".txt", ".faults"):
                    self.check(tool("ringctl", path("examples", name + end)), status, expected)

    def test_cuts(self):
        for name in CUTS:
            with self.subTest(name):
                expected = read("examples", name + ".cuts")
                self.assertEqual(simulated_cuts(read("examples", name + ".txt")), expected)
                for end in (".txt", ".faults"):
                    self.check(tool("ringcuts", path("examples", name + end)), 0, expected)

    def test_chances(self):
        self.assertTrue(CHANCES)
        for name in CHANCES:
            with self.subTest(name):
                expected = read("examples", name + ".chances")
                self.assertEqual(published_chances(read("examples", name + ".txt")), expected)
                for end in (".txt", ".faults"):
                    self.check(tool("ringchance", RATES, path("examples", name + end)), 0, expected)

    def test_published_rates(self):
        """Those of document 004: 1e-7 a generator, 1e-8 a breaker."""
        self.assertEqual(rates_in(read("examples", "published-rates.rates")), make_vectors.EXAMPLE)

    def test_scans(self):
        self.assertTrue(SCANS)
        for name in SCANS:
            with self.subTest(name):
                expected = read("examples", name + ".scans")
                self.assertEqual(simulated_scans(read("examples", name + ".txt")), expected)
                self.check(tool("ringscan", path("examples", name + ".txt")), 0, expected)

    def test_loads(self):
        self.assertTrue(LOADS)
        for name in LOADS:
            with self.subTest(name):
                expected = read("examples", name + ".loads")
                self.assertEqual(simulated_loads(read("examples", name + ".txt")), expected)
                self.check(tool("ringload", path("examples", name + ".txt")), 0, expected)

    def test_one_scan_instead_of_single_reports(self):
        """Of every example: the last choices are the same, with at most as many strokes; in some there are fewer."""
        spared = set()
        for name in EXAMPLES:
            single = read("examples", name + ".run").splitlines()[1:]
            if single:
                answer = tool("ringscan", "--together", path("examples", name + ".txt"))
                self.check(answer, 0, simulated_scans(read("examples", name + ".txt"), together=True))
                start, line = answer.out.splitlines()
                self.assertEqual((start, line.split(b" / ")[0].split()[1:]), (single[0], single[-1].split(b" / ")[0].split()[1:]))
                more = sum(len(strokes(step)) for step in single[1:]) - len(strokes(line))
                self.assertGreaterEqual(more, 0)
                spared |= {name} if more else set()
        self.assertLessEqual({"generators-fail", "breaker-returns", "cut-off"}, spared)

    def test_errors(self):
        for name in ERRORS:
            with self.subTest(name):
                expected = read("examples", "errors", name + ".feeds")
                self.assertEqual(simulated_plant(read("examples", "errors", name + ".txt")), expected)
                self.check(tool("ringplant", path("examples", "errors", name + ".txt")), 0, expected)

    def test_what_the_examples_are_for(self):
        runs = {name: read("examples", name + ".run") for name in EXAMPLES}
        self.assertIn(b"refused", runs["refused-word"])
        self.assertEqual(read("examples", "from-the-works.faults"), b"")
        self.assertTrue(runs["from-the-works"].startswith(b"ring 3 reports 0\n"))
        self.assertIn(b"B3=-", runs["cut-off"])
        self.assertIn(b"B4=G2h", runs["tie-of-four"])
        self.assertNotIn(b"=-", runs["planning-desk"])
        *_, dark, first, lit, back, last = runs["generator-returns"].splitlines()
        self.assertIn(b" B4=- B5=- / ", dark)
        self.assertIn(b" B2=G2o B3=G2h B4=- B5=- / ", first)
        self.assertNotIn(b"=-", lit)
        self.assertIn(b" B1=G1o ", back)
        self.assertTrue(last.endswith(b" / - / -"))
        self.assertEqual(faultlines.reports_of(read("examples", "generator-returns.faults"))[-4:], [(1, 0), (4, 0), (0, 0), (3, 0)])
        visit = [line.split(b" ", 1)[1] for line in runs["service-visit"].splitlines()[1:]]
        self.assertEqual(faultlines.reports_of(read("examples", "service-visit.faults")), [(1, 4), (0, 1), (1, 1), (1, 0), (1, 5), (0, 0)])
        self.assertNotIn(b"=G2", b"".join(visit[1:5]))                  # locked, and replaced while locked
        self.assertTrue(visit[2].startswith(b"B1=G3h B2=G3h B3=G3o "))
        self.assertTrue(visit[3].endswith(b" / - / -") and visit[4] == visit[3])
        self.assertIn(b" B2=G2o B3=G2h ", visit[5])
        self.assertEqual(visit[6].split(b" / ")[0], visit[0].split(b" / ")[0])
        seconds = [line.split(b" / ")[2] for line in runs["current-advances"].splitlines()[1:]]
        self.assertEqual((seconds[7], seconds[10]), (b"G3+ GB3+ BB2+ BB1+ BB5+ BB4+", b"G4+ GB4+ BB5+"))
        self.assertIn(b"\n6 B1=- B2=- B3=- B4=- B5=- / ", runs["current-advances"])
        self.assertIn(b"\nB5 7\nBB5\n", read("examples", "planning-desk.cuts"))
        self.assertRegex(read("examples", "planning-desk.chances"), rb"\nB5  sum 1\.0000001\d*e-08  largest 1e-08  +sets 7\n")
        self.assertIn(b" / - / -\n", read("examples", "one-cycle.scans"))
        self.assertNotIn(b"=-", read("examples", "one-cycle.scans"))
        single = re.sub(b"^(scan|end)\n", b"", read("examples", "one-cycle.txt"), flags=re.M)
        self.assertIn(b"B1=- B2=-", simulated_run(single))
        loads = read("examples", "bookings.loads").splitlines()
        self.assertRegex(loads[6], b"^scan of 3 reports .*dark 5200$")
        self.assertEqual([line.rpartition(b"dark ")[2] for line in loads[7:9]], [b"700", b"0"])
        clashes = [name for name in ERRORS if b"clash G1 G2" in read("examples", "errors", name + ".feeds")]
        self.assertEqual(clashes, ["breaker-behind", "closing-first", "stuck-closed-taken-for-open"])


class Exercises(ToolCase):

    def test_answers(self):
        text = read("examples", "exercises.md").decode()
        asked = dict(re.findall(r"```exercise-(\d+)\n(.*?)```", text, re.S))
        answers = dict(re.findall(r"```answer-(\d+)\n(.*?)```", text, re.S))
        tools = dict(re.findall(r"## (\d+)\..*?For `bin/(\w+)`", text, re.S))
        self.assertGreater(len(asked), 8)
        self.assertEqual(asked.keys(), answers.keys())
        self.assertEqual(asked.keys(), tools.keys())
        for number, lines in asked.items():
            with self.subTest(number):
                lines, expected = lines.encode(), answers[number].encode()
                self.assertEqual(SIMULATED[tools[number]](lines), expected)
                refused = re.search(b"^refused", expected, re.M)
                said = "^%s: line .* refused" % tools[number] if refused and tools[number] in ("ringscan", "ringload") else None
                self.check(tool(tools[number], *BEFORE.get(tools[number], []), data=lines), int(bool(refused)), expected, said)


if __name__ == "__main__":
    unittest.main()
