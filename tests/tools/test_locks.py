"""Generators that are locked out for service, Note 7 of document 02: "Word 4 locks it and word 5 unlocks it", "Neither lock nor health alters the
other", and "Fit [..] now means not stuck off and not locked".

What the stored cases hold: they are the simulation's by test_programs.py. Locks and health are read here from the words themselves."""
import collections
import itertools
import random
import re
import unittest

from support import (BookCase, ScanCase, StepCase, ToolCase, faultlines, make_vectors, program, read, ringsim, sim, stored_cases, stored_cuts,
                     stored_runs, tool)

RINGS = (3, 4, 5, 20)
LOCK, UNLOCK = 4, 5

# The papers' words: the start of a ring of three, and "G1 off: G2h G2o G2h", which a lock calls for as well.
START = "0 B1=G1o B2=G2o B3=G2h / - / G1+ GB1+ G2+ GB2+ BB2+\n"
LOCKED = "%d B1=G2h B2=G2o B3=G2h / G1- GB1- / BB1+\n"
UNLOCKED = "%d B1=G1o B2=G2o B3=G2h / BB1- / G1+ GB1+\n"
OUT = "%d B1=G2h B2=G2o B3=G2h / - / -\n"


class Word:
    """A report of a served run, with what the words before it made of health and locks, and the lines before it and of it."""

    def __init__(self, n, code, word, stuck, locked, before, after):
        self.n, self.code, self.word, self.stuck, self.locked = n, code, word, stuck, locked
        (self.buses_before, _), (self.buses, self.waves) = before, after

    def is_of_a_generator(self):
        return self.code < faultlines.MOST

    def was_off(self):
        return self.stuck.get(self.code) == 1

    def was_locked(self):
        return self.code in self.locked

    def locked_now(self):
        """The codes that are locked after the word."""
        return self.locked | {self.code} if self.word == LOCK else self.locked - {self.code} if self.word == UNLOCK else self.locked

    def stuck_now(self):
        return {**self.stuck, self.code: self.word} if self.word < LOCK else self.stuck

    def changes_nothing(self):
        return (self.buses, self.waves) == (self.buses_before, ["-", "-"])

    def dark(self):
        return [bus for bus in self.buses if bus.endswith("=-")]

    def own_bus(self):
        """What the generator's own bus had before the word, and has after it."""
        return self.buses_before[self.code].split("=")[1], self.buses[self.code].split("=")[1]

    def stuck_around(self):
        """The words on the breakers next to the generator's bus."""
        return [self.stuck.get(breaker, 0) for breaker in make_vectors.breakers_around(self.n, self.code + 1)]


def line_in(text):
    """The buses and the waves of a line."""
    front, *waves = text.split(" / ")
    return front.split(" ")[1:], waves


def words_of(data, text):
    """The reports of a served run."""
    lines, stuck, locked = [line_in(line) for line in text.decode().splitlines()[1:]], {}, frozenset()
    for (code, word), before, after in zip(faultlines.reports_of(data), lines, lines[1:]):
        found = Word(data[0], code, word, stuck, locked, before, after)
        yield found
        stuck, locked = found.stuck_now(), found.locked_now()


def started(found):
    """The generators that the second wave starts, and those that feed a bus, by code."""
    on = [int(number) - 1 for number in re.findall(r"\bG(\d+)\+", found.waves[1])]
    return set(on) | {int(number) - 1 for number in re.findall(r"=G(\d+)", " ".join(found.buses))}


class StoredRuns(unittest.TestCase):

    @classmethod
    def setUpClass(cls):
        cls.runs = dict(stored_runs())
        cls.served = {data: text for data, text in cls.runs.items() if not text.startswith(b"refused")}
        cls.words = [word for data, text in cls.served.items() for word in words_of(data, text)]
        cls.locks = [word for word in cls.words if word.word in (LOCK, UNLOCK)]

    def some(self, holds, words=None):
        """In each of the rings there is a report of which this holds."""
        for n in RINGS:
            self.assertTrue(any(found.n == n and holds(found) for found in words or self.locks), n)

    def test_the_words_of_the_note(self):
        """G1 of three is locked and unlocked; a lock for a breaker and a word above 5 are refused by 6, a part that is not there by 5."""
        self.assertEqual(self.runs[b"\3\2\0\0\0\4\5"].decode(), "ring 3 reports 2\n" + START + LOCKED % 1 + UNLOCKED % 2)
        for n in RINGS:
            for code in (32, 31 + n, 64, 63 + n):
                for word in (LOCK, UNLOCK, 6, 255):
                    self.assertEqual(self.runs[make_vectors.fault_file(n, [(code, word)])], b"refused 6\n")
            for code, word in itertools.product((0, n - 1), (6, 255)):
                self.assertEqual(self.runs[make_vectors.fault_file(n, [(code, word)])], b"refused 6\n")
            for code, word in itertools.product((n, 32 + n, 64 + n), (LOCK, UNLOCK, 6)):
                self.assertEqual(self.runs[make_vectors.fault_file(n, [(code, word)])], b"refused 5\n")
            self.assertEqual(self.runs[make_vectors.fault_file(n, [(0, LOCK), (32, LOCK), (0, UNLOCK)])], b"refused 6\n")

    def test_every_size_and_generator(self):
        found = {(word.n, word.code, word.word, word.was_locked()) for word in self.locks}
        self.assertLessEqual({(n, code, *rest) for n in RINGS for code in range(n)
                              for rest in ((LOCK, False), (LOCK, True), (UNLOCK, True), (UNLOCK, False))}, found)
        self.assertEqual({n for n, *_ in found}, set(range(3, 21)))

    def test_no_locked_generator_is_started_or_chosen(self):
        least = collections.Counter()
        for found in self.words:
            locked = found.locked_now()
            self.assertFalse(started(found) & locked)
            least[found.n] += bool(locked)
        for n in RINGS:
            self.assertGreater(least[n], 100)

    def test_words_that_are_repeated(self):
        """Locked twice, unlocked though it was not locked: two empty waves."""
        repeated = [word for word in self.locks if (word.word == LOCK) == word.was_locked()]
        self.some(lambda found: found.word == LOCK, repeated)
        self.some(lambda found: found.word == UNLOCK, repeated)
        for found in repeated:
            self.assertTrue(found.changes_nothing())

    def test_neither_lock_nor_health_alters_the_other(self):
        """Replaced or failed while it is locked, locked or unlocked while it is stuck off: nothing changes, and it takes both the other words to
        bring a generator back."""
        generators = [found for found in self.words if found.is_of_a_generator()]
        for word, was_off, was_locked in ((0, True, True), (1, False, True), (UNLOCK, True, True), (LOCK, True, False)):
            here = [found for found in generators if (found.word, found.was_off(), found.was_locked()) == (word, was_off, was_locked)]
            self.some(lambda found: True, here)
            for found in here:
                self.assertTrue(found.changes_nothing())
        self.some(lambda found: found.code in started(found) and found.word == 0 and found.was_off(), generators)
        self.some(lambda found: found.code in started(found) and found.word == UNLOCK and found.was_locked(), generators)

    def test_a_lock_is_as_a_fault_that_passes(self):
        """Where a generator has no other words, the run is that of words 1 and 0."""
        compared = 0
        for data, text in self.served.items():
            reports = faultlines.reports_of(data)
            kinds = {word in (LOCK, UNLOCK) for code, word in reports if code < faultlines.MOST}
            if kinds == {True} and len(reports) < 1000:
                as_faults = [(code, {LOCK: 1, UNLOCK: 0}.get(word, word)) for code, word in reports]
                self.assertEqual(text, sim.printed_run(make_vectors.fault_file(data[0], as_faults)))
                compared += 1
        self.assertGreater(compared, 150)

    def test_dark_buses_are_judged_by_health_and_locks(self):
        """After a word for a generator a dark bus has no way from one that is neither stuck off nor locked; a bus that is lit has."""
        dark = 0
        for found in self.locks:
            health = {**dict.fromkeys(ringsim.ALL_CODES, 0), **found.stuck_now()}
            locks = {code: code in found.locked_now() for code in ringsim.GENERATOR_CODES}
            for bus, choice in enumerate(found.buses, start=1):
                self.assertEqual(sim.could_be_fed(found.n, bus, health, locks), not choice.endswith("=-"))
                dark += choice.endswith("=-")
        self.assertGreater(dark, 1000)

    def test_all_locked(self):
        self.some(lambda found: found.word == LOCK and len(found.locked_now()) == found.n and len(found.dark()) == found.n)
        self.some(lambda found: found.word == UNLOCK and len(found.locked) == found.n and not found.dark())

    def test_its_own_bus_goes_dark_and_is_lit_again(self):
        own = [found for found in self.words if found.word in (LOCK, UNLOCK)]
        self.some(lambda found: found.word == UNLOCK and found.own_bus() == ("-", "G%do" % (found.code + 1)), own)
        self.some(lambda found: found.word == UNLOCK and found.was_locked() and found.own_bus() == ("-", "-"), own)
        cut = [found for found in self.words if found.locked and not found.is_of_a_generator() and 0 < len(found.dark()) < found.n]
        self.some(lambda found: found.buses[next(iter(found.locked))].endswith("=-"), cut)

    def test_the_first_in_priority(self):
        """Another source when G1 or G2 is locked, and back when it is unlocked."""
        for code, own in ((0, "G1o"), (1, "G2o")):
            self.some(lambda found: found.code == code and found.word == LOCK and found.own_bus()[0] == own != found.own_bus()[1])
            self.some(lambda found: found.code == code and found.word == UNLOCK and found.own_bus()[0] != own == found.own_bus()[1])

    def test_breakers_around_it_are_stuck(self):
        for place, stuck, word in itertools.product(range(3), (2, 3), (LOCK, UNLOCK)):
            self.some(lambda found: found.word == word and found.stuck_around()[place] == stuck)


def orders_of(record, locks):
    """The standing orders that a record's health calls for with these locks."""
    return ringsim.orders_called_for(sim.choose(record.n, record.health, locks))


def conditions(record, report):
    """Whether a record is bad, and whether a part and a word are."""
    part = report.part
    inside = 1 <= part.number <= record.n
    return [(9, sim.record_is_bad(record)), (5, not inside), (6, report.word in ((2, 3) if part.kind == "G" else (1, 4, 5)))]


class StoredSteps(unittest.TestCase):

    @classmethod
    def setUpClass(cls):
        cls.cases = [case for case in map(StepCase, stored_cases("vectors_step")) if not case.is_start]
        cls.served = [case for case in cls.cases if case.number == 0]

    def test_what_a_word_alters(self):
        """Words 4 and 5 a lock alone, the others a health alone, from every state of a generator."""
        seen = set()
        for case in self.served:
            code, word = case.report.part.code, case.report.word
            health, locks = dict(case.record.health), dict(case.record.locks)
            if word in (LOCK, UNLOCK):
                seen.add((word, health[code], locks[code]))
                locks[code] = word == LOCK
            else:
                if case.report.part.kind == "G":
                    seen.add((word, health[code], locks[code]))
                health[code] = word
            self.assertEqual((case.after.health, case.after.locks), (health, locks))
        self.assertEqual(seen, set(itertools.product((0, 1, LOCK, UNLOCK), (0, 1), (False, True))))

    def test_records_with_a_locked_part_above_n(self):
        """Every number above n of a ring of 3, 8 and 19, in records with nothing else amiss."""
        found = collections.defaultdict(set)
        for case in self.cases:
            record = case.record
            above = [number for number in range(record.n + 1, 21) if record.locks[number - 1]]
            if len(above) == 1:
                self.assertEqual(case.number, 9)
                record.locks[above[0] - 1] = False
                if not sim.record_is_bad(record):
                    found[record.n].update(above)
                record.locks[above[0] - 1] = True
        for n in (3, 8, 19):
            self.assertEqual(found[n], set(range(n + 1, 21)))

    def test_records_at_odds_with_their_locks(self):
        """Orders that health alone calls for though a lock is set; orders of a ring with locks though one is cleared."""
        alone, cleared = collections.Counter(), collections.Counter()
        for case in self.cases:
            record = case.record
            if case.number != 9 or not 3 <= record.n <= 20:
                continue
            if any(record.locks.values()) and orders_of(record, ringsim.no_locks()) == record.orders != orders_of(record, record.locks):
                alone[record.n] += 1
            for code in range(record.n):
                if not record.locks[code] and orders_of(record, {**record.locks, code: True}) == record.orders != orders_of(record, record.locks):
                    cleared[record.n] += 1
        for n in (3, 8, 19):
            self.assertGreaterEqual(alone[n], 12)
            self.assertGreaterEqual(cleared[n], 12)

    def test_a_lock_that_calls_for_nothing(self):
        """Served records in which a generator is locked that would not be chosen either."""
        idle = [case for case in self.served if any(case.record.locks.values())
                and orders_of(case.record, ringsim.no_locks()) == orders_of(case.record, case.record.locks)]
        self.assertGreater(len(idle), 20)

    def test_refusals_in_turn(self):
        """Words 4 and 5: 9 before 5, 6 and 8, 5 before 6 and 8, 6 before 8."""
        seen = set()
        for case in self.cases:
            if case.report.word in (LOCK, UNLOCK):
                met = [number for number, meets in conditions(case.record, case.report) if meets]
                self.assertEqual((met + [case.number])[0], case.number)
                seen.update((case.number, other) for other in met[1:] + ([8] if case.room < 2 else []))
        self.assertLessEqual({(9, 5), (9, 6), (9, 8), (5, 6), (5, 8), (6, 8)}, seen)

    def test_buffers_a_byte_short(self):
        served = {case.call: 2 + 2 * sum(case.buffer[:2]) for case in self.served if case.report.word in (LOCK, UNLOCK)}
        short = [case for case in self.cases if case.number == 8 and case.report.word in (LOCK, UNLOCK)]
        self.assertGreater(sum(served.get(case.call) == case.room + 1 for case in short), 20)


class StoredScans(unittest.TestCase):

    @classmethod
    def setUpClass(cls):
        cls.cases = [ScanCase(data) for data in stored_cases("vectors_scan")]
        cls.served = [case for case in cls.cases if case.number == 0]

    def heard(self, case):
        """The words on each generator, one after the other."""
        heard = collections.defaultdict(list)
        for report in case.reports:
            if report.part.kind == "G":
                heard[report.part.code].append(report.word)
        return heard

    def some(self, holds):
        for n in RINGS:
            self.assertTrue(any(case.record.n == n and holds(case) for case in self.served), n)

    def some_generator(self, words, was_off=None, was_locked=None):
        """In each of the rings a served scan has these words for a generator, from such a state."""
        self.some(lambda case: any(said == list(words) and was_off in (None, case.record.health[code] == 1)
                                   and was_locked in (None, case.record.locks[code]) for code, said in self.heard(case).items()))

    def test_words_in_one_cycle(self):
        for words, was_off, was_locked in (((4, 5), False, False), ((5, 4), False, True), ((1, 4), False, False), ((4, 1, 5), False, False),
                                           ((0,), True, True), ((5,), True, True), ((5, 0), True, True), ((4,), False, False),
                                           ((5,), False, True), ((4,), False, True), ((5,), False, False)):
            self.some_generator(words, was_off, was_locked)

    def test_all_locked_and_all_unlocked(self):
        self.some(lambda case: all(case.after.locks[code] for code in range(case.record.n)) and not any(case.record.locks.values()))
        self.some(lambda case: all(case.record.locks[code] for code in range(case.record.n)) and not any(case.after.locks.values()))
        self.some(lambda case: len(case.reports) == 64 and {4, 5} <= {report.word for report in case.reports})

    def test_with_a_word_3(self):
        self.some(lambda case: {3, 4} <= {report.word for report in case.reports})
        self.some(lambda case: {3, 5} <= {report.word for report in case.reports})

    def test_a_lock_for_a_breaker_is_a_bad_report(self):
        """It refuses the scan by 6; past the count it is not read."""
        bad = lambda report: report.part.kind != "G" and report.word in (LOCK, UNLOCK)
        refused = {(case.record.n, report.part.kind, report.word) for case in self.cases if case.number == 6 for report in case.reports
                   if bad(report) and 1 <= report.part.number <= case.record.n}
        self.assertLessEqual({(n, *rest) for n in RINGS for rest in (("GB", 4), ("GB", 5), ("BB", 4), ("BB", 5))}, refused)
        self.some(lambda case: case.count < 64 and bad(case.places[case.count]))

    def test_no_locked_generator_is_ordered_on(self):
        for case in self.served:
            self.assertFalse(any(locked and case.after.orders[code] for code, locked in case.after.locks.items()))


class StoredReckonings(unittest.TestCase):

    @classmethod
    def setUpClass(cls):
        data = read("crates", "vectors_plant", "data", "cases")
        cls.cases = [data[at:at + 202] for at in range(0, len(data), 202)]

    def fed(self, case):
        """The generators that some bus names."""
        return {number for at in range(142, 202, 3) for number in case[at + 1:at + 3] if number}

    def test_no_locked_generator_feeds(self):
        """Though it is fit but for the lock, is ordered on, and its breaker is closed."""
        ordered = collections.Counter()
        for case in self.cases:
            n, locked = case[0], {k for k in range(1, 21) if case[60 + k]}
            self.assertFalse(self.fed(case) & locked)
            if case[141] == 0:
                closed = lambda k: case[20 + k] == 3 or case[20 + k] == 0 and case[100 + k]
                ordered[n] += any(k <= n and case[k] == 0 and case[80 + k] and closed(k) for k in locked)
        for n in RINGS:
            self.assertGreater(ordered[n], 15)

    def test_a_locked_generator_is_as_one_that_is_stuck_off(self):
        """The answer is the simulation's for a ring without locks in which they are stuck off."""
        for case in self.cases:
            if case[141] == 0:
                health = {**dict(zip(ringsim.ALL_CODES, case[1:61])), **{k: 1 for k in range(case[0]) if case[61 + k]}}
                orders = dict(zip(ringsim.ALL_CODES, map(bool, case[81:141])))
                self.assertEqual(case[141:], make_vectors.reckoning(case[0], health, ringsim.no_locks(), orders)[141:])

    def test_kinds_of_cases(self):
        """Locked and stuck off; all locked; locks above n alone; refused by 2 and by 9 with locks; and answers of each kind beside locks."""
        for n in RINGS:
            here = [case for case in self.cases if case[0] == n and any(case[61:81])]
            self.assertTrue(any(case[61 + k] and case[1 + k] == 1 for case in here for k in range(n)))
            self.assertTrue(any(all(case[61:61 + n]) for case in here))
            self.assertEqual(n == 20, not any(any(case[61 + n:81]) and not any(case[61:61 + n]) and self.fed(case) for case in here))
            self.assertEqual({case[141] for case in here}, {0, 9})
            self.assertLessEqual({0, 1, 2}, {case[at] for case in here for at in range(142, 142 + 3 * n, 3)})
        self.assertIn(2, {case[141] for case in self.cases if any(case[61:81])})


class StoredCuts(unittest.TestCase):

    def test_locked_generators_are_in_no_set(self):
        found = collections.Counter()
        for case in stored_cuts():
            locked = {code for code, locked in case.record.locks.items() if locked}
            if case.number == 0 and locked:
                self.assertFalse(any(locked & set(codes) for codes in case.sets()))
                found[case.n] += 1
        for n in (3, 4, 5, 8):
            self.assertGreater(found[n], 20)

    def test_dark_by_locks(self):
        """A bus that is dark, and would be lit without the locks, has the empty set alone."""
        found = collections.Counter()
        for case in stored_cuts():
            if case.number == 0 and any(case.record.locks.values()):
                n, health = case.n, case.record.health
                dark = not sim.could_be_fed(n, case.bus, health, case.record.locks)
                self.assertEqual(case.sets() == [()], dark)
                found[n] += dark and sim.could_be_fed(n, case.bus, health, ringsim.no_locks())
        for n in (3, 4, 5, 8):
            self.assertGreaterEqual(found[n], 5)


class StoredBookings(unittest.TestCase):

    def test_figures_follow_the_locks(self):
        """No locked generator carries anything; and what it would carry goes to others, and goes dark."""
        found = collections.Counter()
        for case in map(BookCase, stored_cases("vectors_book")):
            record = case.after
            if case.number or not any(record.locks.values()):
                continue
            self.assertFalse(any(record.watts[code] for code, locked in record.locks.items() if locked))
            without = make_vectors.booked(sim.record_for(record.n, record.health), record.bookings)
            found["moved"] += without.watts != record.watts
            found["dark"] += without.dark_watts < record.dark_watts
            found["booked" if case.is_booking else "cancelled"] += 1
        for kind, least in (("moved", 100), ("dark", 15), ("booked", 80), ("cancelled", 60)):
            self.assertGreater(found[kind], least, kind)

    def test_steps_and_scans_that_lock(self):
        """The figures after them are those of the new sources."""
        for kind, name in ((StepCase, "vectors_step"), (ScanCase, "vectors_scan")):
            moved = collections.Counter()
            for case in map(kind, stored_cases(name)):
                if case.number == 0 and case.record.bookings and case.after.locks != case.record.locks:
                    counted = make_vectors.booked(case.after.copy(), case.after.bookings)
                    self.assertEqual((counted.watts, counted.dark_watts), (case.after.watts, case.after.dark_watts))
                    moved["to others"] += case.after.watts != case.record.watts
                    moved["dark"] += case.after.dark_watts > case.record.dark_watts
            self.assertGreater(moved["to others"], 40)
            self.assertGreater(moved["dark"], 8)


class Gate(unittest.TestCase):
    """What the gate runs the other programs on."""

    def test_generators_are_locked_and_unlocked(self):
        for name in ("ringtrace", "ringcuts"):
            words = {word for _, word in faultlines.reports_of(read("crates", name, "stdin"))}
            self.assertLessEqual({LOCK, UNLOCK}, words, name)
        data = read("crates", "ringtrace", "stdin")
        self.assertTrue(any(found.word == 0 and found.was_locked() and found.was_off() for found in words_of(data, sim.printed_run(data))))
        _, calls = make_vectors.gate_scans()
        self.assertLessEqual({("G", 4), ("G", 5), ("BB", 4)}, {(report.part.kind, report.word) for call in calls for report in call})
        _, calls = make_vectors.gate_loads()
        reports = [report for word, *taken in calls if word in ("report", "scan") for report in taken]
        self.assertLessEqual({("G", 4), ("G", 5), ("GB", 5)}, {(report.part.kind, report.word) for report in reports})

    def test_a_ring_with_locks_is_reckoned(self):
        case = read("crates", "ringplant", "stdin")
        locked = [k for k in range(1, 21) if case[60 + k]]
        self.assertEqual((case[0], len(case), locked), (12, 141, [4, 9, 10, 12, 13]))
        self.assertEqual([case[80 + k] for k in locked], [0, 1, 1, 1, 0])
        self.assertEqual([case[k] for k in locked], [0, 1, 0, 0, 0])
        self.assertNotRegex(read("crates", "ringplant", "stdout"), b"G(4|9|10|12)$")


def random_reports(rng, n, count):
    """Reports that are served, most of them on generators, which fail, are replaced, locked and unlocked."""
    found = []
    for _ in range(count):
        if rng.random() < .7:
            found.append((rng.randrange(n), rng.choice([0, 0, 1, LOCK, LOCK, UNLOCK, UNLOCK])))
        else:
            found.append((rng.choice([32, 64]) + rng.randrange(n), rng.choice([0, 0, 2, 3])))
    return found


class Programs(ToolCase):
    """The printed run itself, on lists of reports at random."""

    def test_a_locked_generator_is_in_no_orders_to_start(self):
        """While it is locked no line starts it and no bus has it as its source; a set that is replaced while it is locked stays out. The run is the
        simulation's."""
        rng, seen = random.Random(70), collections.Counter()
        for k in range(120):
            n = rng.choice([3, 3, 4, 5, 8, 20])
            data = make_vectors.fault_file(n, random_reports(rng, n, 80))
            text = program("ringctl", data).out
            self.assertEqual(text, sim.printed_run(data))
            for found in words_of(data, text):
                self.assertFalse(started(found) & found.locked_now())
                self.assertFalse(started(found) & {code for code, word in found.stuck_now().items() if word == 1 and code < 20})
                if found.word == 0 and found.was_off() and found.was_locked():
                    self.assertTrue(found.changes_nothing())
                    seen["replaced while locked"] += 1
                if found.word == UNLOCK and found.was_off() and found.was_locked():
                    self.assertTrue(found.changes_nothing())
                    seen["unlocked while off"] += 1
                seen["locked while it runs"] += found.word == LOCK and "G%d-" % (found.code + 1) in found.waves[0].split(" ")
                seen["starts unlocked"] += found.word == UNLOCK and "G%d+" % (found.code + 1) in found.waves[1].split(" ")
        for kind in ("replaced while locked", "unlocked while off", "locked while it runs", "starts unlocked"):
            self.assertGreater(seen[kind], 50, kind)

    def test_the_trace(self):
        """A locked generator feeds no bus from its word on, before the first stroke and after each."""
        rng = random.Random(71)
        for _ in range(40):
            n = rng.choice([3, 4, 5, 8])
            reports = random_reports(rng, n, 40)
            data = make_vectors.fault_file(n, reports)
            text = program("ringtrace", data).out.decode()
            self.assertEqual(text, make_vectors.trace_text(data))
            locked, calls = set(), iter([None] + reports)
            for line in text.splitlines()[1:]:
                if line[:1].isdigit():
                    code, word = next(calls) or (0, 0)
                    if word in (LOCK, UNLOCK):
                        locked = locked | {code} if word == LOCK else locked - {code}
                self.assertFalse({int(k) - 1 for k in re.findall(r"G(\d+)", line.partition(" ")[2])} & locked)

    def test_every_word_on_every_part(self):
        """One report on a started ring of three, and the same behind a lock of every generator."""
        for code, word in itertools.product([*range(4), *range(32, 36), *range(64, 68)], [*range(8), 255]):
            for before in ([], [(0, LOCK), (1, LOCK), (2, LOCK)]):
                data = make_vectors.fault_file(3, before + [(code, word)])
                self.assertEqual(program("ringctl", data).out, sim.printed_run(data), data)


class Tools(ToolCase):
    """`G1 locked` and `G1 unlocked` by the commands; their own tests have more."""

    def test_ringctl(self):
        lines = b"ring 3\nG1 locked\nG1 stuck off\nG1 fit\nG1 unlocked\n"
        text = "ring 3 reports 4\n" + START + LOCKED % 1 + OUT % 2 + OUT % 3 + UNLOCKED % 4
        self.assertEqual(sim.printed_run(faultlines.encode(lines)).decode(), text)
        self.check(tool("ringctl", data=lines), 0, text.encode())
        off = b"ring 3\nG1 locked\nG1 stuck off\nG1 unlocked\nG1 fit\n"
        self.check(tool("ringctl", data=off), 0, text.encode())
        self.check(tool("ringctl", data=b"ring 3\nGB1 locked\n"), 1, b"refused 6\n")
        self.check(tool("ringctl", data=b"ring 3\nG1 word 6\n"), 1, b"refused 6\n")

    def test_mistakes(self):
        for name in ("ringctl", "ringcuts", "ringview", "ringscan", "ringload", "ringplant"):
            self.check(tool(name, data=b"ring 3\nG1 lock\n"), 2, b"",
                       "^%s: line 2: G1 lock: the word is none of: fit, .*, locked, unlocked\n$" % name)

    def test_help(self):
        for name in ("faultfile", "ringscan", "ringload"):
            self.assertRegex(tool(name, "--help").out, rb"`?G[12] locked\b(.|\n)*`G[12] unlocked`")
        self.assertIn(b"locked, unlocked", tool("ringplant", "--help").out)
        self.assertIn(b"locked", tool("ringcuts", "--help").out)


if __name__ == "__main__":
    unittest.main()
