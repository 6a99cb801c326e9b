"""The order of the second wave, Note 4 of document 02: "The second wave goes through buses in number order and each chosen way in that
sequence, a part only where it first comes. The first wave keeps its order."

What the stored cases hold: they are the simulation's by test_programs.py. Here each second wave is read once more, from the choices that are
stored with it (support.py, `way_of` and `outward`)."""
import collections
import itertools
import re
import unittest

from support import ScanCase, StepCase, make_vectors, outward, read, ringsim, sim, stored_cases, stored_runs, way_of, ways_in

RINGS = tuple(make_vectors.OUTWARD)
CODES = {ringsim.name_of(code): code for code in ringsim.ALL_CODES}
BUS_BREAKERS = 64


def pairs(codes):
    return list(zip(codes, codes[1:]))


class Wave:
    """Both waves of a served call: what was ordered on before it, and the way of each bus that is lit, in number order."""

    def __init__(self, n, before, ways, first, second):
        self.n, self.before, self.ways, self.first, self.second = n, frozenset(before), ways, first, second

    def added(self):
        """Each way, with the parts that it adds to the second wave."""
        seen = set(self.before)
        for way in self.ways:
            yield way, [code for code in way if code not in seen]
            seen.update(way)

    def falls(self):
        """A way adds two bus breakers or more, in falling codes."""
        return any(BUS_BREAKERS <= later == earlier - 1 for _, new in self.added() for earlier, later in pairs(new))

    def passes(self, one, other):
        """A way leads from BB`one` past a bus to BB`other`, and the wave has the one right before the other."""
        wanted = (BUS_BREAKERS + one - 1, BUS_BREAKERS + other - 1)
        return wanted in pairs(self.second) and any(wanted in pairs(way) for way in self.ways)

    def shares(self):
        """A way has a bus breaker that was listed for an earlier bus, and adds parts of its own."""
        listed = set()
        for way, new in self.added():
            if new and any(code in listed for code in way):
                return True
            listed.update(code for code in new if code >= BUS_BREAKERS)
        return False

    def passes_over_a_source(self):
        """A way adds parts, but not its generator, which was ordered on before."""
        return any(new and way[0] in self.before for way, new in self.added())

    def passes_over_a_breaker(self):
        """On a way a part that was ordered on before stands between two that are listed."""
        for way in self.ways:
            listed = [place for place, code in enumerate(way) if code not in self.before]
            if listed and listed[-1] - listed[0] >= len(listed):
                return True
        return False

    def returns_to_a_source(self):
        """A source's parts stand before those of another, and again behind them."""
        sources = [source for source, _ in itertools.groupby(way[0] for way, new in self.added() if new)]
        return len(set(sources)) < len(sources)

    def differs_from_rising_codes(self):
        return self.second != sorted(self.second)


# What second waves are looked for, and how many of the stored runs', steps' and scans' are such at least.
KINDS = {
    "falls": (Wave.falls, (180, 80, 50)),
    "past B1 through rising numbers": (lambda wave: wave.passes(wave.n, 1), (50, 25, 20)),
    "past B1 through falling numbers": (lambda wave: wave.passes(1, wave.n), (140, 15, 15)),
    "shares": (Wave.shares, (800, 90, 80)),
    "passes over a source": (Wave.passes_over_a_source, (1000, 80, 80)),
    "passes over a breaker": (Wave.passes_over_a_breaker, (1000, 40, 35)),
    "returns to a source": (Wave.returns_to_a_source, (0, 0, 20)),
    "differs from rising codes": (Wave.differs_from_rising_codes, (800, 110, 110)),
}

# In a ring of three no single report leads over a part in use to one that is not. A wave returns to a source where a scan brings several
# changes.
MISSING = {("passes over a breaker", "runs"): {3}, ("passes over a breaker", "steps"): {3}, ("returns to a source", "runs"): set(RINGS),
           ("returns to a source", "steps"): set(RINGS)}


def listed(wave, sign):
    """The codes of a printed wave."""
    names = [] if wave == "-" else wave.split(" ")
    assert all(name.endswith(sign) for name in names)
    return [CODES[name[:-1]] for name in names]


def printed_waves(n, lines):
    """The waves of a run's lines; those of refused scans are passed over."""
    before = set()
    for line in lines:
        if not line.startswith("refused"):
            front, first, second = line.split(" / ")
            ways = [way_of(n, int(bus), int(source), letter) for bus, source, letter in re.findall(r"B(\d+)=G(\d+)([ohl])", front)]
            first, second = listed(first, "-"), listed(second, "+")
            yield Wave(n, before, ways, first, second)
            before = before - set(first) | set(second)


def sheet_wave(record, choices, sheet):
    """The waves of a stored sheet."""
    on = [code for code, order in record.orders.items() if order]
    end = 2 + sheet[0]
    return Wave(record.n, on, ways_in(record.n, choices), list(sheet[2:end]), list(sheet[end:end + sheet[1]]))


def served_calls():
    """Of each stored start, step and scan that is served: the record before it, that after it, the choices and the buffer."""
    for kind, read_case, name in (("steps", StepCase, "vectors_step"), ("scans", ScanCase, "vectors_scan")):
        for case in map(read_case, stored_cases(name)):
            if case.number == 0:
                yield kind, case.record, case.after, case.choices, case.buffer


def stored_waves():
    """The waves of all served calls, by the kind of their cases."""
    waves = {"runs": [], "steps": [], "scans": []}
    for _, text in stored_runs():
        if not text.startswith(b"refused"):
            head, *lines = text.decode().splitlines()
            waves["runs"] += printed_waves(int(head.split(" ")[1]), lines)
    for kind, record, _, choices, sheet in CALLS:
        waves[kind].append(sheet_wave(record, choices, sheet))
    return waves


CALLS = list(served_calls())
STORED = stored_waves()
WAVES = sum(STORED.values(), [])


class Papers(unittest.TestCase):

    def test_the_printed_run(self):
        """Document 01's, whose line 0 "now ends `G1+ GB1+ G2+ GB2+ BB2+`"."""
        run = (b"ring 3 reports 1\n0 B1=G1o B2=G2o B3=G2h / - / G1+ GB1+ G2+ GB2+ BB2+\n"
               b"1 B1=G1o B2=G2o B3=G1h / BB2- / BB3+\n")
        self.assertEqual(dict(stored_runs())[bytes([3, 1, 0, 65, 2])], run)
        self.assertEqual(read("crates", "ringctl", "stdin"), bytes([3, 1, 0, 65, 2]))
        self.assertEqual(read("crates", "ringctl", "stdout"), run)

    def test_bb1_stuck_closed(self):
        """Document 01: "first wave G2, GB2, BB2; second BB1, BB3"."""
        last = dict(stored_runs())[bytes([3, 1, 0, 64, 3])].splitlines()[-1]
        self.assertTrue(last.endswith(b" / G2- GB2- BB2- / BB1+ BB3+"))

    def test_ways(self):
        """They are the simulation's, in sequence, and some by the papers' words: settled positions, and the example of Note 14."""
        for n in range(3, 21):
            for bus in range(1, n + 1):
                for way in sim.ways_in_order(n, bus):
                    self.assertEqual(way_of(n, bus, way.generator, way.rank), list(way.parts))
        for way, names in (((3, 3, 2, "h"), "G2 GB2 BB2"), ((3, 3, 2, "l"), "G2 GB2 BB1 BB3"), ((3, 3, 1, "h"), "G1 GB1 BB3"),
                           ((5, 5, 2, "l"), "G2 GB2 BB2 BB3 BB4"), ((4, 4, 2, "h"), "G2 GB2 BB2 BB3"), ((3, 1, 1, "o"), "G1 GB1")):
            self.assertEqual(" ".join(map(ringsim.name_of, way_of(*way))), names)


class Table(unittest.TestCase):
    """The closing phases that a theorem computes (crates/theory, Statements/Outward): the simulation's."""
    WORDS = {"generator_off": ("G", ringsim.STUCK_OFF), "generator_breaker_open": ("GB", ringsim.STUCK_OPEN),
             "bus_breaker_open": ("BB", ringsim.STUCK_OPEN), "bus_breaker_closed": ("BB", ringsim.STUCK_CLOSED)}
    KINDS = {"Generator": "G", "GeneratorBreaker": "GB", "BusBreaker": "BB"}
    ROW = re.compile(r"phase (\d+) (all_off|\(plan_for \d+ (?:\[\]|\([^()]*\))\)) (\[\]|\([^()]*\)) \(([^()]*)\)")

    def rows(self):
        """Size, the faults for which commands stand, or None where none stands, the faults known, and the parts."""
        text = read("crates", "theory", "specs", "Statements", "Outward.antt").decode()
        text = text[text.index("\nclosing_phases =\n"):text.index("-- what closes, by the definitions")]
        text = " ".join(line.strip() for line in text.splitlines() if not line.strip().startswith("--"))
        self.assertEqual(len(self.ROW.findall(text)), text.count("phase "))
        for n, standing, faults, parts in self.ROW.findall(text):
            old = None if standing == "all_off" else self.health(standing.split(" ", 2)[2])
            yield int(n), old, self.health(faults), [CODES[self.KINDS[kind] + k] for kind, k in re.findall(r"(\w+) (\d+)", parts)]

    def health(self, faults):
        """Each part's health after the faults named, all others fit."""
        health = {code: ringsim.FIT for code in ringsim.ALL_CODES}
        for numbers in re.findall(r"others_off (\d+) (\d+) (\d+) (\d+) (\d+)", faults):
            health.update({CODES["G" + k]: ringsim.STUCK_OFF for k in numbers[:4]})
            health[CODES["BB" + numbers[4]]] = ringsim.STUCK_OPEN
        for name, k in re.findall(r"(\w+) (\d+)(?= ∷)", faults):
            kind, word = self.WORDS[name]
            health[CODES[kind + k]] = word
        return health

    def test_the_rows(self):
        rows = list(self.rows())
        self.assertEqual(len(rows), 6)
        for n, standing, health, parts in rows:
            choices = sim.choose(n, health, ringsim.no_locks())
            old = ({code: False for code in ringsim.ALL_CODES} if standing is None
                   else ringsim.orders_called_for(sim.choose(n, standing, ringsim.no_locks())))
            self.assertEqual(sim.waves(n, old, ringsim.orders_called_for(choices), choices)[1], parts)


class Order(unittest.TestCase):

    def test_every_second_wave(self):
        for wave in WAVES:
            self.assertEqual(wave.second, outward(wave.ways, wave.before))

    def test_first_waves_keep_rising_codes(self):
        self.assertGreater(sum(len(wave.first) > 1 for wave in WAVES), 1000)
        for wave in WAVES:
            self.assertEqual(wave.first, sorted(wave.first))

    def test_what_the_cases_hold(self):
        """Each of the kinds in runs, steps and scans, and in every ring."""
        for name, (holds, least) in KINDS.items():
            for (stored, waves), wanted in zip(STORED.items(), least):
                with self.subTest("%s of %s" % (name, stored)):
                    found = collections.Counter(wave.n for wave in waves if holds(wave))
                    self.assertGreaterEqual(sum(found.values()), wanted)
                    self.assertEqual(set(RINGS) - set(found), MISSING.get((name, stored), set()))

    def test_the_longest_falling_way(self):
        """In a ring of 20 one way adds 19 bus breakers, from BB19 down to BB1."""
        down = list(range(BUS_BREAKERS + 18, BUS_BREAKERS - 1, -1))
        for stored, waves in STORED.items():
            self.assertTrue(any(new[2:] == down for wave in waves if wave.n == 20 for _, new in wave.added()), stored)


def by_last_coming(wave):
    codes = [code for way in wave.ways for code in way if code not in wave.before]
    return list(dict.fromkeys(reversed(codes)))[::-1]


def source_by_source(wave):
    sources = list(dict.fromkeys(way[0] for way in wave.ways))
    return outward(sorted(wave.ways, key=lambda way: sources.index(way[0])), wave.before)


def up_to_a_part_in_use(wave):
    ways = [way[:min([way.index(code) for code in way if code in wave.before], default=len(way))] for way in wave.ways]
    return outward(ways, wave.before)


# Orders that someone might take for this one, and how many waves tell them apart.
OTHERS = {
    "rising codes": (lambda wave: sorted(wave.second), 1000),
    "kind by kind": (lambda wave: sorted(wave.second, key=lambda code: code // 32), 500),
    "generators first": (lambda wave: sorted(wave.second, key=lambda code: code >= 32), 500),
    "bus breakers from the bus fed": (lambda wave: outward([way[:2] + way[:1:-1] for way in wave.ways], wave.before), 300),
    "from the bus fed to the generator": (lambda wave: outward([way[::-1] for way in wave.ways], wave.before), 1000),
    "bus breakers of a way in rising codes": (lambda wave: outward([sorted(way) for way in wave.ways], wave.before), 300),
    "buses from the last": (lambda wave: outward(wave.ways[::-1], wave.before), 1000),
    "short ways first": (lambda wave: outward(sorted(wave.ways, key=len), wave.before), 200),
    "where a part last comes": (by_last_coming, 1000),
    "source by source": (source_by_source, 20),
    "up to a part in use": (up_to_a_part_in_use, 1000),
    "all parts of the ways": (lambda wave: outward(wave.ways, ()), 1000),
}


class Others(unittest.TestCase):

    def test_the_cases_tell_other_orders_apart(self):
        for name, (order, least) in OTHERS.items():
            self.assertGreaterEqual(sum(order(wave) != wave.second for wave in WAVES), least, name)


def advances(record, orders, strokes):
    """Whether current advances from stroke to stroke, by the plant reckoning: a generator breaker closes where its generator is ordered on, a
    bus breaker where one of its buses is fed."""
    orders = dict(orders)
    for code in strokes:
        kind, number = code // 32, code % 32
        if kind == 1 and not orders[number]:
            return False
        if kind == 2:
            feeds = sim.reckon(record.n, record.health, orders, record.locks)[1]
            if feeds[number] == feeds[(number + 1) % record.n] == ringsim.DARK:
                return False
        orders[code] = True
    return True


class Lamps(unittest.TestCase):
    """What Note 4 is for: "Site crews follow the strokes on the lamps and want to see current advance"."""

    def test_current_advances(self):
        stopped = 0
        for _, record, after, choices, sheet in CALLS:
            wave = sheet_wave(record, choices, sheet)
            orders = {code: order and code not in wave.first for code, order in record.orders.items()}
            self.assertTrue(advances(after, orders, wave.second))
            stopped += not advances(after, orders, sorted(wave.second))
        self.assertGreater(stopped, 100)


class Gate(unittest.TestCase):
    """What the gate runs the other programs on."""

    def goes_round(self, waves):
        """Some wave falls, goes on past B1 and differs from rising codes."""
        self.assertTrue(any(wave.falls() and wave.passes(1, wave.n) and wave.differs_from_rising_codes() for wave in waves))

    def test_current_goes_round_past_b1(self):
        n, *_ = read("crates", "ringscan", "stdin")
        self.goes_round(printed_waves(n, read("crates", "ringscan", "stdout").decode().splitlines()))
        data = read("crates", "ringtrace", "stdin")
        lines = sim.printed_run(data).decode().splitlines()[1:]
        self.goes_round(printed_waves(data[0], lines))
        strokes = re.findall(r"^([GB]+\d+[+-]) ", read("crates", "ringtrace", "stdout").decode(), re.M)
        self.assertEqual(strokes, [stroke for line in lines for stroke in re.findall(r"[GB]+\d+[+-](?= |$)", line)])


if __name__ == "__main__":
    unittest.main()
