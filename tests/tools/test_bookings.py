"""The stored cases of bookings and cancellations, and the loads of the other stored records: what they hold, read a second time from their
bytes. They are the simulation's by test_programs.py."""
import collections
import unittest

from support import BookCase, ScanCase, StepCase, make_vectors, places_of, ringsim, sim, stored_cases

CASES = [BookCase(data) for data in stored_cases("vectors_book")]
BOOKED = [case for case in CASES if case.is_booking and case.number == 0]
CANCELLED = [case for case in CASES if not case.is_booking and case.number == 0]
SWITCHED = [read_case(data) for read_case, name in ((StepCase, "vectors_step"), (ScanCase, "vectors_scan")) for data in stored_cases(name)]
BLANK = ringsim.Booking(0, 0, 0)


def live(record):
    return [booking.number for booking in record.bookings]


def conditions(case):
    """The numbers whose conditions a call meets, in the order of Note 5, each asked by itself."""
    record, booking = case.record, case.booking
    if not case.is_booking:
        met = [(9, sim.record_is_bad(record)), (13, booking.number not in live(record))]
    else:
        met = [(9, sim.record_is_bad(record)), (10, not 1 <= booking.bus <= record.n), (12, not 1 <= booking.watts <= 100000),
               (13, booking.number in live(record)), (14, len(record.bookings) >= 64)]
    return [number for number, meets in met if meets]


def figures(record, sources):
    """The figures by a count of its own: the watts of the bookings on the buses of each source, 0 for dark buses."""
    watts = collections.Counter()
    for booking in record.bookings:
        watts[sources[booking.bus - 1]] += booking.watts
    return [watts[source] for source in range(21)]


def sources_of(record):
    return [0 if way is None else way.generator for way in sim.choose(record.n, record.health, record.locks)]


def figures_of(record):
    return [record.dark_watts] + record.watts


class Refusals(unittest.TestCase):

    def test_the_first_condition_decides(self):
        """Each of 9, 10, 12, 13 and 14 comes before every later one, and by itself."""
        seen = set()
        for case in CASES:
            met = conditions(case)
            self.assertEqual(case.number, (met + [0])[0])
            seen.update((case.is_booking, case.number, other) for other in met)
        order = (9, 10, 12, 13, 14)
        self.assertLessEqual({(True, first, later) for k, first in enumerate(order) for later in order[k:]}, seen)
        self.assertLessEqual({(False, 9, 9), (False, 9, 13), (False, 13, 13)}, seen)
        alone = {(case.is_booking, case.number) for case in CASES if len(conditions(case)) == 1}
        self.assertEqual(alone, {(True, number) for number in order} | {(False, 9), (False, 13)})

    def test_refused_ones_change_nothing(self):
        """Not a byte of the record, also behind the live bookings."""
        for case in CASES:
            if case.number:
                self.assertEqual(case.expected, case.before)

    def test_edges(self):
        """Numbers, buses and watts on both sides of the bounds."""
        served = {(name, getattr(case.booking, name)) for case in BOOKED for name in ("number", "bus", "watts")}
        self.assertLessEqual({("number", 0), ("number", 65535), ("watts", 1), ("watts", 65536), ("watts", 100000), ("bus", 1), ("bus", 20)},
                             served)
        self.assertEqual({case.booking.bus for case in BOOKED if case.record.n == 3}, {1, 2, 3})
        refused = collections.defaultdict(set)
        for case in CASES:
            if case.is_booking:
                refused[case.number].add(case.booking)
        self.assertLessEqual({0, 4, 21, 255}, {booking.bus for booking in refused[10]})
        self.assertLessEqual({0, 100001, 165536, 2 ** 32 - 1}, {booking.watts for booking in refused[12]})
        self.assertLessEqual({0, 65535}, {booking.number for booking in refused[13]})
        self.assertLessEqual({0, 65535}, {case.booking.number for case in CANCELLED})
        self.assertLessEqual({0, 65535}, {case.booking.number for case in CASES if not case.is_booking and case.number == 13})

    def test_numbers_that_share_a_byte(self):
        """A number is refused or cancelled by both its bytes."""
        for byte in (lambda number: number % 256, lambda number: number // 256):
            for cases in (BOOKED, [case for case in CASES if not case.is_booking and case.number == 13]):
                self.assertTrue(any(byte(case.booking.number) in map(byte, live(case.record)) for case in cases))


class Damaged(unittest.TestCase):
    """Records that Note 5 has refused by 9."""

    def ways(self, cases):
        """Which of the new conditions the bad records meet, of those whose switching is good."""
        found = set()
        for case in cases:
            record = case.record
            if case.number != 9 or sim.record_is_bad(ringsim.Record(record.n, record.health, record.orders, record.locks)):
                continue
            numbers, n = live(record), record.n
            found.add("live %d" % len(numbers) if len(numbers) > 64 else "")
            found.add("twice" if len(numbers) <= 64 and len(set(numbers)) < len(numbers) else "")
            found.update("bus %s" % (b.bus if b.bus != n + 1 else "n + 1") for b in record.bookings if not 1 <= b.bus <= n)
            found.update("watts %d" % b.watts for b in record.bookings if not 1 <= b.watts <= 100000)
            if all(1 <= b.bus <= n for b in record.bookings) and len(numbers) <= 64:
                found.update(self.off(record))
        return found - {""}

    def off(self, record):
        by = [kept - counted for kept, counted in zip(figures_of(record), figures(record, sources_of(record)))]
        if sum(map(abs, by)) == 1:
            k = by.index(sum(by))
            yield "dark" if k == 0 else "generator" if k <= record.n else "generator above n"
        elif any(by):
            yield "several figures"

    def test_every_way_for_every_call(self):
        wanted = {"live 65", "live 255", "twice", "bus 0", "bus n + 1", "watts 0", "watts 100001", "generator", "generator above n", "dark",
                  "several figures"}
        steps, scans = [[case for case in SWITCHED if isinstance(case, kind)] for kind in (StepCase, ScanCase)]
        for cases in ([case for case in CASES if case.is_booking], [case for case in CASES if not case.is_booking], steps, scans):
            self.assertLessEqual(wanted, self.ways(cases))

    def test_cut_sets(self):
        """The records of refused lists, whose switching is good."""
        bad = collections.Counter()
        for data in stored_cases("vectors_cuts"):
            if data[677] == 9:
                bad[data[:141] == make_vectors.record_bytes(make_vectors.with_a_dark_bus(6))[:141]] += 1
        self.assertGreater(bad[True], 20)

    def test_records_are_bad_by_9_alone(self):
        """The simulation's judgement of each record, and the number of its case."""
        for case in CASES + [case for case in SWITCHED if not getattr(case, "is_start", False)]:
            self.assertEqual(sim.record_is_bad(case.record), case.number == 9)


class Places(unittest.TestCase):

    def test_a_booking_takes_the_first_place_behind_the_live_ones(self):
        for case in BOOKED:
            before, after, count = places_of(case.before), places_of(case.expected), len(case.record.bookings)
            self.assertEqual((case.after.bookings[count:], after), ([case.booking], before[:count] + [case.booking] + before[count + 1:]))

    def test_a_cancellation_moves_the_later_ones_down(self):
        for case in CANCELLED:
            before, count = places_of(case.before), len(case.record.bookings)
            others = [booking for booking in before[:count] if booking.number != case.booking.number]
            self.assertEqual((len(others), places_of(case.expected)), (count - 1, others + [BLANK] + before[count:]))

    def test_reports_and_scans_keep_every_place(self):
        moved = 0
        for case in SWITCHED:
            if not getattr(case, "is_start", False):
                self.assertEqual(case.expected[141:590], case.before[141:590])
                moved += case.number == 0 and any(place != BLANK for place in places_of(case.before)[len(case.record.bookings):])
        self.assertGreater(moved, 50)

    def test_what_stands_behind_the_live_ones_is_not_looked_at(self):
        """Served records with bad bookings there, and with numbers that are live; numbers there are booked, and are not cancelled."""
        found = collections.Counter()
        for case in CASES:
            behind = places_of(case.before)[len(case.record.bookings):]
            numbers = [place.number for place in behind if place != BLANK]
            if case.number == 0:
                found["bad"] += any(place.bus > case.record.n or place.watts > 100000 for place in behind)
                found["live"] += bool(set(numbers) & set(live(case.record)))
                found["booked"] += case.is_booking and case.booking.number in numbers
            found["not cancelled"] += not case.is_booking and case.number == 13 and case.booking.number in numbers
        for kind, least in (("bad", 50), ("live", 4), ("booked", 4), ("not cancelled", 4)):
            self.assertGreaterEqual(found[kind], least, kind)

    def test_64_live_and_places_that_serve_again(self):
        counts = {len(case.after.bookings) for case in BOOKED}
        self.assertLessEqual(set(range(6, 65)), counts)
        self.assertTrue(any(len(case.record.bookings) == 64 for case in CASES if case.number == 14))
        freed = [case.booking.number for case in CANCELLED if len(case.record.bookings) == 64]
        self.assertGreaterEqual(len(freed), 3)
        self.assertGreaterEqual(sum(len(case.after.bookings) == 64 for case in BOOKED), 4)
        self.assertTrue({live(case.record).index(case.booking.number) for case in CANCELLED} >= {0, 31, 63})


class Figures(unittest.TestCase):

    def test_every_served_record_has_the_figures_of_its_bookings(self):
        for case in BOOKED + CANCELLED + [case for case in SWITCHED if case.number == 0]:
            self.assertEqual(figures_of(case.after), figures(case.after, sources_of(case.after)))

    def test_choices_stay(self):
        """A booking and a cancellation leave the switching as it was."""
        for case in BOOKED + CANCELLED:
            self.assertEqual(case.expected[:141], case.before[:141])

    def test_what_reports_and_scans_move(self):
        """Watts that go from one generator to another, go dark, and are lit again, by steps and by scans."""
        found = collections.Counter()
        for case in SWITCHED:
            if case.number == 0 and case.record.bookings:
                kind = type(case).__name__
                before, after = figures_of(case.record), figures_of(case.after)
                self.assertEqual(sum(before), sum(after))
                found[kind, "moved"] += before[1:] != after[1:]
                found[kind, "dark"] += before[0] < after[0]
                found[kind, "lit"] += after[0] < before[0]
                found[kind, "as it was"] += before == after
        for kind in ("StepCase", "ScanCase"):
            for what, least in (("moved", 150), ("dark", 15), ("lit", 40), ("as it was", 40)):
                self.assertGreaterEqual(found[kind, what], least, (kind, what))

    def test_every_ring(self):
        self.assertEqual({case.record.n for case in BOOKED}, set(range(3, 21)))
        self.assertEqual({case.record.n for case in CANCELLED}, set(range(3, 21)))

    def test_dark_buses_and_large_figures(self):
        self.assertGreater(sum(case.after.dark_watts > case.record.dark_watts for case in BOOKED), 5)
        self.assertGreater(sum(case.after.dark_watts < case.record.dark_watts for case in CANCELLED), 2)
        self.assertEqual(max(max(figures_of(case.after)) for case in SWITCHED if case.number == 0), 6400000)


if __name__ == "__main__":
    unittest.main()
