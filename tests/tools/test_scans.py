"""The stored cases of scans: what they hold, beside the simulation's single steps. They are the simulation's by test_programs.py."""
import collections
import unittest

from support import ScanCase, make_vectors, outward, ringsim, sim, stored_cases, ways_in

LONGEST = ringsim.LONGEST_SHEET
CASES = [ScanCase(data) for data in stored_cases("vectors_scan")]
SERVED = [case for case in CASES if case.number == 0]


def steps_of(case):
    """The answers of a scan's single steps, and the sheets that they write."""
    record, answers = case.record, []
    for report in case.reports:
        sheet = bytearray(LONGEST)
        answers.append((sim.step(record, report, sheet), sheet[:2 + 2 * (sheet[0] + sheet[1])]))
        record = answers[-1][0].record
    return answers


def choice_bytes(choices):
    return make_vectors.answer_bytes(ringsim.Answer(0, ringsim.Record(3), choices), b"")[675:]


class Counts(unittest.TestCase):

    def test_every_number(self):
        self.assertEqual({case.number for case in CASES}, {0, 5, 6, 8, 9, 11})

    def test_rings(self):
        self.assertLessEqual({3, 4, 5, 8, 12, 20}, {case.record.n for case in SERVED})

    def test_every_count_to_64(self):
        self.assertEqual({case.count for case in SERVED}, set(range(65)))

    def test_counts_above_64(self):
        """11 before good reports and bad ones, long buffers and short ones, and behind 9."""
        for count in (65, 255):
            cases = [case for case in CASES if case.count == count]
            self.assertEqual({case.number for case in cases}, {9, 11})
            self.assertEqual({any(case.flaws()) for case in cases if case.number == 11}, {False, True})
            self.assertEqual({case.room for case in cases if case.number == 11}, {0, LONGEST})
        self.assertTrue(all(case.number in (9, 11) for case in CASES if case.count > 64))

    def test_damaged_records(self):
        """9 before 11, bad reports and short buffers."""
        cases = [case for case in CASES if case.number == 9]
        self.assertLessEqual({0, 1, 2, 63, 64, 65, 255}, {case.count for case in cases})
        self.assertEqual({any(case.flaws()[:case.count]) for case in cases}, {False, True})
        self.assertIn(0, {case.room for case in cases})
        self.assertTrue(all(sim.record_is_bad(case.record) == (case.number == 9) for case in CASES))


class Reports(unittest.TestCase):

    def test_bad_reports_at_every_place(self):
        """In a full scan, by number 0, by number n + 1, and by the word for both kinds of part."""
        found = collections.defaultdict(set)
        for case in CASES:
            if case.count == 64 and case.number in (5, 6):
                place = next(place for place, flaw in enumerate(case.flaws()) if flaw)
                part = case.places[place].part
                detail = {5: part.number - case.record.n, 6: part.kind == "G"}[case.number]
                found[place].add((case.number, "first" if detail < 0 else detail))
        for place in range(64):
            self.assertLessEqual({(5, "first"), (5, 1), (6, False), (6, True)}, found[place], place)

    def test_bad_reports_at_the_last_place_counted_and_at_the_first_that_is_not(self):
        self.assertEqual({case.count for case in CASES if case.number in (5, 6) and case.flaws()[case.count - 1]}, set(range(1, 65)))
        self.assertEqual({case.count for case in SERVED if case.count < 64 and case.flaws()[case.count]}, set(range(64)))

    def test_the_first_bad_report_decides(self):
        seen = set()
        for case in CASES:
            if case.number not in (9, 11):
                flaws = [flaw for flaw in case.flaws()[:case.count] if flaw]
                self.assertEqual(case.number if case.number in (5, 6) else 0, (flaws + [0])[0])
                seen.update((first, other, case.room == 0) for first in flaws[:1] for other in flaws if other != first)
        self.assertEqual(seen, {(a, b, short) for a, b in ((5, 6), (6, 5)) for short in (False, True)})

    def test_any_report_may_stand_past_the_count(self):
        past = [report for case in SERVED for report in case.places[case.count:]]
        self.assertEqual({(report.part.kind, report.word) for report in past}, {(k, w) for k in make_vectors.KINDS for w in range(6)})
        self.assertLessEqual({0, 1, 20, 21, 128, 255}, {report.part.number for report in past})


class Answers(unittest.TestCase):

    def test_refused_ones_change_nothing(self):
        for case in CASES:
            if case.number:
                self.assertEqual(case.after, case.record)
                self.assertEqual((case.choices, case.buffer), (b"-\0" * 20, bytes([170] * case.room)))

    def test_record_and_choices_are_those_that_single_steps_end_with(self):
        for case in SERVED:
            last, choices = case.record, sim.choose(case.record.n, case.record.health, case.record.locks)
            for answer, _ in steps_of(case):
                self.assertEqual(answer.refusal, 0)
                last, choices = answer.record, answer.choices
            self.assertEqual((case.after, case.choices), (last, choice_bytes(choices)))

    def test_the_sheet_goes_straight_from_the_first_orders_to_the_last(self):
        for case in SERVED:
            before, after = case.record.orders, case.after.orders
            off = [code for code in ringsim.ALL_CODES if before[code] and not after[code]]
            on = outward(ways_in(case.record.n, case.choices), [code for code in before if before[code]])
            self.assertEqual(sorted(on), [code for code in ringsim.ALL_CODES if after[code] and not before[code]])
            self.assertEqual(case.sheet(), (ringsim.sheet_bytes(off, on), bytes([170] * (case.room - 2 - 2 * len(off + on)))))

    def test_buffers_as_long_as_the_sheet_and_a_byte_shorter(self):
        short = [case for case in CASES if case.number == 8]
        self.assertGreater(sum(not case.sheet()[1] for case in SERVED), 100)
        exact = {(str(case.record), str(case.reports)): case.room for case in SERVED if not case.sheet()[1]}
        self.assertGreater(sum(exact.get((str(case.record), str(case.reports))) == case.room + 1 for case in short), 50)

    def test_no_reports(self):
        """The record as it was, and two empty waves, for which two bytes are enough."""
        cases = [case for case in CASES if case.count == 0 and case.number in (0, 8)]
        self.assertEqual({case.room for case in cases if case.number == 8}, {0, 1})
        self.assertLessEqual({2, 3, 255}, {case.room for case in cases if case.number == 0})
        for case in SERVED:
            if case.count == 0:
                self.assertEqual((case.after, case.sheet()[0]), (case.record, b"\0\0"))

    def test_eight_is_for_the_sheet_of_the_scan_alone(self):
        """A single step's sheet may be longer, in a scan that is served, or each may be shorter, in one that is refused."""
        good = [case for case in CASES if case.number in (0, 8) and case.count]
        longest = [(case, max(len(sheet) for _, sheet in steps_of(case))) for case in good]
        self.assertGreaterEqual(sum(case.number == 0 and case.room < length for case, length in longest), 24)
        self.assertGreaterEqual(sum(case.number == 8 and length <= case.room for case, length in longest), 24)


class Words(unittest.TestCase):

    def served_with(self, *words):
        """Whether some served scan has these words for a part, one after the other, and no more."""
        for case in SERVED:
            heard = collections.defaultdict(list)
            for report in case.reports:
                heard[report.part].append(report.word)
            if list(words) in heard.values():
                return True
        return False

    def test_the_last_word_decides(self):
        for words in ((2, 3, 2), (2, 3), (3, 2), (2, 0), (3, 0), (0, 3), (1, 1), (1, 0), (0, 1), (0, 1, 0), (4, 5), (5, 4), (4, 4, 5)):
            self.assertTrue(self.served_with(*words), words)
        self.assertTrue(self.served_with(*[2] * 64))

    def test_scans_that_undo_themselves(self):
        undone = [case for case in SERVED if case.count and case.after == case.record and case.sheet()[0] == b"\0\0"]
        self.assertGreater(sum(any(len(sheet) > 2 for _, sheet in steps_of(case)) for case in undone), 5)

    def test_parts_of_every_ring_at_once(self):
        whole = {case.record.n for case in SERVED if len({report.part for report in case.reports}) == 3 * case.record.n}
        self.assertLessEqual({3, 5, 20}, whole)


if __name__ == "__main__":
    unittest.main()
