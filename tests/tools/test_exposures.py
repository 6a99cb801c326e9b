"""The stored chances of a dark hour (document 02, Note 8): what the cases hold, and which wrong recipes they tell from the right one."""
import math
import struct
import unittest
from fractions import Fraction

from support import ExposureCase, make_vectors, ringsim, sim, stored_cases

CASES = [ExposureCase(data) for data in stored_cases("vectors_exposure")]
SERVED = [case for case in CASES if case.number == 0]
SEARCHED = [case for case in SERVED if case.n < 9 or case.count > 250]      # of which the simulation finds the sets soon
BAD = [rate for rate in make_vectors.OUTSIDE if not math.isnan(rate[1])]


def bits(*figures):
    return struct.pack("<%dd" % len(figures), *figures)


def chance_of(rate, divide=lambda x, y: x / y):
    return rate[1] if rate[0] == "chance" else divide(1.0, rate[1])


def factors_of(case):
    """The chances of each of the case's sets, in order."""
    return [[chance_of(case.rates[code]) for code in codes] for codes in make_vectors.cut_sets(case.record, case.bus)]


def product_of(factors):
    product = 1.0
    for chance in factors:
        product = product * chance
    return product


def sum_of(products):
    total = 0.0
    for product in products:
        total = total + product
    return total


def largest_of(products, largest=0.0, gives_way=lambda largest, product: product > largest):
    for product in products:
        largest = product if gives_way(largest, product) else largest
    return largest


def recipe(case):
    products = list(map(product_of, factors_of(case)))
    return sum_of(products), largest_of(products)


def exact(case):
    """The recipe by fractions, each rounded to the nearest float: no product and no sum is below 0.0."""
    def rounded(operation):
        return lambda x, y: float(operation(Fraction(x), Fraction(y)))
    times, plus, divided = map(rounded, (lambda x, y: x * y, lambda x, y: x + y, lambda x, y: x / y))
    total, largest = 0.0, 0.0
    for codes in make_vectors.cut_sets(case.record, case.bus):
        product = 1.0
        for code in codes:
            product = times(product, chance_of(case.rates[code], divided))
        total, largest = plus(total, product), max(largest, product)
    return total, largest


def backwards(case):
    products = list(map(product_of, factors_of(case)))
    return sum_of(products[::-1]), largest_of(products)


def factors_backwards(case):
    products = [product_of(factors[::-1]) for factors in factors_of(case)]
    return sum_of(products), largest_of(products)


def rounded_once(case):
    products = list(map(product_of, factors_of(case)))
    return math.fsum(products), largest_of(products)


def products_rounded_once(case):
    products = [float(math.prod(map(Fraction, factors))) for factors in factors_of(case)]
    return sum_of(products), largest_of(products)


def divided_by_the_hours(case):
    products = []
    for codes in make_vectors.cut_sets(case.record, case.bus):
        product = 1.0
        for kind, figure in (case.rates[code] for code in codes):
            product = product * figure if kind == "chance" else product / figure
        products.append(product)
    return sum_of(products), largest_of(products)


def from_the_first(case):
    first, *others = map(product_of, factors_of(case))
    return sum_of([first, *others]), largest_of(others, first)


def gives_way_to_an_equal(case):
    products = list(map(product_of, factors_of(case)))
    return sum_of(products), largest_of(products, gives_way=lambda largest, product: product >= largest)


def sum_from_the_first(case):
    first, *others = map(product_of, factors_of(case))
    total = first
    for product in others:
        total = total + product
    return total, largest_of([first, *others])


WRONG = (backwards, factors_backwards, rounded_once, products_rounded_once, divided_by_the_hours, from_the_first, gives_way_to_an_equal,
         sum_from_the_first)


class Figures(unittest.TestCase):

    def test_the_recipe(self):
        """Also by fractions: each operation rounds once, to the nearest float, those with few digits too."""
        self.assertGreater(len(SEARCHED), 400)
        for case in SEARCHED:
            self.assertEqual(case.count, len(make_vectors.cut_sets(case.record, case.bus)))
            self.assertEqual(case.bits, bits(*recipe(case)))
            self.assertEqual(case.bits, bits(*exact(case)))

    def test_wrong_recipes_differ(self):
        for wrong in WRONG:
            with self.subTest(wrong.__name__):
                self.assertGreaterEqual(sum(case.bits != bits(*wrong(case)) for case in SEARCHED), 5)

    def test_the_sets_are_found_as_the_simulation_finds_them(self):
        for case in [case for case in CASES if case.n < 7][::5]:
            answer = sim.chance_of_dark_hour(case.record, case.bus, case.rates)
            self.assertEqual((case.number, case.count, case.bits), (answer.refusal, answer.count, bits(answer.sum, answer.largest)))

    def test_refused_ones_have_no_figures(self):
        for case in CASES:
            if case.number:
                self.assertEqual((case.count, case.bits), (0, bytes(16)))

    def test_document_004s_rates(self):
        """Every bus of every started ring: of the ten sets for B3 of three, eight name a generator or its breaker three times."""
        started = [case for case in SERVED if case.rates == make_vectors.EXAMPLE and case.record == sim.record_for(case.n)]
        self.assertEqual([(case.n, case.bus) for case in started], [(n, bus) for n in range(3, 21) for bus in range(1, n + 1)])
        for total, wanted in zip(struct.unpack("<dd", started[2].bits), (1.1e-7 ** 3 + 1.1e-7 * 1e-16, 1e-21)):
            self.assertAlmostEqual(total / wanted, 1.0, places=12)

    def test_a_dark_bus(self):
        """One set, the empty one, whose product is 1.0: rates are not asked for."""
        dark = [case for case in SERVED if not sim.could_be_fed(case.n, case.bus, case.record.health, case.record.locks)]
        self.assertEqual({(case.count, case.bits) for case in dark}, {(1, bits(1.0, 1.0))})
        self.assertTrue(any(set(case.rates.values()) == {ringsim.UNRATED} for case in dark))

    def test_figures_at_the_edges(self):
        """Sums of 0.0, those with few digits left, and above 1.0; either zero among the rates, and every bound."""
        sums = [struct.unpack("<dd", case.bits)[0] for case in SERVED]
        self.assertTrue(any(total == 0.0 for total in sums) and any(0.0 < total < 2.0 ** -1022 for total in sums) and max(sums) == 264.0)
        rates = {(rate[0], bits(rate[1])) for case in SERVED for rate in case.rates.values() if rate != ringsim.UNRATED}
        chances, hours = (0.0, -0.0, make_vectors.LEAST, make_vectors.BELOW_1, 1.0), (1.0, make_vectors.ABOVE_1, 3.0, 7.0, make_vectors.MOST)
        self.assertLessEqual({("chance", bits(x)) for x in chances} | {("hours", bits(x)) for x in hours}, rates)


class Refusals(unittest.TestCase):

    def met(self, case):
        """The numbers whose conditions a case meets; an unrated part counts in every set where there are none to look at."""
        searched = not sim.record_is_bad(case.record) and 1 <= case.bus <= case.n
        ring = ringsim.codes_of_ring(min(case.n, 20))
        listed = {code for codes in make_vectors.cut_sets(case.record, case.bus) for code in codes} if searched else ring
        return tuple(number for number, is_met in (
            (9, sim.record_is_bad(case.record)), (10, not 1 <= case.bus <= case.n),
            (15, any(ringsim.rate_is_bad(case.rates[code]) for code in ring)),
            (16, any(case.rates[code] == ringsim.UNRATED for code in listed))) if is_met)

    def test_each_before_every_other(self):
        seen = set()
        for case in CASES:
            if case.n < 9 or case.number in (9, 10, 15) or case.count > 250:
                met = self.met(case)
                self.assertEqual(case.number, (*met, 0)[0])
                seen.add(met)
        self.assertLessEqual({(9,), (10,), (15,), (16,), (9, 10), (9, 15), (9, 16), (10, 15), (10, 16), (15, 16), (9, 10, 15, 16)}, seen)

    def test_rates_that_are_outside(self):
        """Each, refused in a listed set and out of one, and served above n; NaNs of every kind."""
        for rate in BAD:
            numbers = {case.number for case in CASES if rate in case.rates.values()}
            self.assertLessEqual({0, 15}, numbers, rate)
        patterns = {bits(rate[1]) for case in CASES if case.number == 15 for rate in case.rates.values() if len(rate) == 2}
        self.assertLessEqual(set(map(bits, make_vectors.NANS)), patterns)

    def test_unrated_parts(self):
        """In no listed set they are served; each part of a ring of three is unrated alone."""
        alone = {code: set() for code in ringsim.codes_of_ring(3)}
        for case in CASES:
            unrated = [code for code, rate in case.rates.items() if rate == ringsim.UNRATED]
            if case.n == 3 and len(unrated) == 1 and unrated[0] in alone:
                alone[unrated[0]].add(case.number)
        self.assertTrue(all(16 in numbers and 0 in numbers for numbers in alone.values()), alone)


if __name__ == "__main__":
    unittest.main()
