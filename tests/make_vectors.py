#!/usr/bin/env python3
"""Makes the stored cases of the vector programs from the simulation in tests/simulation, never from our own programs.

    tests/make_vectors.py                       writes crates/vectors*/data/cases and stdout, and what the gate runs
                                                ringctl, ringplant, ringtrace, ringcuts, ringscan, ringload and
                                                ringchance on
    tests/make_vectors.py --seed S --out DIR    writes other cases, DIR/vectors/cases and so on; a program of stored cases
                                                reads the file `cases` of the folder that it is run in

runs    fault files and their printed runs: for each 2 bytes length of the file, low byte first, the file, the text, and a
        byte 0.
plant   reckonings: n, 60 healths, 20 locks (1 is locked), 60 commands; then the number of the outcome and for each of 20 buses three
        bytes: 0 dark, 1 fed, 2 a clash, and the generators named.
record  n, 60 healths, 20 locks, 60 commands, and the load: how many bookings are live, 64 places of seven bytes each, a booking's number
        (2 bytes), bus and watts (4 bytes), the watts of 20 generators and those on dark buses (4 bytes each), every number low byte first.
step    starts and steps with damaged records and short buffers: the record, behind its n a byte, 255 for a start, the report's kind,
        number and word, the buffer's length; then the number of the outcome, the record, for each of 20 buses the letter and source
        of its choice, and the buffer, which held 170 in every byte.
cuts    minimal cut sets, with damaged records, buses outside the ring and short buffers: the record, the bus, 2 bytes length of the
        buffer, low byte first, at most 1024; then the number of the outcome, 2 bytes count, low byte first, and the buffer, which held
        170 in every byte.
exposure  chances of a dark hour, with damaged records, buses outside the ring and rates that are turned away: the record, the bus, and
        60 rates of nine bytes each, the number of its kind, 0 a chance, 1 mean hours and any other unrated, and the bits of its figure;
        then the number of the outcome, 2 bytes count, and the bits of the sum and of the largest, 8 bytes each, low byte first.
scans   scans with any counts, bad reports at any place, damaged records and short buffers: the record, the count, 64 places of three
        bytes each, a report's kind, number and word, and the buffer's length; then as in step the number of the outcome, the record, the
        choices and the buffer, which held 170 in every byte.
book    bookings and cancellations, with damaged records: the record, 0 for a booking or 1 for a cancellation, seven bytes as a place
        has them, of which a cancellation has the number alone; then the number of the outcome and the record.

The simulation has the live bookings as a list: they stand in the first places, in its order. It has nothing behind them; what stands there
is kept, a booking takes the first place behind the live ones, and a cancellation leaves the place that it frees blank.
"""
import argparse
import dataclasses
import functools
import inspect
import itertools
import math
import os
import random
import struct
import sys
import types
from unittest import mock

HERE = os.path.dirname(os.path.abspath(__file__))
sys.path.insert(0, os.path.join(HERE, "simulation"))
import compare  # noqa: E402
import ringsim as rs  # noqa: E402

CRATES = os.path.join(HERE, "..", "crates")
KINDS = (rs.GENERATOR, rs.GENERATOR_BREAKER, rs.BUS_BREAKER)

# The rules that are built: document 01's with Notes 3 to 7 and 9 of document 02. Notes 1, 2 and 8 add calls, and have no switch.
RULES = rs.Rules(note3=True, note4=True, note5=True, note6=True, note7=True, note9=True)


def under(rules, *modules):
    """The functions of some modules that take rules, each bound to these."""
    named = [(name, value) for module in modules for name, value in vars(module).items() if inspect.isfunction(inspect.unwrap(value))]
    ruled = [(name, value) for name, value in named if "rules" in inspect.signature(value).parameters]
    return types.SimpleNamespace(**{name: functools.partial(value, rules=rules) for name, value in ruled})


# The simulation is asked by `sim` wherever rules matter; `rs` has its types, its constants and what depends on no rules.
sim = under(RULES, rs, compare)


def fault_file(n, pairs):
    count = len(pairs)
    return bytes([n, count % 256, count // 256] + [c for c, _ in pairs] + [w for _, w in pairs])


def examples():
    """The files of document 01: its examples, edges and settled positions, starred and not."""
    yield from (bytes(b) for b in (
        [3, 0], [2, 0, 0], [3, 1, 16], [3, 1, 0, 64], [3, 1, 0, 3, 1], [3, 1, 0, 64, 1], [3, 1, 0, 0, 0],
        [3, 1, 0, 65, 2], [3, 0, 0], [20, 0, 0], [21, 0, 0], [0, 0, 0], [255, 0, 0], [3, 0, 16], [3, 0, 0, 0],
        [3, 1, 0, 64, 3], [3, 2, 0, 64, 3, 64, 0], [3, 1, 0, 64, 4], [3, 1, 0, 0, 2], [3, 1, 0, 0, 3], [3, 1, 0, 32, 1],
        [3, 1, 0, 35, 2], [3, 1, 0, 67, 2], [3, 1, 0, 31, 1], [3, 1, 0, 63, 2], [3, 1, 0, 84, 2], [3, 1, 0, 255, 255],
        [20, 1, 0, 19, 1], [20, 1, 0, 20, 1], [20, 1, 0, 51, 2], [20, 1, 0, 52, 2], [20, 1, 0, 83, 3], [20, 1, 0, 84, 3],
        [3, 2, 0, 64, 65, 1, 9], [3, 2, 0, 99, 64, 0, 1], [3, 2, 0, 65, 65, 2, 2], [3, 2, 0, 65, 0, 0, 0]))
    for faults in ([(65, 2), (66, 2)], [(64, 3)], [(66, 3)], [(0, 1)], [(0, 1), (1, 1)], [(0, 1), (1, 1), (2, 1)],
                   [(33, 2)], [(2, 1), (65, 2), (66, 2)], [(65, 2), (65, 0)], [(65, 2), (65, 2)]):
        yield fault_file(3, faults)
    for n in range(3, 21):
        yield fault_file(n, [])


def short_files():
    """What Note 9 of document 02 speaks of: "a file of no bytes", and "one or two bytes", whatever they are."""
    yield b""
    yield from (bytes([byte]) for byte in (0, 1, 2, 3, 4, 20, 21, 255))
    yield from (bytes(pair) for pair in itertools.product((0, 1, 3, 20, 255), (0, 1, 16, 255)))


def single_and_double_faults():
    """A ring of five, Figures 21 and 22 of document 004: every single fault, and every third double fault; a lock is one too."""
    faults = [(c, w) for c in rs.codes_of_ring(5) for w in range(1, 5) if sim.report_refusal(5, rs.report_of(c, w)) == 0]
    yield from (fault_file(5, [f]) for f in faults)
    yield from (fault_file(5, list(pair)) for pair in list(itertools.combinations(faults, 2))[::3])


def breakers_around(n, k):
    """The codes of the breakers next to Bk: that of its generator, and both bus breakers."""
    return [rs.code_of("GB", k), rs.code_of("BB", k), rs.code_of("BB", (k - 2) % n + 1)]


def returns_beside_stuck_breakers(n, k):
    """Lists of reports in which Gk comes back where breakers around it are stuck."""
    off, fit = (rs.code_of("G", k), 1), (rs.code_of("G", k), 0)
    all_off, others = [(code, 1) for code in range(n)], [code for code in range(n) if code != off[0]]
    own, *both = breakers_around(n, k)
    for breaker, word in itertools.product((own, *both), (2, 3)):
        yield [(breaker, word), off, fit, (breaker, 0)]
        yield all_off + [(breaker, word), fit, (breaker, 0)]
    cut_off = [off] + [(breaker, 2) for breaker in both]
    yield cut_off + [fit]                                       # a dark bus is lit again by its own
    yield cut_off + [(own, 2), fit, (own, 0)]                   # it stays dark: no way leads to it, until GBk comes back
    yield cut_off + [(code, word) for code in others for word in (1, 0)]    # it stays dark, whichever other one returns
    yield all_off + [(breaker, 2) for breaker in both] + [(code, 0) for code in others] + [fit]


def returns_in(n):
    """Lists of reports in a ring in which generators come back."""
    off, fit = ([(code, word) for code in range(n)] for word in (1, 0))
    yield fit                                                   # each is fit already: two empty waves
    yield from (off + fit, off + fit[::-1], off + off + fit + fit)
    yield from ([off[0], off[1], fit[1], fit[0]], [off[0], off[1], fit[0], fit[1]])     # the first in priority takes its buses back
    for one_off, one_fit in zip(off, fit):
        yield from ([one_off, one_fit], [one_off, one_off, one_fit], [one_fit, one_off], off + [one_fit])
    for k in (1, 2, n):
        yield from returns_beside_stuck_breakers(n, k)


def returned_generators():
    """What Note 3 of document 02 speaks of: "word 0 makes a generator fit again"."""
    for n in (3, 4, 5, 20):
        yield from (fault_file(n, pairs) for pairs in returns_in(n))


def locks_beside_stuck_breakers(n, k):
    """Lists of reports in which Gk is locked and unlocked where breakers around it are stuck."""
    lock, unlock = (rs.code_of("G", k), 4), (rs.code_of("G", k), 5)
    all_locked, others = [(code, 4) for code in range(n)], [code for code in range(n) if code != lock[0]]
    own, *both = breakers_around(n, k)
    for breaker, word in itertools.product((own, *both), (2, 3)):
        yield [(breaker, word), lock, unlock, (breaker, 0)]
        yield all_locked + [(breaker, word), unlock, (breaker, 0)]
    cut_off = [lock] + [(breaker, 2) for breaker in both]
    yield cut_off + [unlock]                                    # the locked generator's own bus goes dark, and is lit again by it
    yield cut_off + [(own, 2), unlock, (own, 0)]                # it stays dark: no way leads to it, until GBk comes back
    yield cut_off + [(code, word) for code in others for word in (4, 5)]    # it stays dark, whichever other one is unlocked


def locks_in(n):
    """Lists of reports in a ring in which generators are locked and unlocked."""
    lock, unlock, off, fit = ([(code, word) for code in range(n)] for word in (4, 5, 1, 0))
    yield unlock                                                # each is unlocked already: two empty waves
    yield from (lock + unlock, lock + unlock[::-1], lock + lock + unlock + unlock)      # all locked: all dark
    yield lock + off + fit + unlock                             # replaced while locked: they stay out
    yield lock + off + unlock + fit                             # failed while locked, and unlocked: they stay off
    yield off + lock + fit + unlock
    yield from ([lock[0], lock[1], unlock[1], unlock[0]], [lock[0], off[1], unlock[0], fit[1]], [off[0], lock[1], fit[0], unlock[1]])
    for one_lock, one_unlock, one_off, one_fit in zip(lock, unlock, off, fit):
        yield from ([one_lock, one_unlock], [one_lock, one_lock, one_unlock], [one_unlock, one_lock])
        yield [one_lock, one_off, one_fit, one_unlock]          # a replaced set that is locked remains locked
        yield [one_lock, one_off, one_unlock, one_fit]          # one that fails while it is locked stays off when it is unlocked
        yield [one_off, one_lock, one_unlock, one_fit]
        yield lock + [one_unlock]
    for k in (1, 2, n):
        yield from locks_beside_stuck_breakers(n, k)


def bad_words(n):
    """Words that a part does not take: those of the other kind, and those that there are not; and a part that is not there, for which they
    are not looked at."""
    breakers = [rs.code_of(kind, number) for kind in ("GB", "BB") for number in (1, n)]
    yield from ((code, word) for code in (0, n - 1) for word in (2, 3, 6, 255))
    yield from ((code, word) for code in breakers for word in (1, 4, 5, 6, 255))
    yield from ((code, word) for code in (n, 32 + n, 64 + n) for word in (4, 5, 6))


def locked_generators():
    """What Note 7 of document 02 speaks of: "Word 4 locks it and word 5 unlocks it; both are for generators"."""
    for n in (3, 4, 5, 20):
        yield from (fault_file(n, pairs) for pairs in locks_in(n))
        yield from (fault_file(n, [pair]) for pair in bad_words(n))
        yield from (fault_file(n, [(0, 4), pair, (0, 5)]) for pair in ((32, 4), (64 + n - 1, 5), (1, 6)))   # nothing of it is served


# Rings whose second waves are looked at, and the numbers of their sources and of the bus breakers that are stuck open.
OUTWARD = {3: (1, 2, 3), 4: (1, 2, 4), 5: (1, 2, 3, 5), 8: (1, 3, 6, 8), 20: (1, 3, 12, 20)}


def across(n, k):
    """The number on the other side of the ring."""
    return (k + n // 2 - 1) % n + 1


def all_off_but(n, *sources):
    return [("G", k, 1) for k in range(1, n + 1) if k not in sources]


def outward_calls(n):
    """What Note 4 of document 02 speaks of, "generator, generator breaker, then bus breakers from the generator's bus outward": faults, and a
    report whose second wave goes outward from a source, through rising numbers and falling ones and past B1, over ways that share parts."""
    for source, cut in itertools.product(OUTWARD[n], repeat=2):
        gap = ("BB", across(n, cut))
        yield all_off_but(n) + [("BB", cut, 2)], ("G", source, 0)                                    # to every bus
        yield all_off_but(n, source) + [("BB", cut, 2), (*gap, 2)], (*gap, (source + cut) % 2 * 3)   # from one that runs, beyond a gap
    for first, second in itertools.combinations(OUTWARD[n], 2):
        yield all_off_but(n, first, second), ("G", first, 1)                                         # from another, over breakers in use


def coded(reports):
    return [(rs.code_of(kind, number), word) for kind, number, word in reports]


def outward_files():
    """The same one after the other, two files for each breaker that is stuck open and one for the sources that follow one another."""
    for n, numbers in OUTWARD.items():
        for cut in numbers:
            gap, before = ("BB", across(n, cut)), all_off_but(n) + [("BB", cut, 2)]
            yield fault_file(n, coded(before + [("G", source, word) for source in numbers for word in (0, 1)]))
            yield fault_file(n, coded(before + [report for source in numbers for report in (
                ("G", source, 0), (*gap, 2), (*gap, 0), ("G", source, 1))]))
        yield fault_file(n, coded(all_off_but(n) + [report for first, second in itertools.combinations(numbers, 2) for report in (
            ("G", first, 0), ("G", second, 0), ("G", first, 1), ("G", second, 1))]))


def long_files(rng):
    for n, m in ((3, 4096), (20, 4096), (7, 4096), (5, 1000)):
        yield fault_file(n, [sim.good_pair(rng, n, mood=3) for _ in range(m)])
    yield bytes([3, 1, 16]) + bytes(2 * 4097)
    yield bytes([3, 0, 16]) + bytes([64]) * 4096 + bytes(4095)
    yield bytes([3, 0, 16]) + bytes([64]) * 4096 + bytes(4097)


def random_files(rng, count):
    for _ in range(count):
        yield sim.fault_file(rng)


def runs(rng):
    for data in itertools.chain(examples(), short_files(), single_and_double_faults(), returned_generators(), locked_generators(),
                                outward_files(), long_files(rng), random_files(rng, 250)):
        text = sim.printed_run(data)
        yield len(data).to_bytes(2, "little") + data + text + b"\0"


def random_health(rng, n, spoil):
    """Healths of all sixty parts: mostly fit; with spoil, now and then one that is none of its kind, or above n."""
    health = {}
    for code in rs.ALL_CODES:
        part = rs.part_of_code(code)
        health[code] = 0
        if part.number <= n and rng.random() < 0.25:
            health[code] = rng.choice(rs.HEALTHS_OF_KIND[part.kind])
    if spoil:
        health[rng.choice(rs.ALL_CODES)] = rng.choice([1, 2, 3, 4, 255])
    return health


def locks_on(numbers):
    """Locks of twenty generators: those with these numbers are locked."""
    return {code: rs.part_of_code(code).number in numbers for code in rs.GENERATOR_CODES}


def random_locks(rng, n, share=.15):
    """Locks of twenty generators: now and then one of the first n."""
    return locks_on([number for number in range(1, n + 1) if rng.random() < share])


def random_commands(rng, n):
    return {code: rs.part_of_code(code).number <= n and rng.random() < 0.6 for code in rs.ALL_CODES}


def places(values):
    return bytes(int(values[code]) for code in rs.ALL_CODES)


def lock_places(locks):
    return bytes(int(locks[code]) for code in rs.GENERATOR_CODES)


FEED_NUMBER = {"dark": 0, "fed": 1, "clash": 2}


def plant_bytes(n, health, locks, commands):
    return bytes([n]) + places(health) + lock_places(locks) + places(commands)


def reckoning(n, health, locks, commands):
    number, answers = sim.reckon(n, health, commands, locks)
    buses = b"".join(bytes([FEED_NUMBER[a[0]]] + list(a[1:]) + [0] * (3 - len(a))) for a in answers)
    return plant_bytes(n, health, locks, commands) + bytes([number]) + buses


def locked_reckonings():
    """A locked generator that is ordered on feeds nothing, stuck off or not; its breaker and the others do what they are ordered. Locks above
    n are not read."""
    all_on, none_on = ({code: on for code in rs.ALL_CODES} for on in (True, False))
    for n in (3, 4, 5, 20):
        apart = {**all_on, **{rs.code_of("BB", k): False for k in range(1, n + 1)}}       # each generator on its own bus
        above = range(n + 1, 21)
        sets = [[1], [2], [n], [1, 2], [1, 3], [2, 3], range(2, n + 1), range(1, n), range(1, n + 1), above, [1, *above], range(1, 21)]
        for numbers, commands in itertools.product(sets, (all_on, apart)):
            yield reckoning(n, health_with([]), locks_on(numbers), commands)
        for faults in ([("G", 1, 1)], [("G", 2, 1)], [("GB", 1, 3), ("GB", 2, 2)], [("BB", k, 3) for k in range(1, n + 1)]):
            yield from (reckoning(n, health_with(faults), locks_on([1]), commands) for commands in (all_on, apart, none_on))
        yield reckoning(n, health_with([("G", 1, 2)]), locks_on([1]), apart)              # refused by 9
        yield reckoning(n, health_with([("G", n, 4)]), locks_on([1]), apart)
    for n in (0, 2, 21):                                                                  # refused by 2
        yield reckoning(n, health_with([]), locks_on([1]), all_on)


def plant(rng):
    for i in range(600):
        n = rng.choice([3, 3, 4, 5, 8, 20]) if i % 10 else rng.choice([0, 1, 2, 21, 255])
        health = random_health(rng, min(n, 20), i % 4 == 0)
        commands = {c: True for c in rs.ALL_CODES} if i == 1 else random_commands(rng, 20)
        yield reckoning(n, health, random_locks(rng, 20), commands)
    # "n = 3, all fit, every part ordered on or closed: each bus a clash of G1 and G2"
    yield reckoning(3, {c: 0 for c in rs.ALL_CODES}, rs.no_locks(), {c: True for c in rs.ALL_CODES})
    yield from locked_reckonings()


# ---- records and their loads

BLANKS = (rs.Booking(0, 0, 0),) * rs.MOST_BOOKINGS      # places that no booking was ever in


def low_first(number, size):
    return number.to_bytes(size, "little")


def booking_bytes(booking):
    return low_first(booking.number, 2) + bytes([booking.bus]) + low_first(booking.watts, 4)


def load_bytes(record, behind):
    """The load of a record. The places behind its live bookings have what those of `behind` have."""
    live = record.bookings
    stand = (*live, *behind[len(live):])[:rs.MOST_BOOKINGS]
    figures = [low_first(watts, 4) for watts in (*record.watts, record.dark_watts)]
    return bytes([len(live)]) + b"".join(map(booking_bytes, stand)) + b"".join(figures)


def record_bytes(record, behind=BLANKS):
    return plant_bytes(record.n, record.health, record.locks, record.orders) + load_bytes(record, behind)


def behind_after(record, after, behind):
    """What stands behind the live bookings after a call: a cancellation leaves the place that it frees blank."""
    freed = len(after.bookings)
    return behind if freed >= len(record.bookings) else (*behind[:freed], *BLANKS[:1], *behind[freed + 1:])


def booked(record, bookings):
    """A good record with these bookings and their figures."""
    record.bookings = list(bookings)
    sim.refresh_watts(record)
    return record


def any_watts(rng):
    return rng.choice([1, 100000, rng.randint(1, 100000), rng.randint(1, 100000)])


def any_bookings(rng, n, count):
    """So many bookings, with any numbers, on any buses."""
    numbers = rng.sample(range(rs.HIGHEST_BOOKING_NUMBER + 1), count)
    return [rs.Booking(number, rng.randint(1, n), any_watts(rng)) for number in numbers]


def one_a_bus(n):
    """A booking on each bus, so that the figures tell which generator feeds it."""
    return [rs.Booking(1000 * bus, bus, 4000 * bus + bus * bus) for bus in range(1, n + 1)]


def loaded(n, health=None, rng=None, locks=None):
    """The record that start and steps make for this health and these locks, with any bookings, or with one on each bus."""
    count = rng.choice([0, 1, 2, 3, 5, 8, 20, 64]) if rng else 0
    return booked(sim.record_for(n, health, locks), any_bookings(rng, n, count) if rng else one_a_bus(n))


def worn_record(rng, n):
    """A record of a ring with any faults, any locks and any bookings."""
    return loaded(n, worn_health(rng, n), rng, worn_locks(rng, n))


def told(n, reports):
    """The record after these reports, with a booking on each bus."""
    record = rs.Record(n)
    for kind, number, word in reports:
        sim.take_word(record, report_on(kind, number, word))
    return loaded(n, record.health, locks=record.locks)


def any_behind(rng):
    """Anything in all places, as it may stand behind the live bookings: numbers, buses and watts in bounds and out of them."""
    return tuple(rs.Booking(rng.randrange(65536), rng.randrange(256), rng.choice([0, 1, 100001, rng.randrange(2 ** 32)]))
                 for _ in range(rs.MOST_BOOKINGS))


def now_and_then_behind(rng):
    return any_behind(rng) if rng.random() < .1 else BLANKS


def answer_bytes(answer, buffer, behind=BLANKS):
    choices = b"".join(b"-\0" if c is None else bytes([ord(c.rank), c.generator]) for c in answer.choices)
    return bytes([answer.refusal]) + record_bytes(answer.record, behind) + choices + bytes(buffer)


def report_bytes(report):
    return bytes([KINDS.index(report.part.kind), report.part.number, report.word])


def stepped(record, part, word, room, behind=BLANKS):
    buffer = bytearray([170] * room)
    before = record_bytes(record, behind)
    report = rs.Report(part, word)
    answer = sim.step(record, report, buffer)
    return before[:1] + b"\0" + before[1:] + report_bytes(report) + bytes([room]) + answer_bytes(answer, buffer, behind)


def steps(rng):
    blank = {c: 0 for c in rs.ALL_CODES}
    for n in [0, 2, 3, 4, 5, 12, 20, 21, 255]:
        for room in (0, 1, 5, 11, 12, 40, 82, 122):
            buffer = bytearray([170] * room)
            answer = sim.start(n, buffer)
            yield bytes([n, 255]) + record_bytes(rs.refused_start_record())[1:] + bytes([0, 0, 0, room]) + answer_bytes(answer, buffer)
    for i in range(700):
        n = rng.choice([3, 3, 4, 5, 9, 20])
        record = loaded(n, random_health(rng, n, False), rng, random_locks(rng, n, rng.choice([0, .1, .3])))
        damage = i % 5
        if damage == 1:
            record.orders[rng.choice(rs.ALL_CODES)] ^= True
        elif damage == 2:
            record.health[rng.choice(rs.ALL_CODES)] = rng.choice([0, 1, 2, 3, 4])
        elif damage == 3 and i % 15 == 3:
            record.n = rng.choice([0, 2, 21, 200, n + 1])
        elif damage == 4 and i % 10 == 4:
            record.locks[rng.choice(rs.GENERATOR_CODES)] ^= True
        part = rs.Part(rng.choice(KINDS), rng.choice([0, 1, 2, 3, n, n, n + 1, 33, 255]) if i % 7 == 0 else rng.randint(1, n))
        word = rng.randrange(6)
        room = rng.choice([0, 1, 2, 3, 4, 6, 8, 12, 122]) if i % 3 == 0 else 122
        yield stepped(record, part, word, room, now_and_then_behind(rng))
    # "report `65 2`, started ring of three, 5 bytes" is refused by 8; "6 bytes are enough"
    for room in (5, 6):
        yield stepped(sim.record_for(3, blank), rs.Part(rs.BUS_BREAKER, 2), 2, room)
    # "n = 3, all fit, G2 on with GB2 open" is refused by 9
    record = sim.record_for(3, blank)
    record.orders[rs.code_of(rs.GENERATOR_BREAKER, 2)] = False
    yield stepped(record, rs.Part(rs.BUS_BREAKER, 2), 2, 122)


def returning_steps(rng):
    """Word 0 for generators: fit ones, off ones, the only one that is left, and in rings with any faults, each with a buffer as long as
    the sheet, a byte shorter and longer; then numbers that the ring has not, and damaged records."""
    for n in RINGS:
        for g in (1, 2, n):
            off, all_off = [("G", g, 1)], [("G", k, 1) for k in range(1, n + 1)]
            worn = [worn_health(rng, n) for _ in range(4)]
            for health in [health_with(faults) for faults in ([], off, all_off)] + worn + [{**h, **{g - 1: 1}} for h in worn]:
                record = loaded(n, health)
                length = scan_length(record, [report_on("G", g, 0)])
                yield from (stepped(record, rs.Part("G", g), 0, room) for room in (length, length - 1, 122))
        for number, room in itertools.product((0, n + 1, 255), (0, 122)):
            yield stepped(loaded(n), rs.Part("G", number), 0, room)
    for n in (3, 8):
        for record in damaged_records(n):
            yield from (stepped(record, rs.Part("G", g), 0, room) for g, room in ((1, 122), (n, 0), (n + 1, 1)))


def locking_steps(rng):
    """Words 4, 5, 0 and 1 for generators that are locked, stuck off, both and neither, in rings where all are, and where one is not, and in
    rings with any faults and locks, each with a buffer as long as the sheet, now and then a byte shorter; numbers that the ring has not,
    with words that a part does not take and good ones; and damaged records."""
    for n in (3, 4, 5, 20):
        for g in (1, 2, n):
            locked, off = ("G", g, 4), ("G", g, 1)
            all_locked = [("G", k, 4) for k in range(1, n + 1)]
            own = cut_off(n, g)[1:]                             # the bus breakers of its own bus are stuck open
            records = [told(n, reports) for reports in ([], [locked], [off], [off, locked], all_locked, all_locked + [("G", g, 5)],
                                                        own, own + [locked])] + [worn_record(rng, n) for _ in range(3)]
            for i, (record, word) in enumerate(itertools.product(records, (4, 5, 0, 1))):
                length = scan_length(record, [report_on("G", g, word)])
                yield from (stepped(record, rs.Part("G", g), word, room) for room in (length, length - 1)[:1 if i % 3 else 2])
        for number, word in itertools.product((0, n + 1, 255), (2, 4, 5)):
            yield stepped(loaded(n), rs.Part("G", number), word, 122)
        for (kind, number), word, room in itertools.product((("GB", 1), ("BB", n), ("GB", n + 1)), (1, 4, 5), (122, 0)):
            yield stepped(told(n, [("G", 2, 4)]), rs.Part(kind, number), word, room)
    for n in (3, 8, 19):
        for record in itertools.chain(locked_above(n, range(n + 1, 21)), records_at_odds_with_locks(n)):
            yield stepped(record, rs.Part("G", 1), 5, 122)
        for record in itertools.chain(locked_above(n, [n + 1]), records_at_odds_with_locks(n)):
            yield from (stepped(record, rs.Part(kind, number), word, room)
                        for kind, number, word, room in (("G", n + 1, 5, 122), ("BB", 1, 4, 122), ("G", 1, 4, 0), ("GB", n + 1, 4, 0)))


def outward_steps():
    """Steps whose second wave goes outward, each with a buffer as long as the sheet, and now and then with one a byte shorter."""
    for n in OUTWARD:
        for i, (faults, (kind, number, word)) in enumerate(outward_calls(n)):
            record = loaded(n, health_with(faults))
            length = scan_length(record, [report_on(kind, number, word)])
            yield from (stepped(record, rs.Part(kind, number), word, room) for room in (length, length - 1)[:1 if i % 5 else 2])


def cut_off(n, bus):
    """The faults that leave a bus dark: its generator is off, and both its bus breakers are stuck open."""
    return [("G", bus, 1), ("BB", bus, 2), ("BB", (bus - 2) % n + 1, 2)]


def loaded_steps(rng):
    """Steps of records with bad loads, refused by 9; steps that cut off a bus on which something is booked, and that light it again; and of
    full ones, whose watts all move to one generator, and go dark."""
    for record in damaged_loads(8):
        yield stepped(record, rs.Part("BB", 2), 2, 122)
    for n, bus in ((3, 1), (3, 3), (4, 2), (5, 4), (8, 8), (20, 11)):
        faults = cut_off(n, bus)
        for last in faults:
            kind, number, word = last
            yield stepped(loaded(n, health_with([fault for fault in faults if fault != last])), rs.Part(kind, number), word, 122)
            yield stepped(loaded(n, health_with(faults)), rs.Part(kind, number), 0, 122)
    for off, number in (((1, 2), 3), ((1, 3), 2), ((2, 3), 1)):
        full = [rs.Booking(number, number % 3 + 1, rs.MOST_WATTS) for number in range(rs.MOST_BOOKINGS)]
        one_left = booked(sim.record_for(3, health_with([("G", off[0], 1)])), full)
        none_left = booked(sim.record_for(3, health_with([("G", k, 1) for k in off])), full)
        yield stepped(one_left, rs.Part("G", off[1]), 1, 122, any_behind(rng))
        yield from (stepped(none_left, rs.Part("G", number), 1, room, any_behind(rng)) for room in (122, 0))


MOST_ROOM = 1024


def health_with(faults):
    """Healths of all sixty parts, fit but for those named."""
    return {**{code: 0 for code in rs.ALL_CODES}, **{rs.code_of(kind, number): word for kind, number, word in faults}}


@functools.lru_cache(maxsize=None)
def near_ways(n, bus, rules):
    """A bus's ways, the shortest first."""
    return sorted(rs.ways_in_order(n, bus, rules), key=lambda way: len(way.parts))


def dark_by_near_ways(n, bus, health, locks, rules):
    """What dark_by_ways answers, sooner: the order in which a bus's ways are asked makes no difference."""
    return not any(rs.way_could_carry(way, health, locks, rules) for way in near_ways(n, bus, rules))


@functools.lru_cache(maxsize=None)
def sets_found(n, bus, health, locks):
    return sim.darkening_sets(n, bus, dict(health), dict(locks), is_dark=dark_by_near_ways)


def cut_sets(record, bus):
    """The minimal cut sets of a bus, as lists of codes. The simulation searches them once for a health and its locks."""
    return sets_found(record.n, bus, tuple(record.health.items()), tuple(record.locks.items()))


def over_cut_sets(call, record, bus, given):
    """What a call of the simulation answers that takes the minimal cut sets of a bus, if it does not refuse them."""
    with mock.patch.object(rs, "darkening_sets", lambda *asked, **named: cut_sets(record, bus)):
        return call(record, bus, given)


def cut_case(record, bus, room, behind=BLANKS):
    """A case of the minimal cut sets."""
    buffer = bytearray([170] * room)
    number, count = over_cut_sets(sim.darkening, record, bus, buffer)
    before = record_bytes(record, behind) + bytes([bus]) + low_first(room, 2)
    return before + bytes([number]) + low_first(count, 2) + bytes(buffer)


def started_cuts():
    """Every bus of every started ring. The longest sheet, that of a ring of three, has 32 bytes."""
    for n in range(3, 21):
        record = sim.record_for(n)
        yield from (cut_case(record, bus, 32) for bus in range(1, n + 1))


def sheet_length(record, bus):
    return len(rs.darkening_sheet(cut_sets(record, bus)))


def settled_cuts():
    """Rings with what Note 1 of document 02 speaks of, each with a buffer as long as its sheet, a byte shorter and longer, and others."""
    many_off = [("G", g, 1) for g in range(1, 21) if g not in (1, 11, 20)]
    for n, bus, faults, others in (
            (3, 3, [], (0, 1, 2, 5, MOST_ROOM)),                                            # "has ten sets for B3"
            (3, 3, [("G", 3, 1), ("BB", 2, 2), ("BB", 3, 2)], (0, 1, 2, 40)),               # "A bus already dark has one set"
            (5, 2, [("G", g, 1) for g in range(1, 6)], ()),                                 # dark, with every breaker fit
            (3, 3, [("BB", 2, 3), ("G", 3, 1), ("BB", 3, 2)], (0, 5)),                      # BB2 alone, stuck closed, can go open
            (4, 4, [("GB", 4, 3), ("BB", 3, 3), ("BB", 4, 3)], (0,)),                       # so can these three
            (20, 11, [("BB", 20, 2)] + many_off, ())):                                      # 264 sets: the high byte of the count
        record = loaded(n, health_with(faults))
        sheet = sheet_length(record, bus)
        yield from (cut_case(record, bus, room) for room in (*others, sheet - 1, sheet, sheet + 1))


def locked_cuts():
    """Rings with locked generators, which are in no set: one of them, several, all, so that a bus is dark by locks; one that is stuck off too,
    and one that was replaced; each bus with a buffer as long as its sheet, the last one with one a byte shorter too."""
    for n in (3, 4, 5, 8):
        all_locked, last_cut = [("G", k, 4) for k in range(1, n + 1)], cut_off(n, n)[1:]
        for reports in ([("G", 1, 4)], [("G", n, 4)], [("G", 1, 4), ("G", 2, 4)], all_locked[1:], all_locked[:-1], all_locked,
                        [("G", n, 4)] + last_cut,                                           # Bn is dark by a lock
                        [("G", n, 4), ("G", n, 1), ("G", n, 0)] + last_cut,                 # and is so when the set is replaced
                        [("G", n, 4), ("G", n, 1), ("G", n, 5)] + last_cut,                 # or unlocked while it is stuck off
                        [("G", n, 4), ("G", n, 5)] + last_cut,                              # it hangs on its own generator again
                        [("G", 1, 4), ("G", 2, 1), ("GB", 3, 2)], [("G", 2, 4), ("G", 2, 1), ("BB", 1, 3)]):
            record = told(n, reports)
            for bus in range(1, n + 1) if n < 8 else (1, 2, 5, 8):
                sheet = sheet_length(record, bus)
                yield from (cut_case(record, bus, room) for room in (sheet, sheet - 1)[:1 if bus < n else 2])


def damaged_records(n):
    """Records of a ring below twenty, each bad in one of the ways that refusal 9 names."""
    sizes = [0, 1, 2, n + 1, 21, 255]
    of_no_kind = [("G", 1, 2), ("G", n, 3), ("G", 2, 4), ("GB", 1, 1), ("GB", n, 255), ("BB", 2, 1), ("BB", n, 4)]
    faulty_above = [("G", n + 1, 1), ("GB", n + 1, 2), ("BB", 20, 3)]
    called_otherwise = [("G", 1, 1), ("GB", 2, 2), ("BB", 1, 3)]
    ordered_above = [("G", n + 1), ("GB", 20), ("BB", n + 1)]
    missing, too_many = [("G", 1), ("GB", 2), ("BB", 2)], [("G", n), ("GB", n), ("BB", 1)]
    yield from locked_above(n, (n + 1, 20))
    yield from records_at_odds_with_locks(n)
    for size in sizes:
        record = loaded(n)
        record.n = size
        yield record
    for kind, number, health in of_no_kind + faulty_above + called_otherwise:
        record = loaded(n)
        record.health[rs.code_of(kind, number)] = health
        yield record
    for kind, number in ordered_above + missing + too_many:
        record = loaded(n)
        record.orders[rs.code_of(kind, number)] ^= True
        yield record


def with_locks(record, numbers, locked=True):
    """A record with other locks, and everything else as it was."""
    record.locks = {**record.locks, **{rs.code_of("G", number): locked for number in numbers}}
    return record


def locked_above(n, numbers):
    """Records of a ring in which a part above n is locked."""
    yield from (with_locks(loaded(n), [number]) for number in numbers)


def records_at_odds_with_locks(n):
    """Records whose standing orders, and figures, are those that health alone calls for, though a lock is set; and those of a ring with locks,
    though one is cleared."""
    all_locked = [("G", k, 4) for k in range(1, n + 1)]
    for numbers in ([1], [2], range(1, n + 1)):
        yield with_locks(loaded(n), numbers)
    for reports, number in (([("G", 1, 4)], 1), ([("G", 2, 4)], 2), (all_locked, 1), (all_locked, n), ([("G", 1, 1), ("G", 2, 4)], 2)):
        yield with_locks(told(n, reports), [number], False)


def with_a_dark_bus(n):
    """A record with a booking on each bus, the last of which is dark."""
    return loaded(n, health_with(cut_off(n, n)))


def with_bad_bookings(n, bookings):
    """A record with these bookings and their figures. What is booked on no bus of the ring is counted as dark, and watts that no four bytes
    hold are cut off: only the bookings are bad."""
    record = with_a_dark_bus(n)
    stand = bookings[:rs.MOST_BOOKINGS]
    inside = [booking for booking in stand if 1 <= booking.bus <= n]
    outside = [booking.watts for booking in stand if booking not in inside]
    booked(record, inside)
    record.bookings = bookings
    record.watts = [watts % 2 ** 32 for watts in record.watts]
    record.dark_watts = (record.dark_watts + sum(outside)) % 2 ** 32
    return record


def bad_bookings(n):
    """More than 64 live; a number live twice; a bus or watts outside the bounds."""
    yield from ([rs.Booking(number, number % n + 1, 1) for number in range(count)] for count in (65, 255))
    changes = [(0, {"bus": 0}), (n - 1, {"bus": n + 1}), (1, {"bus": 255}), (0, {"watts": 0}), (n - 1, {"watts": 100001}),
               (1, {"watts": 2 ** 32 - 1}), (1, {"number": 1000}), (n - 1, {"number": 1000}), (n - 2, {"number": 1000 * n})]
    for place, change in changes:
        bookings = one_a_bus(n)
        bookings[place] = dataclasses.replace(bookings[place], **change)
        yield bookings


def damaged_loads(n):
    """Records of a ring below twenty, each bad in one of the ways that Note 5 of document 02 names."""
    yield from (with_bad_bookings(n, bookings) for bookings in bad_bookings(n))
    good = with_a_dark_bus(n)
    for g, by in itertools.product((*range(n), n, 19), (1, -1)):
        if good.watts[g] + by >= 0:
            record = with_a_dark_bus(n)
            record.watts[g] += by
            yield record
    for watts, dark_watts in ((good.watts, good.dark_watts + 1), (good.watts, good.dark_watts - 1),
                              (good.watts[1::-1] + good.watts[2:], good.dark_watts),                   # exchanged
                              ([good.watts[0] + good.dark_watts] + good.watts[1:], 0),                 # the dark bus counted as lit
                              ([0] * 20, good.dark_watts + sum(good.watts)), ([0] * 20, 0)):
        record = with_a_dark_bus(n)
        record.watts, record.dark_watts = list(watts), dark_watts
        yield record
    for watts, dark_watts in (([1] + [0] * 19, 0), ([0] * 20, 1)):                                     # no booking is live
        record = sim.record_for(n)
        record.watts, record.dark_watts = watts, dark_watts
        yield record


def refused_cuts():
    """9 before 10 and 8, and 10 before 8: damaged records, and buses outside the ring, with long buffers and short ones."""
    for n in (3, 6):
        for record in damaged_records(n):
            yield from (cut_case(record, bus, room) for bus, room in ((1, 40), (n, 0), (0, 40), (n + 1, 1), (255, 0)))
    for k, record in enumerate(damaged_loads(6)):
        yield cut_case(record, (1, 6, 0, 7)[k % 4], 40)
    for n in (3, 6, 20):
        record = loaded(n)
        yield from (cut_case(record, bus, room) for bus in (0, n + 1, 21, 128, 255) for room in (0, 1, 40))


def worn_health(rng, n):
    """Healths of a ring with few faults or many of each kind."""
    shares = {kind: rng.choice([0, .1, .3, .8]) for kind in KINDS}
    parts = [rs.part_of_code(code) for code in rs.codes_of_ring(n)]
    return health_with([(p.kind, p.number, rng.choice(rs.HEALTHS_OF_KIND[p.kind])) for p in parts if rng.random() < shares[p.kind]])


def worn_locks(rng, n):
    """Locks of a ring: none, few or many."""
    return random_locks(rng, n, rng.choice([0, 0, .1, .5]))


def worn_cuts(rng):
    """Rings with any faults and locks: buffers as long as the sheet, a byte shorter, longer and very short; now and then a record is damaged, or a
    bus is outside the ring."""
    for n in [3, 4, 5, 6, 7, 8] * 50 + [9, 10, 11, 12, 13] * 6 + [14, 16, 20]:
        record, bus = worn_record(rng, n), rng.randint(1, n)
        sheet = sheet_length(record, bus)
        if rng.random() < .05:
            record.orders[rng.choice(rs.ALL_CODES)] ^= True
        if rng.random() < .05:
            bus = rng.choice([0, n + 1, 255])
        room = rng.choice([sheet, sheet, sheet, sheet - 1, sheet + rng.randint(1, 40), rng.randint(0, 4)])
        yield cut_case(record, bus, room, now_and_then_behind(rng))


def cuts(rng):
    return itertools.chain(settled_cuts(), locked_cuts(), refused_cuts(), worn_cuts(rng))


# ---- chances of a dark hour

LEAST, MOST = 5e-324, sys.float_info.max                        # the least float above 0.0, and the largest that is finite
BELOW_1, ABOVE_1 = math.nextafter(1.0, 0.0), math.nextafter(1.0, 2.0)


def float_of(bits):
    return struct.unpack("<d", low_first(bits, 8))[0]


# NaNs of either sign: the usual ones, and those with the least bits and with the greatest.
NANS = [float_of((sign << 63) + bits) for sign in (0, 1) for bits in (0x7ff8 << 48, (0x7ff0 << 48) + 1, 2 ** 63 - 1)]


def rate_bytes(code, rate):
    """The nine bytes of a part's rate. An unrated part has any number above 1 for a kind, and figures that would be refused."""
    if rate == rs.UNRATED:
        return bytes([2 + 83 * code % 254]) + struct.pack("<d", -1.0 - code)
    return bytes([("chance", "hours").index(rate[0])]) + struct.pack("<d", rate[1])


def exposure_case(record, bus, rates, behind=BLANKS):
    """A case of the chance of a dark hour."""
    answer = over_cut_sets(sim.chance_of_dark_hour, record, bus, rates)
    before = record_bytes(record, behind) + bytes([bus]) + b"".join(rate_bytes(code, rates[code]) for code in rs.ALL_CODES)
    return before + bytes([answer.refusal]) + low_first(answer.count, 2) + struct.pack("<dd", answer.sum, answer.largest)


def rates_by(rate_of):
    return {code: rate_of(code) for code in rs.ALL_CODES}


def all_rated(rate):
    return rates_by(lambda code: rate)


def with_rate(rates, codes, rate):
    """Rates with another one for these parts."""
    return {**rates, **{code: rate for code in codes}}


# "Document 004's example rates, 1e-7 for a generator and 1e-8 for a breaker, are run as cases."
EXAMPLE = rates_by(lambda code: rs.chance_rate(1e-7 if code in rs.GENERATOR_CODES else 1e-8))


def started_exposures():
    """Document 004's rates for every bus of every started ring."""
    for n in range(3, 21):
        record = sim.record_for(n)
        yield from (exposure_case(record, bus, EXAMPLE) for bus in range(1, n + 1))


# Buses of rings with few faults: dark ones, and with sets of one part, of two and of three.
FEW = ((3, 3, []), (3, 1, [("G", 3, 1)]), (3, 3, cut_off(3, 3)), (3, 3, [("BB", 2, 3), ("G", 3, 1), ("BB", 3, 2)]),
       (4, 4, [("G", 4, 4), ("BB", 1, 3)]), (5, 2, []), (5, 4, [("G", k, 4) for k in range(1, 6)]), (6, 5, [("G", 5, 4), ("G", 6, 1)]))
# One with 264 sets.
MANY = (20, 11, [("BB", 20, 2)] + [("G", g, 1) for g in range(1, 21) if g not in (1, 11, 20)])


def told_buses(calls):
    yield from ((told(n, reports), bus) for n, bus, reports in calls)


def listed_parts(record, bus):
    """The codes of the parts in any of a bus's sets, and of those of the ring that are in none."""
    listed = sorted(set(itertools.chain(*cut_sets(record, bus))))
    return listed, [code for code in rs.codes_of_ring(record.n) if code not in listed]


def edge_exposures():
    """Every part with the same rate, at the bounds and beside them: products that vanish, that are left with few digits, and 1.0; either zero,
    alone and beside the other. Then one part of a listed set with such a rate, and the others with document 004's."""
    chances = (0.0, -0.0, LEAST, 2.0 ** -1022, 1e-200, 1e-162, 1e-108, 2.0 ** -358, .1, .5, BELOW_1, 1.0)
    hours = (1.0, ABOVE_1, 2.0, 3.0, 7.0, 49.0, 1e8, 2.0 ** 1022, 2.0 ** 1023, MOST)
    alike = [all_rated(rate) for rate in (*map(rs.chance_rate, chances), *map(rs.mean_hours_rate, hours))]
    zeros = [rates_by(lambda code, k=k: rs.chance_rate((-0.0, 0.0)[(code + k) % 2])) for k in (0, 1)]
    for record, bus in told_buses((*FEW, MANY)):
        yield from (exposure_case(record, bus, rates) for rates in alike + zeros)
        for code, chance in itertools.product(listed_parts(record, bus)[0][:2], (0.0, -0.0, LEAST, 1.0)):
            yield exposure_case(record, bus, with_rate(EXAMPLE, [code], rs.chance_rate(chance)))


def any_digits(rng, low, high):
    """A float with any digits, between two to these powers."""
    return math.ldexp(1 + rng.random(), rng.randint(low, high - 1))


def any_rate(rng, low, high, kind):
    """A rate whose chance is about between two to these powers, which are not above 0."""
    return rs.mean_hours_rate(any_digits(rng, -high, -low)) if kind == "hours" else rs.chance_rate(any_digits(rng, low, high))


def digit_exposures(rng):
    """Rates with any digits, so that another order of factors or of products shows, or a rounding more or less: as data sheets have them,
    near to 1.0, far apart, and with products that are left with few digits."""
    for record, bus in told_buses((*FEW, MANY)):
        for (low, high), kinds in itertools.product(((-27, -23), (-2, 0), (-90, 0), (-362, -340)), (["chance"], ["hours"], ["chance", "hours"])):
            yield exposure_case(record, bus, rates_by(lambda code: any_rate(rng, low, high, rng.choice(kinds))))


def unrated_exposures():
    """16: each part of a ring alone unrated, in a listed set or in none; then all that are in none, and those above n, and all parts."""
    for record, bus in told_buses(FEW):
        ring = rs.codes_of_ring(record.n)
        above = [code for code in rs.ALL_CODES if code not in ring]
        yield from (exposure_case(record, bus, with_rate(EXAMPLE, [code], rs.UNRATED)) for code in ring)
        for codes in (listed_parts(record, bus)[1], above, listed_parts(record, bus)[1] + above, rs.ALL_CODES):
            yield exposure_case(record, bus, with_rate(EXAMPLE, codes, rs.UNRATED))


# 15: "a chance not from 0 to 1, or hours not finite or below 1".
OUTSIDE = [rs.chance_rate(x) for x in (-LEAST, -1e-300, -1.0, ABOVE_1, 2.0, MOST, math.inf, -math.inf, *NANS)] + [
    rs.mean_hours_rate(x) for x in (BELOW_1, .5, LEAST, 0.0, -0.0, -LEAST, -5.0, -MOST, math.inf, -math.inf, *NANS)]


def outside_exposures():
    """15, "among the ring's parts": each such rate of a part in a listed set, in none, and above n, where it is served; and before 16, beside an
    unrated part in a listed set. Then at the first and the last number of each kind, and behind it."""
    calls = itertools.cycle([(told(n, reports), bus) for n, bus, reports in ((5, 2, []), (6, 5, [("G", 5, 4)]), (3, 1, [("G", 3, 1)]))])
    for rate, (record, bus) in zip(OUTSIDE, calls):
        listed, others = listed_parts(record, bus)
        above = [code for code in rs.ALL_CODES if code not in listed + others]
        beside = with_rate(EXAMPLE, listed[:1], rs.UNRATED)
        yield from (exposure_case(record, bus, with_rate(EXAMPLE, codes, rate)) for codes in (listed[-1:], others[-1:], above))
        yield from (exposure_case(record, bus, with_rate(beside, codes, rate)) for codes in (listed[-1:], others[:1], above))
    for n, kind in itertools.product((3, 5, 19, 20), KINDS):
        for number in sorted({1, n, min(n + 1, 20)}):
            yield exposure_case(loaded(n), 1, with_rate(EXAMPLE, [rs.code_of(kind, number)], rs.mean_hours_rate(.5)))


def refused_exposures():
    """9 before 10, 15 and 16, and 10 before 15 and 16: damaged records, and buses outside the ring, with good rates and bad ones."""
    unrated = all_rated(rs.UNRATED)
    rates = [EXAMPLE, all_rated(OUTSIDE[0]), unrated, with_rate(unrated, [0], OUTSIDE[3])]
    for n in (3, 6):
        calls = itertools.cycle(itertools.product((1, n, 0, n + 1, 255), rates))
        for record in itertools.chain(damaged_records(n), damaged_loads(n)):
            yield from (exposure_case(record, *call) for call in itertools.islice(calls, 2))
    for n in (3, 6, 20):
        yield from (exposure_case(loaded(n), *call) for call in itertools.product((0, n + 1, 21, 128, 255), rates))


def worn_exposures(rng):
    """Rings with any faults and locks, and any rates: with no part unrated, some, or those that are in no listed set; now and then a rate is
    turned away, a record is damaged, or a bus is outside the ring."""
    for n in [3, 4, 5, 6, 7, 8] * 40 + [9, 10, 11, 12, 13] * 4 + [16, 20]:
        record, bus = worn_record(rng, n), rng.randint(1, n)
        high = rng.choice([-20, -20, -3, 0])
        rates = rates_by(lambda code: any_rate(rng, high - 10, high, rng.choice(["chance", "hours"])))
        unrated = rng.choice([[], rng.sample(rs.ALL_CODES, 3), listed_parts(record, bus)[1], listed_parts(record, bus)[1]])
        rates = with_rate(rates, unrated, rs.UNRATED)
        if rng.random() < .1:
            rates = with_rate(rates, [rng.choice(rs.ALL_CODES)], rng.choice(OUTSIDE))
        if rng.random() < .05:
            record.orders[rng.choice(rs.ALL_CODES)] ^= True
        if rng.random() < .05:
            bus = rng.choice([0, n + 1, 255])
        yield exposure_case(record, bus, rates, now_and_then_behind(rng))


def exposures(rng):
    return itertools.chain(edge_exposures(), digit_exposures(rng), unrated_exposures(), outside_exposures(), refused_exposures(),
                           worn_exposures(rng))


RINGS = (3, 4, 5, 8, 12, 20)


def report_on(kind, number, word):
    return rs.Report(rs.Part(kind, number), word)


def any_report(rng):
    """A report on any part, with any number: most are bad."""
    return report_on(rng.choice(KINDS), rng.choice([0, 1, 2, 3, rng.randrange(256)]), rng.randrange(6))


def good_report(rng, n):
    """A report that is served; generators and breakers go and come back, and generators are locked and unlocked."""
    kind = rng.choice(["G", "G", "GB", "GB", "BB", "BB"])
    return report_on(kind, rng.randint(1, n), rng.choice([0, 0, 1, 4, 5, 5] if kind == "G" else [0, 0, 2, 3]))


def good_reports(rng, n, count):
    return [good_report(rng, n) for _ in range(count)]


def bad_reports(rng, n):
    """A report of each flaw: two that are refused by 5 and two by 6."""
    inside = rng.randint(1, n)
    return [report_on(rng.choice(KINDS), 0, rng.randrange(6)), report_on(rng.choice(KINDS), n + 1, rng.randrange(6)),
            report_on("G", inside, rng.choice([2, 3])), report_on(rng.choice(["GB", "BB"]), inside, rng.choice([1, 4, 5]))]


def with_report(reports, place, report):
    return reports[:place] + [report] + reports[place + 1:]


def scan_case(rng, record, reports, count, room):
    """A case of a scan. The places behind its reports hold any others, which must not be read."""
    scanned = reports + [any_report(rng) for _ in range(rs.MOST_SCANNED - len(reports))]
    behind = now_and_then_behind(rng)
    before = record_bytes(record, behind) + bytes([count])
    buffer = bytearray([170] * room)
    answer = sim.scan(record, scanned, count, buffer)
    return before + b"".join(map(report_bytes, scanned)) + bytes([room]) + answer_bytes(answer, buffer, behind)


def scan_length(record, reports):
    """The length of the sheet of a scan that is served."""
    sheet = bytearray(rs.LONGEST_SHEET)
    assert sim.scan(record, reports, len(reports), sheet).refusal == 0
    return 2 + 2 * (sheet[0] + sheet[1])


def stepped_through(record, reports):
    """The records of the reports' single steps, the first before them all and the last behind them."""
    records = [record]
    for report in reports:
        records.append(sim.step(records[-1], report, bytearray(rs.LONGEST_SHEET)).record)
    return records


def longest_step(record, reports):
    """The length of the longest sheet that the reports' single steps have."""
    return max(scan_length(before, [report]) for before, report in zip(stepped_through(record, reports), reports))


def with_rooms(record, reports):
    """The scan of all these reports with a buffer as long as its sheet, and with one a byte shorter."""
    length = scan_length(record, reports)
    return [(record, reports, len(reports), room) for room in (length, length - 1)]


def counted_scans(rng):
    """Each edge of the count; one above 64 is refused by 11, before bad reports and short buffers."""
    for n in RINGS:
        record = worn_record(rng, n)
        for count in (0, 1, 2, 63, 64):
            yield from with_rooms(record, good_reports(rng, n, count))
        for count in (65, 128, 255):
            yield record, good_reports(rng, n, 64), count, rs.LONGEST_SHEET
            yield record, bad_reports(rng, n), count, 0


def bad_scans(rng):
    """A bad report of each flaw at each place of a full scan; then at the last place that is counted and at the first that is not."""
    for place in range(rs.MOST_SCANNED):
        n, one = RINGS[place % len(RINGS)], place // len(RINGS) % 4
        record, reports = loaded(n), good_reports(rng, n, rs.MOST_SCANNED)
        for flaw, bad in enumerate(bad_reports(rng, n)):
            yield record, with_report(reports, place, bad), rs.MOST_SCANNED, 0 if flaw == one else 40
        bad = bad_reports(rng, n)[one]
        yield record, with_report(reports, place, bad), place + 1, 40
        yield record, with_report(reports, place, bad), place, scan_length(record, reports[:place])


def twice_bad_scans(rng):
    """Two bad reports of different numbers, the first of which decides, with long buffers and short ones."""
    for first, second in itertools.permutations(range(4), 2):
        n = rng.choice(RINGS)
        one, other = bad_reports(rng, n)[first], bad_reports(rng, n)[second]
        if sim.report_refusal(n, one) != sim.report_refusal(n, other):
            count = rng.randint(2, rs.MOST_SCANNED)
            before, behind = sorted(rng.sample(range(count), 2))
            reports = with_report(with_report(good_reports(rng, n, count), before, one), behind, other)
            yield from ((loaded(n), reports, count, room) for room in (0, 40))


def settled_scans():
    """Scans that Note 2 of document 02 speaks of, or that its readers may stumble over."""
    for n in (3, 5, 20):
        started, parts = loaded(n), [rs.part_of_code(code) for code in rs.codes_of_ring(n)]
        breakers = [part for part in parts if part.kind != "G"]
        stuck = loaded(n, {part.code: 2 + part.number % 2 for part in breakers})
        for record, reports in (
                (started, [("BB", 2, 2), ("BB", 2, 3), ("BB", 2, 2)]),                     # the last word decides
                (started, [("BB", 2, 2), ("GB", 1, 3), ("BB", 2, 3), ("GB", 1, 2)]),
                (started, [("BB", 2, 2)] * 64),
                (started, [("BB", 2, 3), ("BB", 2, 0)]),                                   # a word 3, and its return
                (started, [("BB", 1, 3), ("BB", 2, 2), ("BB", 1, 0)]),
                (started, [("BB", 1, 3), ("GB", 3, 3)]),
                (started, [("BB", 2, 2), ("BB", 2, 0)]),                                   # one that undoes itself
                (started, [("BB", 2, 2), ("GB", 2, 2), ("GB", 2, 0), ("BB", 2, 0)] * 16),
                (started, [("G", 1, 1), ("G", 1, 1)]),                                     # a generator goes off twice
                (started, [("G", k, 1) for k in range(1, n + 1)]),                         # every bus dark
                (started, [(part.kind, part.number, 1 if part.kind == "G" else 2) for part in parts]),
                (started, [("BB", k, 3) for k in range(1, n + 1)]),                        # all buses joined
                (stuck, []), (stuck, [(part.kind, part.number, 0) for part in breakers]),  # all breakers come back
                (started, [])):                                                            # "two empty waves"
            yield from with_rooms(record, [report_on(*report) for report in reports])
        yield from ((started, [], 0, room) for room in (0, 3, 255))


def returning_scans():
    """Scans that bring generators back, as Note 3 of document 02 has it."""
    for n in (3, 4, 5, 20):
        numbers = range(1, n + 1)
        first, all_off = ([("G", k, 1) for k in failed] for failed in ((1, 2), numbers))
        stuck = [("BB", k, 2 + k % 2) for k in numbers] + [("GB", 2, 3), ("GB", n, 2)]
        fit, in_turn = [("G", k, 0) for k in numbers], [("G", k % n + 1, (k // n + 1) % 2) for k in range(64)]
        for faults, reports in (
                ([], [("G", 1, 1), ("G", 1, 0)]), ([], all_off + fit),                     # off, and fit again in the cycle
                ([], fit), (stuck, [("G", 2, 0)] * 2),                                     # fit already
                (first, [("G", 1, 0), ("G", 1, 1)]), (all_off, fit + all_off),             # fit again, and off in the cycle
                (first, [("G", 1, 0), ("G", 1, 1), ("G", 1, 0)]),
                (first, fit), (all_off, fit), (all_off, fit[::-1]), (all_off + stuck, fit),    # all return at once
                (all_off, [("G", n, 0)]), (all_off + stuck, [("G", 1, 0)]),                # one of them
                (first, [("G", 1, 0), ("BB", 1, 3)]), (first, [("BB", 1, 3), ("G", 2, 0), ("G", 1, 0)]),    # with a word 3
                (all_off, [("GB", 1, 3), ("G", 1, 0), ("BB", n, 3), ("G", 2, 0)]),
                (first + [("BB", 1, 3)], [("BB", 1, 0), ("G", 1, 0)]),                     # with a breaker's return
                ([], in_turn), (all_off, in_turn), (stuck, in_turn), (all_off, [("G", 1, k % 2) for k in range(64)])):
            yield from with_rooms(loaded(n, health_with(faults)), [report_on(*report) for report in reports])


def locking_scans():
    """Scans that lock and unlock generators, as Note 7 of document 02 has it, and some with a lock for a breaker, which are refused."""
    for n in (3, 4, 5, 20):
        numbers = range(1, n + 1)
        lock, unlock, off, fit = ([("G", k, word) for k in numbers] for word in (4, 5, 1, 0))
        stuck = [("BB", k, 2 + k % 2) for k in numbers] + [("GB", 2, 3), ("GB", n, 2)]
        in_turn = [("G", k % n + 1, (4, 1, 0, 5)[k // n % 4]) for k in range(64)]
        for before, reports in (
                ([], [lock[0], unlock[0]]), ([], lock + unlock), ([], [lock[1], lock[1], unlock[1]]),   # locked and unlocked in the cycle
                ([], unlock), (stuck, [unlock[1]] * 2), (lock, lock),                      # as they were already
                (lock[:2], [unlock[0], lock[0]]), (lock, unlock + lock),                   # unlocked, and locked in the cycle
                ([], [off[0], lock[0]]), ([], [lock[0], off[0], unlock[0]]),               # locked after failing; failed while locked
                (lock[:2] + off[:2], fit[:2]), (lock[:2] + off[:2], unlock[:2]), (lock + off, fit), (lock + off, unlock),
                (lock[:2], unlock), (lock, unlock[::-1]), (lock + stuck, unlock), (lock, [unlock[-1]]), ([], lock),
                ([], lock[:2] + [("BB", 1, 3)]), (lock[:2], [("BB", 1, 3), unlock[1], unlock[0]]),      # with a word 3
                (lock[:2] + [("BB", 1, 3)], [("BB", 1, 0), unlock[0]]),                    # with a breaker's return
                (lock + off, unlock + fit), ([], in_turn), (lock, in_turn), (stuck, in_turn)):
            yield from with_rooms(told(n, before), [report_on(*report) for report in reports])
        for bad, word in itertools.product((("GB", 1), ("BB", n)), (4, 5)):
            reports = [report_on(*report) for report in (lock[0], (*bad, word), unlock[0])]
            yield from ((told(n, lock[:1]), reports, count, 122) for count in (1, 2, 3))


def outward_scans():
    """Scans whose second wave goes outward from a source to every bus, from a source over breakers some of which are in use, and from two
    sources, one of which has buses on both sides of the other's; each with a buffer as long as the sheet, and now and then a byte shorter."""
    calls = []
    for n, numbers in OUTWARD.items():
        calls += [(n, all_off_but(n), [("BB", cut, 2), ("G", source, 0)]) for source, cut in itertools.product(numbers, repeat=2)]
        for one, other in itertools.combinations(numbers, 2):
            calls.append((n, all_off_but(n, one) + [("BB", one, 2)], [("G", one, 1), ("G", other, 0), ("BB", one, 0), ("BB", other, 2)]))
        for cut, source in itertools.permutations(numbers if n > 5 else (), 2):
            cuts = [("BB", cut, 2), ("BB", across(n, cut), 2)]
            calls.append((n, all_off_but(n) + cuts, [("G", source, 0), ("G", across(n, source), 0)]))
    for i, (n, faults, reports) in enumerate(calls):
        yield from with_rooms(loaded(n, health_with(faults)), [report_on(*report) for report in reports])[:1 if i % 5 else 2]


def own_sheet_scans(rng):
    """Buffers too short for a single step's sheet, but not for the scan's own, for which alone 8 is checked, and the other way."""
    shorter, longer = [], []
    while min(len(shorter), len(longer)) < 24:
        n = rng.choice(RINGS)
        record, reports = worn_record(rng, n), good_reports(rng, n, rng.randint(2, 12))
        own, step = scan_length(record, reports), longest_step(record, reports)
        if own < step:
            shorter.append((record, reports, len(reports), rng.randrange(own, step)))
        elif step < own:
            longer.append((record, reports, len(reports), rng.randrange(step, own)))
    return shorter[:24] + longer[:24]


def refused_scans(rng):
    """9 before 11, bad reports and short buffers: damaged records."""
    for n in (3, 8):
        for k, record in enumerate(damaged_records(n)):
            count = (0, 1, 2, 63, 64)[k % 5]
            yield record, good_reports(rng, n, count), count, 40
            yield record, bad_reports(rng, n), (4, 64, 65, 255)[k % 4], 0
    for k, record in enumerate(damaged_loads(3)):
        count = (0, 1, 2, 64, 65)[k % 5]
        yield record, good_reports(rng, 3, min(count, 64)), count, 40


def listed_scans(rng):
    """Long lists of scans and steps, each with the record last given; among the scans are refused ones."""
    for n in RINGS:
        record = loaded(n)
        for k in range(50):
            reports = good_reports(rng, n, rng.choice([0, 1, 2, 3, 5, 8, 20, 64]))
            if k % 2:
                record = stepped_through(record, reports)[-1]
                continue
            room = scan_length(record, reports) + rng.choice([0, 0, 0, 1, 30, -1])
            if reports and rng.random() < .1:
                reports[rng.randrange(len(reports))] = rng.choice(bad_reports(rng, n))
            yield record, reports, len(reports), room
            record = sim.scan(record, reports, len(reports), bytearray(room)).record


def scans(rng):
    calls = itertools.chain(counted_scans(rng), bad_scans(rng), twice_bad_scans(rng), settled_scans(), returning_scans(),
                            locking_scans(), outward_scans(), own_sheet_scans(rng), refused_scans(rng), listed_scans(rng))
    return (scan_case(rng, *call) for call in calls)


# ---- bookings and cancellations

class Desk:
    """A record and what stands behind its live bookings. Each call is a case, and goes on from the record that the last one gave."""

    def __init__(self, record, behind=BLANKS):
        self.record, self.behind = record, behind

    def called(self, kind, booking, refusal, after):
        case = record_bytes(self.record, self.behind) + bytes([kind]) + booking_bytes(booking) + bytes([refusal])
        self.behind = behind_after(self.record, after, self.behind)
        self.record = after
        return case + record_bytes(self.record, self.behind)

    def book(self, number, bus, watts):
        return self.called(0, rs.Booking(number, bus, watts), *sim.book(self.record, number, bus, watts))

    def cancel(self, number):
        return self.called(1, rs.Booking(number, 0, 0), *sim.cancel(self.record, number))

    def step(self, report):
        """A step between the calls: no case of these."""
        self.record = sim.step(self.record, report, bytearray(rs.LONGEST_SHEET)).record


def full_places(rng):
    """64 are booked, one after the other, and a 65th is refused; places that are freed serve again."""
    desk = Desk(loaded(5), any_behind(rng))
    numbers = [booking.number for booking in desk.record.bookings]
    while len(numbers) < rs.MOST_BOOKINGS:
        numbers.append(len(numbers))
        yield desk.book(numbers[-1], rng.randint(1, 5), any_watts(rng))
    yield desk.book(64, 1, 1)
    for place in (0, 63, 31):
        number = numbers.pop(place)
        numbers.append(number + 100)
        yield from (desk.cancel(number), desk.cancel(number), desk.book(numbers[-1], 2, 500), desk.book(65535, 3, 500))
    yield from (desk.book(numbers[0], 1, 1), desk.book(numbers[-1], 1, 1))


def edges():
    """Numbers, buses and watts at the edges of what is served, and beyond them."""
    for n in (3, 20):
        desk = Desk(loaded(n))
        numbers = (0, 65535, 1, 255, 256, 257, 65280)
        yield from (desk.book(number, 1, 1) for number in numbers)
        yield from (desk.book(number, 2, 2) for number in (0, 65535, 512, 256))
        yield from (desk.cancel(number) for number in (0, 65535, 0, 65535, 2, 65281, 256, 1000 * n))
        yield from (desk.book(number, 2, 2) for number in (0, 65535))
        for bus in (0, 1, n - 1, n, n + 1, 21, 128, 255):
            yield desk.book(300 + bus, bus, 20)
        for watts in (0, 1, 2, 65535, 65536, 99999, 100000, 100001, 165536, 2 ** 24, 2 ** 31, 2 ** 32 - 1):
            yield desk.book(watts % 65521, n, watts)


def refusals_in_turn():
    """Calls that meet one condition of a refusal or several: a damaged record, a bus and watts outside their bounds, a number that is live
    where it must not be or not where it must, and 64 live."""
    for damaged, bus, watts, live, full in itertools.product((False, True), (2, 0), (10, 0), (False, True), (False, True)):
        bookings = one_a_bus(5) + [rs.Booking(k, k % 5 + 1, 7) for k in range(59 if full else 0)]
        desk = Desk(booked(sim.record_for(5), bookings))
        desk.record.dark_watts += damaged
        number = 5000 if live else 5001
        yield desk.book(number, bus, watts)
        if (bus, watts) == (2, 10):
            yield desk.cancel(number)


def bookings_of_damaged_records():
    """9 before everything else: records damaged in each of the ways, old and new."""
    for n in (3, 8):
        for k, record in enumerate(itertools.chain(damaged_records(n), damaged_loads(n))):
            yield Desk(record).book(1000 if k % 3 else 7, 0 if k % 4 == 1 else 1, 0 if k % 5 == 1 else 100)
            yield Desk(record).cancel(1000 if k % 3 else 7)


def behind_the_live_places(rng):
    """What stands behind the live bookings is neither live nor looked at: numbers that stand there are free, and are not cancelled."""
    for n in (3, 12):
        live, behind = one_a_bus(n), any_behind(rng)
        same = (*live, *live, *BLANKS)[:rs.MOST_BOOKINGS]           # behind the live ones they stand once more
        for stand, number in ((behind, behind[n].number), (behind, behind[63].number), (same, 1000), (same, 999), (BLANKS, 0)):
            yield Desk(loaded(n), stand).book(number, n, 100)
            yield Desk(loaded(n), stand).cancel(number)
            yield Desk(sim.record_for(n), stand).cancel(number)
        desk = Desk(loaded(n), behind)
        yield from (desk.cancel(1000 * bus) for bus in range(1, n + 1))
        yield from (desk.book(1000 * bus, bus, bus) for bus in range(1, n + 1))


def bookings_on_dark_buses():
    """Bookings and cancellations on a bus that is dark, and in a ring that is."""
    for n in (3, 5, 20):
        locked = [("G", k, 4) for k in range(1, n + 1)]
        for reports in (cut_off(n, n), all_off_but(n), cut_off(n, n)[1:] + locked[-1:], locked):
            desk = Desk(told(n, reports))
            yield from (desk.book(1, n, 100000), desk.book(2, 1, 1), desk.cancel(1000 * n), desk.cancel(1000), desk.book(1000, n, 3))


def listed_bookings(rng):
    """Lists of bookings and cancellations in rings of every size, with steps between them that move what is booked, and lay it dark."""
    for n in range(3, 21):
        record = booked(sim.record_for(n, worn_health(rng, n), worn_locks(rng, n)), any_bookings(rng, n, rng.choice([0, 3, 8])))
        desk = Desk(record, any_behind(rng) if n % 4 == 0 else BLANKS)
        for k in range(9):
            live, books = [booking.number for booking in desk.record.bookings], k % 3 < 2
            number = rng.choice(live) if live and rng.random() < (.2 if books else k / 8) else rng.randrange(65536)
            if books:
                bus, watts = rng.randint(0 if rng.random() < .1 else 1, n), 0 if rng.random() < .1 else any_watts(rng)
                yield desk.book(number, bus, watts)
            else:
                yield desk.cancel(number)
            desk.step(good_report(rng, n))


def bookings_beside_locks():
    """Bookings and cancellations where generators are locked: the figures follow the buses that the others feed."""
    for n in (3, 4, 5, 8, 20):
        for reports in ([("G", 1, 4)], [("G", 2, 4)], [("G", 1, 4), ("G", 2, 4)], [("G", 2, 4), ("BB", 2, 2)],
                        [("G", 2, 1), ("G", 2, 4), ("G", 2, 0)], [("G", 2, 1), ("G", 2, 4), ("G", 2, 5)]):
            desk = Desk(told(n, reports))
            yield from (desk.book(7, 1, 100), desk.book(8, 2, 200), desk.book(9, n, 300), desk.cancel(2000), desk.cancel(7))
            desk.step(report_on("G", 2, 5))
            yield from (desk.book(7, 2, 50), desk.cancel(1000))


def bookings(rng):
    return itertools.chain(full_places(rng), edges(), refusals_in_turn(), bookings_of_damaged_records(), behind_the_live_places(rng),
                           bookings_on_dark_buses(), bookings_beside_locks(), listed_bookings(rng))


def feed_words(answer):
    """An answer of the reckoning as ringplant prints it."""
    words = {"dark": "dark", "fed": "G%d", "clash": "clash G%d G%d"}
    return words[answer[0]] % tuple(answer[1:])


def plant_text(n, health, locks, commands):
    """What ringplant prints."""
    number, answers = sim.reckon(n, health, commands, locks)
    if number:
        return "refused %d\n" % number
    return "".join("B%d %s\n" % (bus, feed_words(answer)) for bus, answer in enumerate(answers[:n], start=1))


def feeds_text(record, commands):
    """What feeds each bus of a ring by these commands, as a line of ringtrace has it."""
    marks = {"dark": "-", "fed": "G%d", "clash": "G%d!G%d"}
    number, answers = sim.reckon(record.n, record.health, commands, record.locks)
    assert number == 0
    return " ".join("B%d=%s" % (bus, marks[a[0]] % tuple(a[1:])) for bus, a in enumerate(answers[:record.n], start=1))


def call_text(number, commands, answer, sheet):
    """What ringtrace prints of a call: the ring after its word, and after each stroke. The orders are those before it."""
    size = sheet[0] + sheet[1]
    lines = ["%d %s\n" % (number, feeds_text(answer.record, commands))]
    for code, order in zip(sheet[2:2 + size], sheet[2 + size:]):
        commands = {**commands, code: bool(order)}
        lines.append("%s%s %s\n" % (rs.name_of(code), "+" if order else "-", feeds_text(answer.record, commands)))
    return "".join(lines)


def trace_text(data):
    """What ringtrace prints."""
    file = sim.parse_fault_file(data)
    if file.refusal:
        return "refused %d\n" % file.refusal
    sheet = bytearray(122)
    answer = sim.start(file.n, sheet)
    lines = ["ring %d reports %d\n" % (file.n, len(file.codes))]
    lines.append(call_text(0, {code: False for code in rs.ALL_CODES}, answer, sheet))
    for number, (code, word) in enumerate(zip(file.codes, file.words), start=1):
        commands = answer.record.orders
        answer = sim.step(answer.record, rs.report_of(code, word), sheet)
        lines.append(call_text(number, commands, answer, sheet))
    return "".join(lines)


def set_text(codes):
    """A minimal cut set as ringcuts prints it."""
    return " ".join(rs.name_of(code) for code in codes) or "-"


def latest(file):
    """The record after the last report of a file that is served, without bookings."""
    record = rs.Record(file.n)
    for code, word in zip(file.codes, file.words):
        sim.take_word(record, rs.report_of(code, word))
    return sim.record_for(file.n, record.health, record.locks)


def cuts_text(data):
    """What ringcuts prints: the ring after the last report."""
    file = sim.parse_fault_file(data)
    if file.refusal:
        return "refused %d\n" % file.refusal
    record, lines = latest(file), []
    for bus in range(1, file.n + 1):
        sets = cut_sets(record, bus)
        lines += ["B%d %d" % (bus, len(sets))] + [set_text(codes) for codes in sets]
    return "\n".join(lines) + "\n"


def chances_file(rates, data):
    """What ringchance reads: the rates of sixty parts, then a fault file."""
    return b"".join(rate_bytes(code, rates[code]) for code in rs.ALL_CODES) + data


def float_bits(x):
    """The bits of a float as sixteen hexadecimal digits."""
    return struct.pack(">d", x).hex()


def chances(rates, data):
    """The number of a file's refusal, and what the simulation answers for each bus after its last report."""
    file = sim.parse_fault_file(data)
    buses = [] if file.refusal else range(1, file.n + 1)
    return file.refusal, [over_cut_sets(sim.chance_of_dark_hour, latest(file), bus, rates) for bus in buses]


def chances_text(rates, data):
    """What ringchance prints: the ring after the last report."""
    refusal, answers = chances(rates, data)
    if refusal:
        return "refused %d\n" % refusal
    figures = ["refused %d" % answer.refusal if answer.refusal else
               "%s %s %d" % (float_bits(answer.sum), float_bits(answer.largest), answer.count) for answer in answers]
    return "".join("B%d %s\n" % line for line in enumerate(figures, start=1))


def scans_file(n, calls):
    """What ringscan reads: n, then for each call, a list of reports, their number and 64 places. Those behind the reports hold a part
    that no ring has."""
    none = bytes([2, 255, 3])
    scanned = [b"".join(map(report_bytes, reports[:rs.MOST_SCANNED])) + none * (rs.MOST_SCANNED - len(reports)) for reports in calls]
    return bytes([n]) + b"".join(bytes([len(reports)]) + scan for reports, scan in zip(calls, scanned))


def scans_text(n, calls):
    """What ringscan prints: the start's line, then that of each call, a list of reports, or its refusal."""
    sheet = bytearray(rs.LONGEST_SHEET)
    answer = sim.start(n, sheet)
    if answer.refusal:
        return "refused %d\n" % answer.refusal
    lines = [rs.line_of_run(0, n, answer.choices, sheet)]
    for number, reports in enumerate(calls, start=1):
        answer = sim.scan(answer.record, reports, len(reports), sheet)
        lines.append("refused %d\n" % answer.refusal if answer.refusal else rs.line_of_run(number, n, answer.choices, sheet))
    return "".join(lines)


# What a call of ringload is, by a word for it: its kind, and the bytes that it takes.
LOAD_CALLS = {
    "report": (0, report_bytes),
    "scan": (1, lambda *reports: scans_file(0, [reports])[1:]),
    "book": (2, lambda number, bus, watts: booking_bytes(rs.Booking(number, bus, watts))),
    "cancel": (3, lambda number: low_first(number, 2)),
}


def loads_file(n, calls):
    """What ringload reads: n, then for each call, a word and what it takes, the number of its kind and 193 bytes."""
    entries = [(LOAD_CALLS[word][0], LOAD_CALLS[word][1](*taken)) for word, *taken in calls]
    return bytes([n]) + b"".join(bytes([kind]) + data.ljust(193, b"\0") for kind, data in entries)


def load_answers(n, calls):
    """The simulation's answers to the start and to calls, each with the record that the call before it gave: the refusal, the record, and
    the line of the run without its number, where the call has one."""
    sheet = bytearray(rs.LONGEST_SHEET)
    answer = sim.start(n, sheet)
    record, refusal, switched = answer.record, answer.refusal, answer
    yield refusal, record, "" if refusal else rs.line_of_run(0, n, answer.choices, sheet)[2:-1]
    for word, *taken in calls if not refusal else []:
        if word in ("book", "cancel"):
            refusal, record = getattr(sim, word)(record, *taken)
            switched = None
        else:
            switched = sim.step(record, *taken, sheet) if word == "report" else sim.scan(record, taken, len(taken), sheet)
            refusal, record = switched.refusal, switched.record
        yield refusal, record, rs.line_of_run(0, n, switched.choices, sheet)[2:-1] if switched and not refusal else ""


def figures_text(record):
    """The watts of a ring's generators, and those on dark buses."""
    return " ".join("G%d %d" % figure for figure in enumerate(record.watts[:record.n], start=1)) + " dark %d" % record.dark_watts


def loads_text(n, calls):
    """What ringload prints."""
    return "".join("refused %d\n" % refusal if refusal else figures_text(record) + "\n" for refusal, record, _ in load_answers(n, calls))


def gate_plant():
    """A ring of twelve with a clash, buses fed by one generator and dark ones, over stuck breakers of both kinds; of the locked generators
    G10 and G12 are ordered on, G9 is stuck off too, and one is above n."""
    health = {code: 0 for code in rs.ALL_CODES}
    commands = {code: False for code in rs.ALL_CODES}
    for kind, number, word in (("BB", 1, 3), ("BB", 3, 2), ("GB", 6, 3), ("GB", 8, 2), ("G", 9, 1)):
        health[rs.code_of(kind, number)] = word
    for kind, number in (("G", 1), ("GB", 1), ("G", 2), ("GB", 2), ("BB", 2), ("BB", 3), ("G", 6), ("BB", 6), ("G", 8), ("GB", 8),
                         ("G", 9), ("GB", 9), ("G", 10), ("GB", 10), ("G", 11), ("GB", 11), ("G", 12), ("GB", 12), ("BB", 11)):
        commands[rs.code_of(kind, number)] = True
    return 12, health, locks_on([4, 9, 10, 12, 13]), commands


# Document 01's printed run.
GATE_RUN = fault_file(3, [(65, 2)])

# In a ring of five BB1 sticks closed between two running generators; BB3 sticks open; all generators fail; G3 comes back, and its current
# goes round past B1 to B4; BB3 and G1 come back; G3 is locked; G1 is locked, fails, is replaced and stays out, and is unlocked; G3 is unlocked.
GATE_TRACE = fault_file(5, [(64, 3), (66, 2), (0, 1), (1, 1), (3, 1), (4, 1), (2, 1), (2, 0), (66, 0), (0, 0), (2, 4), (0, 4), (0, 1), (0, 0),
                            (0, 5), (2, 5)])

# In a ring of six BB2 sticks closed, BB4 and BB5 stick open and G5 fails, so that B5 is dark; GB1 sticks open and G3 fails, and both come
# back; G6 fails; G1 and G4 are locked, and G4 is unlocked.
GATE_CUTS = fault_file(6, [(65, 3), (67, 2), (32, 2), (68, 2), (4, 1), (2, 1), (32, 0), (2, 0), (5, 1), (0, 4), (3, 4), (3, 5)])


def gate_chances():
    """In a ring of eleven B11 is dark, and so needs no rate; B3 hangs on one breaker that is stuck closed; and an unrated GB6 is in sets of
    B6 alone. Chances and hours are all different, and beside them stand rates above n that would be refused."""
    rates = rates_by(lambda code: rs.chance_rate(3e-7 + code * 1e-9) if code % 3 else rs.mean_hours_rate(7e6 + code * 11.0))
    rates = with_rate(rates, [rs.code_of("GB", 6), rs.code_of("G", 11)], rs.UNRATED)
    rates = with_rate(rates, [rs.code_of(kind, number) for kind in KINDS for number in (12, 20)], rs.chance_rate(float("nan")))
    return rates, fault_file(11, [(10, 1), (73, 2), (74, 2), (2, 4), (65, 2), (66, 3), (5, 1), (5, 0)])


def gate_scans():
    """A ring of five and its calls."""
    calls = [
        [("BB", 2, 2), ("BB", 4, 2)],                           # two faults
        [],                                                     # no reports: two empty waves
        [("GB", 1, 2), ("G", 2, 3), ("GB", 9, 2)],              # refused by 6, the first bad one; nothing changes
        [("BB", 2, 0), ("BB", 1, 3), ("G", 4, 1)],              # a word 3: BB1 joins two running generators
        [("BB", 1, 0), ("BB", 5, 3), ("BB", 5, 0)],             # its return, and a word 3 that is taken back
        [("G", 2, 1), ("G", 4, 0), ("G", 1, 1)],                # two generators fail, another comes back
        [("G", 2, 0)],                                          # a single report: one of the two comes back
        [("G", 1, 0), ("G", 2, 1), ("G", 2, 0), ("GB", 2, 2)],  # so does the other; G2 fails and comes back in one cycle
        [("BB", k % 5 + 1, (2, 3, 0)[k % 3]) for k in range(64)],  # 64 reports
        [("BB", 1, 0)] * 65,                                    # refused by 11; nothing changes
        [("BB", k, 0) for k in range(1, 6)] + [("GB", 2, 0)],   # all breakers come back
        [("G", k, 1) for k in range(1, 6)],                     # every bus dark
        [("BB", 3, 2), ("G", 3, 0)],                            # G3's current goes round past B1 to B4
        [("G", 1, 4), ("G", 1, 0), ("G", 5, 0)],                # G1 is replaced while locked, and does not start; nor does G5, behind G3
        [("G", 3, 4)],                                          # a single report: G5 takes over
        [("G", 5, 4), ("G", 5, 5), ("G", 3, 1), ("G", 3, 5)],   # locked and unlocked in the cycle; failed while locked, and unlocked
        [("G", 1, 5), ("BB", 2, 4)],                            # refused by 6, a lock for a breaker; nothing changes
        [("G", 1, 5), ("G", 3, 0)],                             # G1 is unlocked, and takes every bus
    ]
    return 5, [[report_on(*report) for report in reports] for reports in calls]


def gate_loads():
    """A ring of five and its calls."""
    calls = [("book", 0, 1, 1), ("book", 65535, 5, 100000), ("book", 3, 3, 1200), ("book", 4, 4, 65536)]    # on four buses
    calls += [("book", 3, 1, 5), ("book", 5, 0, 5), ("book", 5, 6, 5), ("book", 5, 5, 0), ("book", 5, 5, 100001)]  # refused by 13, 10, 12
    calls += [("cancel", 5), ("cancel", 3), ("cancel", 3), ("book", 3, 3, 7)]           # refused by 13; cancelled, and booked again
    calls += [("report", report_on("BB", 2, 2)), ("report", report_on("BB", 4, 2)), ("report", report_on("GB", 5, 1)),
              ("scan", report_on("G", 5, 1), report_on("BB", 5, 2)),                     # B5 goes dark with what is booked on it
              ("scan",), ("scan", report_on("G", 1, 1), report_on("G", 6, 1)), ("scan", *[report_on("BB", 5, 0)] * 65),
              ("report", report_on("BB", 5, 3)), ("scan", *[report_on("G", k, 1) for k in range(1, 6)]),    # every bus dark
              ("report", report_on("G", 3, 0))]
    calls += [("report", report_on("G", 3, 4)), ("report", report_on("G", 3, 0)),       # locked: dark again, also when it is replaced
              ("report", report_on("GB", 3, 5)), ("scan", report_on("G", 4, 0), report_on("G", 4, 4), report_on("G", 3, 5))]
    calls += [("book", 1000 + k, k % 5 + 1, 100 * k + 1) for k in range(60)]            # 64 are live
    calls += [("book", 1, 1, 1), ("book", 0, 1, 1)]                                     # refused by 14 and 13
    calls += [("cancel", 1030), ("book", 1, 1, 1), ("book", 2, 1, 1)]                   # its place serves again; refused by 14
    return 5, calls + [("report", report_on("G", 1, 0)), ("report", report_on("BB", 2, 0)), ("cancel", 65535)]


def write(path, data):
    os.makedirs(os.path.dirname(path), exist_ok=True)
    with open(path, "wb") as out:
        out.write(data)


def all_cases(seeds, started):
    """The cases of each program; minimal cut sets, and the chances over them, are the same for all seeds where rings are started."""
    yield "vectors", list(runs(random.Random(seeds[0])))
    yield "vectors_plant", list(plant(random.Random(seeds[1])))
    rng = random.Random(seeds[2])
    yield "vectors_step", list(itertools.chain(steps(rng), returning_steps(rng), locking_steps(rng), outward_steps(), loaded_steps(rng)))
    yield "vectors_cuts", list(itertools.chain(started_cuts() if started else [], cuts(random.Random(seeds[3]))))
    yield "vectors_scan", list(scans(random.Random(seeds[4])))
    yield "vectors_book", list(bookings(random.Random(seeds[5])))
    yield "vectors_exposure", list(itertools.chain(started_exposures() if started else [], exposures(random.Random(seeds[6]))))


def stored_files():
    """The files that are stored below crates/, and their bytes."""
    for crate, cases in all_cases([1, 2, 3, 4, 7, 6, 8], started=True):
        yield os.path.join(crate, "data", "cases"), b"".join(cases)
        yield os.path.join(crate, "stdout"), b"%d cases, 0 differ\n" % len(cases)
    yield os.path.join("ringctl", "stdin"), GATE_RUN
    yield os.path.join("ringctl", "stdout"), sim.printed_run(GATE_RUN)
    yield os.path.join("ringplant", "stdin"), plant_bytes(*gate_plant())
    yield os.path.join("ringplant", "stdout"), plant_text(*gate_plant()).encode()
    yield os.path.join("ringtrace", "stdin"), GATE_TRACE
    yield os.path.join("ringtrace", "stdout"), trace_text(GATE_TRACE).encode()
    yield os.path.join("ringcuts", "stdin"), GATE_CUTS
    yield os.path.join("ringcuts", "stdout"), cuts_text(GATE_CUTS).encode()
    yield os.path.join("ringchance", "stdin"), chances_file(*gate_chances())
    yield os.path.join("ringchance", "stdout"), chances_text(*gate_chances()).encode()
    yield os.path.join("ringscan", "stdin"), scans_file(*gate_scans())
    yield os.path.join("ringscan", "stdout"), scans_text(*gate_scans()).encode()
    yield os.path.join("ringload", "stdin"), loads_file(*gate_loads())
    yield os.path.join("ringload", "stdout"), loads_text(*gate_loads()).encode()


def store():
    for name, data in stored_files():
        write(os.path.join(CRATES, name), data)
        print("%s: %d bytes" % (name, len(data)))


def make_others(seed, folder):
    """Other cases, drawn by a seed."""
    for crate, cases in all_cases(["%s %d" % (seed, k) for k in range(7)], started=False):
        write(os.path.join(folder, crate, "cases"), b"".join(cases))
        print("%s: %d cases" % (crate, len(cases)))


if __name__ == "__main__":
    parser = argparse.ArgumentParser(description=__doc__, formatter_class=argparse.RawDescriptionHelpFormatter)
    parser.add_argument("--seed", help="a number or a word")
    parser.add_argument("--out", help="the folder of the other cases")
    given = parser.parse_args()
    if (given.seed is None) != (given.out is None):
        parser.error("--seed and --out go together")
    if given.out is None:
        store()
    else:
        make_others(given.seed, given.out)
