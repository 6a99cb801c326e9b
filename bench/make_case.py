#!/usr/bin/env python3
"""Writes the 141 bytes that ringplant reads, for measuring: make_case.py N ORDERS > case

ORDERS: `off`, all fit and all off or open; `start`, all fit and the first orders of a ring of N; `all`, all fit, on and closed; or a seed,
by which health and orders are drawn, most parts fit and most orders on or closed."""
import random
import sys

n, orders = int(sys.argv[1]), sys.argv[2]
generators, generator_breakers, bus_breakers = range(0, n), range(20, 20 + n), range(40, 40 + n)
health, locks, commands = bytearray(60), bytearray(20), bytearray(60)
if orders == "start":
    # "n = 3, none: G1o G2o G2h", "n = 5, none: G1o G2o G2h G2h G2l": G2 feeds B3 and those after it through rising bus numbers
    for i in (*generators[:2], *generator_breakers[:2], *bus_breakers[1:-1]):
        commands[i] = 1
elif orders == "all":
    for i in (*generators, *generator_breakers, *bus_breakers):
        commands[i] = 1
elif orders != "off":
    rng = random.Random(int(orders))
    for kind, faults in ((generators, [1]), (generator_breakers, [2, 3]), (bus_breakers, [2, 3])):
        for i in kind:
            health[i] = rng.choice([0, 0, 0] + faults)
            commands[i] = rng.choice([0, 1, 1])
sys.stdout.buffer.write(bytes([n]) + health + locks + commands)
