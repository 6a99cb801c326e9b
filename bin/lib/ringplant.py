"""bin/ringplant [FILE]: what feeds each bus by given orders, reckoned by the proved plant reckoning.

    ring 3                  the size, first
    BB2 stuck open          the health of a part: fit, stuck off, stuck open, stuck closed
    G2 locked               a generator that is locked out for service, or no more: locked, unlocked
    G1 on                   an order to a generator: on, off
    close GB1 BB3           orders to breakers: close, open

At first every part is fit, unlocked, off and open; the last line on a part's health, lock or order decides. A generator that
is stuck off or locked does not run, whatever it is ordered. The answer has a line a bus: `B1 G1`, fed by one generator,
`B2 dark`, or `B3 clash G1 G2`, fed by both.
Status: 0 answered, 1 refused, 2 nothing could be read or written.
"""
import faultlines
import ringtools


def run(arguments):
    _, path = ringtools.one_file(arguments)
    data = ringtools.read_input(path, whole=True)
    output = ringtools.output_of("ringplant", faultlines.plant_case(data), "ringplant")
    ringtools.write_output(output)
    return ringtools.status_of(output)


if __name__ == "__main__":
    ringtools.command("ringplant", __doc__, run)
