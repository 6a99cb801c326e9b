"""bin/ringcuts [--bus B3] [--counts] [FILE]: which further faults would darken a bus, after a fault file's last report.

    bin/ringcuts examples/planning-desk.txt         every bus and its sets
    bin/ringcuts --bus B5 FILE                      one bus alone
    bin/ringcuts --counts FILE                      only how many sets each bus has
    bin/ringcuts < FILE                             from standard input

A bus has a line with the number of its sets, as `B3 10`, then a line a set: `G3 BB2 BB3` darkens the bus when G3 goes off and BB2
and BB3 stick open, and no fewer of the three do. Sets have at most three parts; those of one part come first. A generator that is
stuck off or locked is in no set. A lone `-` is the empty set: the bus is dark already.
A file that begins with `ring ` or `#` has readable lines, every other goes to the program as it is; one of no bytes stands for a
ring of three without reports.
Status: 0 served, 1 refused, 2 nothing could be read or written.
"""
import re

import faultlines
import ringtools


def bus_in(text):
    """The number of a bus, given as B3 or 3."""
    name = re.fullmatch("[bB]?0*([0-9]+)", text)
    if not name:
        raise ringtools.Failure("`%s` names no bus; buses are B1, B2 and so on, one at a time" % text)
    if len(name.group(1)) > 2 or not 1 <= int(name.group(1)) <= faultlines.MOST:
        raise ringtools.Failure("buses are numbered from 1 to %d, not `%s`" % (faultlines.MOST, text))
    return int(name.group(1))


def buses_of(output):
    """The lines of each bus: how many sets it has, then its sets."""
    buses = []
    for line in output.decode().splitlines():
        if re.fullmatch("B[0-9]+ [0-9]+", line):
            buses.append([])
        buses[-1].append(line)
    return buses


def chosen(output, bus, counts):
    """The lines of one bus or of all, with their sets or without."""
    buses = buses_of(output)
    if bus is not None:
        if bus > len(buses):
            raise ringtools.Failure(faultlines.range_text("B", len(buses)) + ", not B%d" % bus)
        buses = [buses[bus - 1]]
    lines = [line for lines in buses for line in (lines[:1] if counts else lines)]
    return ("\n".join(lines) + "\n").encode()


def run(arguments):
    bus, others = ringtools.option_value(arguments, "--bus")
    number = None if bus is None else bus_in(bus)
    options, path = ringtools.one_file(others, ("--counts",))
    data = ringtools.read_input(path)
    output, status = ringtools.answer_of("ringcuts", data, faultlines.fault_file(data))
    if status == ringtools.SERVED and (bus or options):
        output = chosen(output, number, bool(options))
    ringtools.write_output(output)
    return status


if __name__ == "__main__":
    ringtools.command("ringcuts", __doc__, run)
