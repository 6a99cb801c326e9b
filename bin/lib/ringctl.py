"""bin/ringctl [--changes] [FILE]: the controller's run for a fault file, or for readable lines as `BB2 stuck open`.

    bin/ringctl examples/bus-breaker-open.txt       the whole run
    bin/ringctl --changes FILE                      after line 0 only the buses that change
    bin/ringctl < FILE                              from standard input

A file that begins with `ring ` or `#` has readable lines, every other goes to the controller as it is; one of no bytes stands
for a ring of three without reports.
Status: 0 served, 1 refused, 2 nothing could be read or written.
"""
import faultlines
import ringtools


def changes(run):
    """The run with the buses that differ from the line before; `-` where none does."""
    lines = run.decode().split("\n")
    shown, before = lines[:2], lines[1].split(" / ")[0].split(" ")[1:]
    for line in lines[2:-1]:
        front, opens, closes = line.split(" / ")
        number, *buses = front.split(" ")
        differ = [bus for bus, old in zip(buses, before) if bus != old]
        shown.append("%s %s / %s / %s" % (number, " ".join(differ) or "-", opens, closes))
        before = buses
    return ("\n".join(shown) + "\n").encode()


def run(arguments):
    options, path = ringtools.one_file(arguments, ("--changes",))
    data = ringtools.read_input(path)
    output, status = ringtools.answer_of("ringctl", data, faultlines.fault_file(data))
    ringtools.write_output(changes(output) if options and status == ringtools.SERVED else output)
    return status


if __name__ == "__main__":
    ringtools.command("ringctl", __doc__, run)
