"""bin/ringscan [--together] [FILE]: the controller's run when the relay scanner hands over several reports at once.

    ring 3                  the size, first
    BB2 stuck open          a report by itself
    scan                    up to 64 reports of one cycle, between `scan` and `end`
    BB1 stuck closed
    BB2 fit
    G1 stuck off
    end
    G1 fit                  the generator was replaced
    G2 locked               it is locked out for service, until `G2 unlocked`

    bin/ringscan examples/one-cycle.txt             the run: a line for the start, then one for each report and each scan
    bin/ringscan --together FILE                    all reports of the file in one scan
    bin/ringscan < FILE                             from standard input

A line has the number of the call, the buses, the first wave and the second, as in the run of bin/ringctl. The waves of a scan go straight
from the orders before it to those after its last report; without reports they are empty. A call that is refused prints `refused` and
the number, 5 or 6 by its first bad report, 11 for more than 64 reports, and changes nothing; the line and the reason are said on
standard error, and the next call goes on from there.
A file that begins with `ring ` or `#` has readable lines. Every other is a fault file, and each of its reports stands by itself; one of
another shape is refused whole, as by bin/ringctl, and one of no bytes stands for a ring of three without reports.
Status: 0 all served, 1 something refused, 2 nothing could be read or written.
"""
import faultlines
import ringtools


def refused_in(lines):
    return [line.startswith(b"refused ") for line in lines]


def explain(size, calls, refused):
    """The line and the reason of each call that was refused."""
    reasons = [call.refusal(size) for call, is_refused in zip(calls, refused) if is_refused]
    if reasons:
        ringtools.say("ringscan", faultlines.first_twenty(reasons))


def run(arguments):
    options, path = ringtools.one_file(arguments, ("--together",))
    data = ringtools.read_input(path)
    found = faultlines.scans_of(data)
    if found is None:
        output, status = ringtools.answer_of("ringctl", data, faultlines.fault_file(data), "ringscan")
        ringtools.write_output(output)
        return status
    size, calls = found
    if options:
        calls = [faultlines.together(calls)]
    output = ringtools.output_of("ringscan", faultlines.scan_cases(size, calls), "ringscan")
    ringtools.write_output(output)
    start, *answers = refused_in(output.splitlines())
    explain(size, calls, answers)
    return ringtools.REFUSED if start or any(answers) else ringtools.SERVED


if __name__ == "__main__":
    ringtools.command("ringscan", __doc__, run)
