"""bin/faultfile encode|decode|check [FILE]: fault files and readable lines.

    bin/faultfile encode lines.txt > mine.faults    readable lines to a fault file
    bin/faultfile decode mine.faults                and back
    bin/faultfile check lines.txt                   what the controller would refuse in either, and why

The first line is `ring N`, each further one a part and a word: `BB2 stuck open`, `G1 stuck off`, `GB3 fit`, and `G1 fit`
for a generator that was replaced. `G1 locked` locks a generator out for service, and `G1 unlocked` ends that; neither alters
whether it is fit or stuck off. Parts are numbered from 1 to N. What follows a # is passed over; case, spaces and empty lines
do not matter. A byte that has no name is a number, as `code 99 word 7`, and a file of another shape is `bytes 3 1 0 64`.
A file of no bytes stands for a ring of three without reports: decode shows `ring 3`, which makes the file `3 0 0` with the same
run. The line `bytes` by itself makes one of no bytes.
Status: 0 done, and served for check; 1 refused, by check alone; 2 nothing could be read or written.
"""
import faultlines
import ringtools


def check(data):
    lines, refusal = faultlines.check(data)
    answer = "the controller's answer: " + ("refused %d" % refusal if refusal else "served")
    ringtools.write_output(("\n".join(lines + [answer]) + "\n").encode())
    return ringtools.REFUSED if refusal else ringtools.SERVED


def run(arguments):
    if not arguments:
        raise ringtools.Use
    if arguments[0] not in ("encode", "decode", "check"):
        raise ringtools.Failure("encode, decode or check, not `%s`; --help shows the use" % arguments[0])
    _, path = ringtools.one_file(arguments[1:])
    data = ringtools.read_input(path, whole=True)
    if arguments[0] == "check":
        return check(data)
    if arguments[0] == "decode" and ringtools.is_readable(data):
        ringtools.say("faultfile", "these look like readable lines already")
    ringtools.write_output(faultlines.encode(data) if arguments[0] == "encode" else faultlines.decode(data).encode())
    return ringtools.SERVED


if __name__ == "__main__":
    ringtools.command("faultfile", __doc__, run)
