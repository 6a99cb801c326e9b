"""bin/ringview [FILE] > ring.html: a fault file's run as a page to look at, stroke by stroke, in any browser.

The file is a fault file or readable lines, as for bin/ringctl; one of no bytes stands for a ring of three without reports. The
page needs no network. What feeds each bus after every stroke is reckoned by the proved plant reckoning (crates/ringtrace);
the page reckons nothing.
Status: 0 served, 1 refused (and no page), 2 nothing could be read or written.
"""
import html
import json
import os

import faultlines
import ringtools

LIB = os.path.dirname(os.path.realpath(__file__))


def calls_of(data, run, trace):
    """The start and the reports in the words of the page: the report, the line of the run, the strokes, and what feeds the buses
    before the first stroke and after each."""
    size = faultlines.ring_size(data)
    reports = [""] + [faultlines.report_text(size, code, word) for code, word in faultlines.reports_of(data)]
    calls = [{"report": report, "line": line, "strokes": [], "feeds": []} for report, line in zip(reports, run[1:])]
    at = -1
    for line in trace[1:]:
        first, *buses = line.split(" ")
        if first.isdigit():
            at = int(first)
        else:
            calls[at]["strokes"].append(first)
        calls[at]["feeds"].append(" ".join(bus.split("=")[1] for bus in buses))
    return calls


def strokes_agree(calls):
    """Whether the trace has the strokes of the run, in its order."""
    return all(" ".join(call["strokes"]) == " ".join(wave for wave in call["line"].split(" / ")[1:] if wave != "-") for call in calls)


def page(title, data, run, trace):
    calls = calls_of(data, run, trace)
    if not strokes_agree(calls):
        raise ringtools.Failure("ringctl and ringtrace disagree on the strokes")
    with open(os.path.join(LIB, "ringview.html"), encoding="utf-8") as template:
        text = template.read()
    story = json.dumps({"size": faultlines.ring_size(data), "calls": calls}, separators=(",", ":"))
    return text.replace("{{title}}", html.escape(title)).replace("{{story}}", story)


def run(arguments):
    _, path = ringtools.one_file(arguments)
    data = faultlines.fault_file(ringtools.read_input(path))
    printed = ringtools.output_of("ringctl", data, "ringview")
    if ringtools.status_of(printed) == ringtools.REFUSED:
        ringtools.say("ringview", printed.decode().strip() + "; bin/faultfile check says why")
        return ringtools.REFUSED
    trace = ringtools.output_of("ringtrace", data, "ringview")
    title = os.path.basename(path) if path else "ring of %d" % faultlines.ring_size(data)
    text = page(title, data, printed.decode().splitlines(), trace.decode().splitlines())
    ringtools.write_output(text.encode())
    return ringtools.SERVED


if __name__ == "__main__":
    ringtools.command("ringview", __doc__, run)
