"""What the commands of bin/ share: their arguments, what they read and write, and the proved programs that they run.

    python3 bin/lib/ringtools.py NAME      prints the path of the program NAME, proved and built first where it is missing or
                                           older than a file that it is made of
"""
import os
import subprocess
import sys
import time

ROOT = os.path.dirname(os.path.dirname(os.path.dirname(os.path.realpath(__file__))))

# What a command ends with.
SERVED, REFUSED, FAILED = 0, 1, 2

LONGEST_FILE = 3 + 2 * 4096     # a served fault file is not longer
LONGEST_TEXT = 16 * 1024 * 1024


class Failure(Exception):
    """Something could not be read, written or run: its message goes to the user, and the status is 2."""


class Use(Failure):
    """A command without what it needs: it shows its use."""


def complain(text):
    """A text on standard error; a closed one is passed over."""
    try:
        os.write(2, text.encode("utf-8", "replace"))
    except OSError:
        pass


def say(name, message):
    """Lines on standard error, each with the command's name."""
    complain("".join("%s: %s\n" % (name, line) for line in str(message).rstrip("\n").split("\n")))


def hold_standard_files():
    """A standard file that is closed would give its number to the next file opened: one that cannot be used takes its place."""
    for number, unusable in ((0, os.O_WRONLY), (1, os.O_RDONLY), (2, os.O_RDONLY)):
        try:
            os.fstat(number)
        except OSError:
            os.open(os.devnull, unusable)


def command(name, use, run):
    """Runs a command on its arguments and ends with its status. `use` is what --help prints."""
    hold_standard_files()
    try:
        arguments = sys.argv[1:]
        if "--help" in arguments or "-h" in arguments:
            write_output(use.encode())
            status = SERVED
        else:
            status = run(arguments)
    except Use:
        complain(use)
        status = FAILED
    except Failure as failure:
        say(name, failure)
        status = FAILED
    except KeyboardInterrupt:
        status = FAILED
    except Exception as error:      # a user is never shown a traceback
        say(name, "%s: %s" % (type(error).__name__, error))
        status = FAILED
    sys.exit(status)


def told_apart(arguments, options=()):
    """The options given, and the files."""
    given = [a for a in arguments if a.startswith("-") and a != "-"]
    for option in given:
        if option not in options:
            raise Failure("no such option: %s; --help shows the use" % option)
    return given, [a for a in arguments if a not in given]


def one_file(arguments, options=()):
    """The options given and the file, None for standard input. More than one file is an error; where there is none and standard
    input is a terminal, the use is shown. The file `-` is standard input, a terminal too."""
    given, files = told_apart(arguments, options)
    if len(files) > 1:
        raise Failure("one file at a time, not %d: %s" % (len(files), " ".join(files)))
    if not files and os.isatty(0):
        raise Use
    return given, files[0] if files and files[0] != "-" else None


def option_value(arguments, option):
    """The value of an option, given as `--bus B3` or `--bus=B3`, None where it is not given; and the other words."""
    value, others, words = None, [], list(arguments)
    while words:
        word = words.pop(0)
        name, equals, text = word.partition("=")
        if name != option:
            others.append(word)
            continue
        if value is not None:
            raise Failure("%s is given twice" % option)
        if not equals and not words:
            raise Failure("behind %s its value is missing; --help shows the use" % option)
        value = text if equals else words.pop(0)
    return value, others


def read_some(number, most):
    """Bytes until there are as many as asked for, or the input ends; its end is asked for once."""
    pieces, size = [], 0
    while size < most:
        piece = os.read(number, most - size)
        if not piece:
            break
        pieces.append(piece)
        size += len(piece)
    return b"".join(pieces)


def is_readable(data):
    """Whether these are readable lines. No served fault file begins so: its first byte, where it has one, is from 3 to 20."""
    return data.startswith(b"ring ") or data.startswith(b"#")


def read_input(path, whole=False):
    """A fault file or readable lines, from a file or from standard input. Of a fault file that is longer than any that is served
    only the first byte too many is read, since that decides, unless the whole is asked for."""
    place = path or "standard input"
    try:
        number = 0 if path is None else os.open(path, os.O_RDONLY)
        data = read_some(number, LONGEST_FILE + 1)
        if len(data) > LONGEST_FILE and (whole or is_readable(data)):
            data += read_some(number, LONGEST_TEXT)
    except OSError as error:
        raise Failure("%s cannot be read: %s" % (place, error.strerror))
    if len(data) > LONGEST_TEXT:
        raise Failure("%s is longer than %d bytes" % (place, LONGEST_TEXT))
    return data


def write_output(data):
    """All of it, or a failure."""
    done = 0
    try:
        while done < len(data):
            done += os.write(1, data[done:])
    except OSError as error:
        raise Failure("standard output cannot be written: %s" % error.strerror)


def crates_of(name):
    """The crate of a program and those that it uses, by crates.txt."""
    uses = {}
    with open(os.path.join(ROOT, "crates.txt")) as listing:
        for line in listing:
            crate, colon, names = line.split("#")[0].partition(":")
            if colon:
                uses[crate.strip()] = names.split()
    found = [name]
    for crate in found:
        found += [used for used in uses.get(crate, []) if used in uses and used not in found]
    return found


def newest_source(name):
    """When a file that the program is made of was last changed; a folder's time tells of files that have gone."""
    times = [os.stat(os.path.join(ROOT, "crates.txt")).st_mtime]
    for crate in crates_of(name):
        for part in ("src", "specs", "proofs"):
            for folder, _, files in os.walk(os.path.join(ROOT, "crates", crate, part)):
                times += [os.stat(path).st_mtime for path in [folder] + [os.path.join(folder, f) for f in files]]
    return max(times)


def program_path(name):
    """Where the kit puts a program that it has built."""
    return os.path.join(ROOT, "crates", name, "out", name)


def built(name, tool):
    """The path of a program, proved and built where it is missing or older than its sources."""
    program = program_path(name)
    if os.access(program, os.X_OK) and os.stat(program).st_mtime >= newest_source(name):
        return program
    say(tool, "proving and building %s first; from nothing this takes some minutes .." % name)
    begun = time.time()
    # `rt run` also runs what it has built: here on an empty input
    try:
        run = subprocess.run(["rt", "run"], cwd=os.path.join(ROOT, "crates", name), stdin=subprocess.DEVNULL, stdout=subprocess.PIPE,
                             stderr=subprocess.STDOUT)
    except OSError:
        raise Failure("the Rattle kit's command `rt` is not on the path: %s cannot be built" % name)
    if run.returncode != 0 or not os.access(program, os.X_OK):
        complain(run.stdout.decode("utf-8", "replace"))
        raise Failure("%s was not built" % name)
    os.utime(program, (begun, begun))
    return program


def output_of(name, data, tool):
    """What a proved program prints for an input, kept until it has ended. What it says on standard error is a failure."""
    program = built(name, tool)
    try:
        run = subprocess.run([program], input=data, stdout=subprocess.PIPE, stderr=subprocess.PIPE)
    except OSError as error:
        raise Failure("%s cannot be run: %s" % (program, error.strerror))
    complaint = run.stderr.decode("utf-8", "replace")
    if complaint:
        raise Failure(complaint[len(tool) + 2:] if complaint.startswith(tool + ": ") else complaint)
    if run.returncode != 0:
        raise Failure("%s ended with status %d" % (program, run.returncode))
    if not run.stdout:
        raise Failure("%s printed nothing" % program)
    return run.stdout


def status_of(output):
    """The status that a program's output calls for."""
    return REFUSED if output.startswith(b"refused ") else SERVED


def hint(name, data):
    """Words for a user whose readable lines do not begin as such."""
    if data and all(byte in b"\t\r\n" or 32 <= byte < 127 for byte in data):
        say(name, "this looks like text; readable lines begin with `ring N` or `#`")


def answer_of(name, data, file, tool=None):
    """What a program prints for a fault file, made of what was read or that itself, and the status that it calls for. The command
    has the program's name, unless another is given."""
    output = output_of(name, file, tool or name)
    status = status_of(output)
    if status == REFUSED and not is_readable(data):
        hint(tool or name, data)
    return output, status


if __name__ == "__main__":
    if len(sys.argv) != 2:
        sys.exit(__doc__)
    command(sys.argv[1], __doc__, lambda arguments: write_output((built(arguments[0], arguments[0]) + "\n").encode()) or SERVED)
