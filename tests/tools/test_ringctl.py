"""bin/ringctl: what it reads, writes and ends with."""
import os
import pty
import tempfile
import unittest

from support import ToolCase, path, read, run, tool

LINES = b"ring 3\nBB2 stuck open\n"
FILE = bytes([3, 1, 0, 65, 2])
RUN = (b"ring 3 reports 1\n0 B1=G1o B2=G2o B3=G2h / - / G1+ GB1+ G2+ GB2+ BB2+\n1 B1=G1o B2=G2o B3=G1h / BB2- / BB3+\n")


class Ringctl(ToolCase):

    def test_reads_a_fault_file_and_readable_lines(self):
        for data in (FILE, LINES, b"# a remark\nring 3\nBB2 stuck open", b"ring 3\r\n\tbb2  STUCK open # so\r\n"):
            self.check(tool("ringctl", data=data), 0, RUN)

    def test_reads_a_named_file(self):
        self.check(tool("ringctl", path("examples", "bus-breaker-open.faults")), 0, RUN)
        self.check(tool("ringctl", path("examples", "bus-breaker-open.txt")), 0, RUN)
        self.check(tool("ringctl", "-", data=FILE), 0, RUN)

    def test_refused_is_status_1(self):
        for data, number in ((b"\3", 1), (b"\3\0", 1), (b"\2\0\0", 2), (b"\3\1\x10", 3), (b"\3\1\0", 4), (b"\3\1\0\3\1", 5),
                             (b"\3\1\0\x40\1", 6), (b"\3\1\0\0\2", 6)):
            self.check(tool("ringctl", data=data), 1, b"refused %d\n" % number)

    def test_what_is_no_readable_line_goes_to_the_controller(self):
        self.check(tool("ringctl", data=b"ring"), 1, b"refused 2\n", "looks like text")
        self.check(tool("ringctl", data=b"Ring 3\n"), 1, b"refused 2\n", "looks like text")
        self.check(tool("ringctl", data=b"\nring 3\n"), 1, b"refused 3\n", "looks like text")

    def test_the_longest_file_and_longer_ones(self):
        for more, number in ((0, 0), (1, 4), (2, 4), (100000, 4)):
            answer = tool("ringctl", data=bytes([3, 0, 16]) + b"\x40" * 4096 + b"\0" * (4096 + more))
            self.check(answer, int(number > 0))
            self.assertTrue(answer.out.startswith(b"refused %d\n" % number if number else b"ring 3 reports 4096\n"))

    def test_an_endless_input_ends(self):
        with open("/dev/zero", "rb") as zeros:
            self.check(tool("ringctl", stdin=zeros), 1, b"refused 2\n")

    def test_changes(self):
        answer = tool("ringctl", "--changes", data=b"ring 3\nBB2 stuck open\nBB2 stuck open\nG1 stuck off\n")
        self.check(answer, 0, RUN[:RUN.index(b"1 B1")].replace(b"reports 1", b"reports 3") + b"1 B3=G1h / BB2- / BB3+\n2 - / - / -\n"
                   b"3 B1=G2h B3=G2l / G1- GB1- / BB1+\n")
        self.check(tool("ringctl", "--changes", data=b"\3"), 1, b"refused 1\n")
        self.check(tool("ringctl", "--changes", data=b"ring 4"), 0, tool("ringctl", data=b"ring 4").out)

    def test_changes_of_every_example_add_up_to_the_run(self):
        for name in sorted(os.listdir(path("examples"))):
            if name.endswith(".run") and not read("examples", name).startswith(b"refused"):
                with self.subTest(name):
                    shown = tool("ringctl", "--changes", path("examples", name[:-4] + ".txt")).out
                    self.assertEqual(added_up(shown), read("examples", name))

    def test_what_cannot_be_read(self):
        self.check(tool("ringctl", path("examples")), 2, b"", "cannot be read: Is a directory")
        self.check(tool("ringctl", "no-such-file"), 2, b"", "no-such-file cannot be read: No such file")
        self.check(run(["sh", "-c", path("bin", "ringctl") + " <&-"]), 2, b"", "standard input cannot be read")
        self.check(tool("ringctl", data=b"ring 3\nBB2 stuck\n"), 2, b"", "^ringctl: line 2: BB2 stuck: the word is none of: fit")

    def test_a_directory_as_standard_input(self):
        folder = os.open(path("examples"), os.O_RDONLY)
        try:
            self.check(tool("ringctl", stdin=folder), 2, b"", "standard input cannot be read: Is a directory")
        finally:
            os.close(folder)

    def test_what_cannot_be_written(self):
        with open("/dev/full", "wb") as full:
            self.check(tool("ringctl", data=FILE, stdout=full), 2, None, "standard output cannot be written: No space left")
            self.check(tool("ringctl", "--help", stdout=full), 2, None, "standard output cannot be written")
        file = path("examples", "bus-breaker-open.faults")
        self.check(run(["sh", "-c", "%s %s >&-" % (path("bin", "ringctl"), file)]), 2, b"", "standard output cannot be written")
        reader, writer = os.pipe()
        os.close(reader)
        self.check(tool("ringctl", data=FILE, stdout=writer), 2, None, "standard output cannot be written: Broken pipe")
        os.close(writer)

    def test_all_three_closed(self):
        self.assertEqual(run(["sh", "-c", path("bin", "ringctl") + " <&- >&- 2>&-"]).status, 2)

    def test_words_that_are_wrong(self):
        self.check(tool("ringctl", "one", "two"), 2, b"", "one file at a time, not 2: one two")
        self.check(tool("ringctl", "--all"), 2, b"", "no such option: --all")

    def test_help(self):
        answer = tool("ringctl", "--help")
        self.check(answer, 0)
        self.assertIn(b"--changes", answer.out)

    def terminal(self):
        """Both ends of a terminal."""
        try:
            ends = pty.openpty()
        except OSError:
            self.skipTest("there are no terminals here")
        for end in ends:
            self.addCleanup(os.close, end)
        return ends

    def test_on_a_terminal_it_shows_its_use(self):
        _, theirs = self.terminal()
        self.check(tool("ringctl", stdin=theirs), 2, b"", r"^bin/ringctl \[--changes\] \[FILE\]")

    def test_the_end_of_a_terminal_is_asked_for_once(self):
        ours, theirs = self.terminal()
        os.write(ours, LINES + b"\x04")
        self.check(tool("ringctl", "-", stdin=theirs), 0, RUN)

    def test_through_a_link_and_with_cdpath(self):
        with tempfile.TemporaryDirectory() as folder:
            link = os.path.join(folder, "rc")
            os.symlink(path("bin", "ringctl"), link)
            self.check(run(["./rc"], FILE, cwd=folder, env={**os.environ, "CDPATH": "/tmp:" + path("examples")}), 0, RUN)
            self.check(run(["bin/ringctl"], FILE, cwd=path(), env={**os.environ, "CDPATH": "/tmp:.."}), 0, RUN)

    def test_a_name_with_spaces(self):
        with tempfile.TemporaryDirectory() as folder:
            name = os.path.join(folder, "my faults; $x")
            with open(name, "wb") as out:
                out.write(FILE)
            self.check(tool("ringctl", name), 0, RUN)


def added_up(shown):
    """The whole run of one that shows changes alone."""
    lines, buses = shown.decode().splitlines(), {}
    whole = lines[:1]
    for line in lines[1:]:
        front, waves = line.split(" / ", 1)
        number, *changed = front.split(" ")
        buses.update(bus.split("=") for bus in changed if bus != "-")
        whole.append("%s %s / %s" % (number, " ".join("%s=%s" % bus for bus in buses.items()), waves))
    return ("\n".join(whole) + "\n").encode()


if __name__ == "__main__":
    unittest.main()
