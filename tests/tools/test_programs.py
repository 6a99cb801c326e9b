"""The built programs themselves, beside the simulation: stored runs and others."""
import os
import subprocess
import sys
import tempfile
import time
import unittest

from support import LAYOUTS, make_vectors, path, program, read, run, stored_cases, stored_runs, tool


class Programs(unittest.TestCase):

    def test_every_stored_run(self):
        """What the program prints is read in its source; here every stored run holds it to its bytes."""
        count = 0
        for data, text in stored_runs():
            answer = program("ringctl", data)
            self.assertEqual((answer.out, answer.said, answer.status), (text, "", 0), data)
            count += 1
        self.assertEqual(read("crates", "vectors", "stdout"), b"%d cases, 0 differ\n" % count)

    def test_input_in_portions(self):
        """A file may come in any number of reads: here in two, one byte and the rest."""
        data, text = max(stored_runs(), key=lambda run: len(run[1]))
        running = subprocess.Popen([path("crates", "ringctl", "out", "ringctl")], stdin=subprocess.PIPE, stdout=subprocess.PIPE)
        running.stdin.write(data[:1])
        running.stdin.flush()
        time.sleep(0.2)
        self.assertEqual(running.communicate(data[1:])[0], text)

    def test_the_program_says_what_it_cannot_do(self):
        with open("/dev/full", "wb") as full:
            for data in (b"\3\0\0", b"", b"\3", bytes([20, 0, 16]) + b"\x40" * 4096 + b"\2" * 4096):
                self.assertEqual(program("ringctl", data, stdout=full).said, "ringctl: standard output cannot be written\n")
        folder = os.open(path("examples"), os.O_RDONLY)
        self.addCleanup(os.close, folder)
        answer = program("ringctl", stdin=folder)
        self.assertEqual((answer.out, answer.said), (b"", "ringctl: standard input cannot be read\n"))

    def test_stored_runs_by_the_command(self):
        for data, text in list(stored_runs())[::15]:
            answer = tool("ringctl", data=data)
            self.assertEqual((answer.out, answer.status), (text, int(text.startswith(b"refused"))), data)

    def test_stored_cases_are_the_simulations(self):
        for name, data in make_vectors.stored_files():
            self.assertEqual(read("crates", name), data, name)

    def test_other_cases(self):
        with tempfile.TemporaryDirectory() as folder:
            made = run([sys.executable, "-B", path("tests", "make_vectors.py"), "--seed", "14", "--out", folder])
            self.assertEqual(made.status, 0, made.said)
            for name in ("vectors", "vectors_plant", "vectors_step", "vectors_cuts", "vectors_scan", "vectors_book", "vectors_exposure"):
                if os.access(path("crates", name, "out", name), os.X_OK):
                    with self.subTest(name):
                        answer = program(name, cwd=os.path.join(folder, name))
                        self.assertRegex(answer.out.decode(), "^[0-9]+ cases, 0 differ\n$")
                        self.assertNotEqual(read(folder, name, "cases"), read("crates", name, "data", "cases"))

    def tally(self, name, cases):
        """What a program of stored cases prints for these."""
        with tempfile.TemporaryDirectory() as folder:
            make_vectors.write(os.path.join(folder, "cases"), b"".join(cases))
            return program(name, cwd=folder).out

    def test_every_expected_byte_is_compared(self):
        """Some stored cases, and each of them again with one byte of what is expected changed, a byte at a time."""
        for name, (_, expected, _) in LAYOUTS.items():
            with self.subTest(name):
                some = list(stored_cases(name))[::40]
                changed = [case[:at] + bytes([case[at] ^ 1]) + case[at + 1:] for case in some for at in range(expected, len(case))]
                self.assertEqual(self.tally(name, some), b"%d cases, 0 differ\n" % len(some))
                self.assertEqual(self.tally(name, changed), b"%d cases, %d differ\n" % (len(changed), len(changed)))

    def test_a_case_that_breaks_off_differs(self):
        """In its buffer; a case without its first bytes is none."""
        for name, (size, _, _) in LAYOUTS.items():
            case = next((case for case in stored_cases(name) if len(case) > size), None)
            if case:
                self.assertEqual(self.tally(name, [case, case[:-1]]), b"2 cases, 1 differ\n", name)
            self.assertEqual(self.tally(name, [(case or next(stored_cases(name)))[:size - 1]]), b"0 cases, 0 differ\n", name)

    def test_seed_and_folder_go_together(self):
        answer = run([sys.executable, "-B", path("tests", "make_vectors.py"), "--seed", "14"])
        self.assertEqual(answer.status, 2)


if __name__ == "__main__":
    unittest.main()
