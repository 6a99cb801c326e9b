"""bench/run says what it lacks, and compares runs but for the order of their second waves."""
import os
import re
import shutil
import sys
import tempfile
import unittest

from support import ToolCase, faultlines, make_vectors, path, program, read, ringsim, run, sim


class Bench(ToolCase):

    def lacking(self, missing):
        """bench/run where the tools are there, but for one."""
        with tempfile.TemporaryDirectory() as folder:
            for name in {"bash", "dirname", "readlink", "mktemp", "rm", "python3", "rustc", "valgrind"} - {missing}:
                if shutil.which(name):
                    os.symlink(shutil.which(name), os.path.join(folder, name))
                else:
                    with open(os.path.join(folder, name), "w") as out:
                        out.write("#!/bin/sh\n")
                    os.chmod(os.path.join(folder, name), 0o755)
            return run([path("bench", "run")], env={"PATH": folder, "CDPATH": "/tmp"}, cwd="/")

    def test_says_what_is_missing(self):
        for name in ("rustc", "valgrind", "python3"):
            self.check(self.lacking(name), 2, b"", "^bench/run: %s is not on the path\n$" % name)


    def test_before_needs_a_checkout(self):
        for words in (["--before"], ["--before", ""], ["--before", "/nowhere"], ["--before", path("bench")], ["--before", path("README.md")]):
            self.check(run([path("bench", "run"), *words], cwd="/"), 2, b"", "^bench/run: --before needs the folder of a checkout\n$")


    def test_seeds_are_numbers(self):
        for words, wrong in ((["x"], "x"), (["5", "6a"], "6a"), (["--befor", "5"], "--befor"), (["-5"], "-5")):
            self.check(run([path("bench", "run"), *words], cwd="/"), 2, b"", "^bench/run: a seed is a number: %s\n$" % wrong)


class Cases(ToolCase):
    """What bench/run measures the reckoning on."""

    def case(self, n, orders):
        answer = run([sys.executable, "-B", path("bench", "make_case.py"), str(n), str(orders)])
        self.check(answer, 0)
        self.assertEqual(len(answer.out), 141)
        return answer.out

    def test_orders(self):
        for n in (3, 5, 8, 20):
            fit = ({code: 0 for code in ringsim.ALL_CODES}, ringsim.no_locks())
            started = sim.start(n, bytearray(122)).record.orders
            everything = {code: ringsim.part_of_code(code).number <= n for code in ringsim.ALL_CODES}
            for word, commands in (("off", {code: False for code in everything}), ("start", started), ("all", everything)):
                self.assertEqual(self.case(n, word), make_vectors.plant_bytes(n, *fit, commands))

    def test_drawn_orders_are_served(self):
        for n, seed in ((3, 5), (8, 6), (20, 5), (20, 6)):
            case = self.case(n, seed)
            self.assertNotIn(b"refused", program("ringplant", case).out)
            self.assertNotEqual(case, self.case(n, seed + 2))
            self.assertEqual(case, self.case(n, seed))


def sorted_seconds(text):
    """A run with each second wave by part code."""
    lines = []
    for line in text.decode().splitlines():
        *front, second = line.split(" / ")
        names = second.split(" ")
        if front and names != ["-"]:
            names.sort(key=lambda name: faultlines.part_code(name[:-1], faultlines.MOST))
        lines.append(" / ".join(front + [" ".join(names)]) + "\n")
    return "".join(lines).encode()


class Compared(ToolCase):
    """What bench/run compares of two runs."""

    def by_code(self, text):
        function = re.search(r"^by_code\(\) \{\n.*?^\}\n", read("bench", "run").decode(), re.S | re.M).group()
        answer = run(["bash", "-c", function + "by_code"], text)
        self.check(answer, 0)
        return answer.out

    def runs(self):
        """Runs of some of the files that are measured."""
        for words in ("3 0 5", "3 64 5", "8 64 6", "8 4096 5", "20 0 6", "20 64 5", "20 600 6"):
            data = run([sys.executable, "-B", path("bench", "make_file.py"), *words.split()]).out
            yield sim.printed_run(data)

    def test_second_waves_are_sorted(self):
        for text in self.runs():
            self.assertNotEqual(sorted_seconds(text), text)
            self.assertEqual(self.by_code(text), sorted_seconds(text))
            self.assertEqual(self.by_code(sorted_seconds(text)), sorted_seconds(text))

    def test_nothing_else_is_lost(self):
        """A choice, a first wave, a part more, a part less, one twice, another sign, a space, a line feed."""
        lines = (b"ring 3 reports 1", b"0 B1=G1o B2=G2o B3=G2h / - / G1+ GB1+ G2+ GB2+ BB2+", b"1 B1=G1o B2=G1h B3=G1h / G2- GB2- BB2- / BB1+ BB3+")
        text = b"\n".join(lines) + b"\n"
        for old, new in ((b"B3=G1h", b"B3=G1l"), (b"G2- GB2-", b"GB2- G2-"), (b" BB3+", b""), (b"BB3+", b"BB3+ GB3+"), (b"BB3+", b"BB3+ BB3+"),
                         (b"BB3+", b"BB3-"), (b"BB1+ BB3+", b"-"), (b" / BB1+", b" /  BB1+"), (b"G1+ ", b"G1+  "), (b"BB1+ ", b"BB1+ / "),
                         (b"reports 1", b"reports 2"), (b"\n1 ", b"\n\n1 "), (b"G2+", b"G3+")):
            self.assertIn(old, text)
            self.assertNotEqual(self.by_code(text.replace(old, new, 1)), self.by_code(text), new)
        for old, new in ((b"BB1+ BB3+", b"BB3+ BB1+"), (b"G1+ GB1+ G2+", b"G1+ G2+ GB1+")):
            self.assertEqual(self.by_code(text.replace(old, new)), self.by_code(text))


if __name__ == "__main__":
    unittest.main()
