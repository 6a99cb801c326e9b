""".ci/run with a gate and tests that are stand-ins: what it prints last, and its status."""
import os
import shutil
import subprocess
import tempfile
import unittest

from support import path, run


class Gate(unittest.TestCase):

    def ended(self, gate, test="pass"):
        """The lines and the status, for a stand-in of `rt` and a test with this body."""
        with tempfile.TemporaryDirectory() as folder:
            for name in (".ci", "kit", "tests/tools"):
                os.makedirs(os.path.join(folder, name))
            shutil.copy(path(".ci", "run"), os.path.join(folder, ".ci"))
            rt = os.path.join(folder, "kit", "rt")
            with open(rt, "w") as out:
                out.write("#!/bin/sh\n" + gate)
            os.chmod(rt, 0o755)
            with open(os.path.join(folder, "tests", "tools", "test_some.py"), "w") as out:
                out.write("import unittest\nclass Some(unittest.TestCase):\n    def test_some(self):\n        %s\n" % test)
            words = {**os.environ, "PATH": os.path.join(folder, "kit") + ":" + os.environ["PATH"]}
            answer = run([os.path.join(folder, ".ci", "run")], cwd="/", env=words, stdin=subprocess.DEVNULL)
        self.assertEqual(answer.said, "")
        return answer.out.decode().splitlines(), answer.status

    def test_both_pass(self):
        lines, status = self.ended("echo one\necho two >&2\necho '9 passed, 0 failed'\n")
        self.assertEqual(status, 0)
        self.assertEqual(lines[:2], ["one", "two"])
        self.assertEqual(lines[-1], "9 passed, 0 failed")
        self.assertEqual(lines.count("9 passed, 0 failed"), 1)
        self.assertIn("OK", lines)

    def test_the_gate_fails(self):
        lines, status = self.ended("echo one\necho '8 passed, 1 failed'\nexit 1\n")
        self.assertEqual((lines, status), (["one", "8 passed, 1 failed"], 1))
        lines, status = self.ended("echo '8 passed, 0 failed'\nexit 3\n")
        self.assertEqual((lines[-1], status), ("rt ci failed with status 3", 3))

    def test_an_edit_is_bad(self):
        said = "rt: ok; handles allowed: none; must-fail edits: 5 refused%s; every proof was done in this run"
        lines, status = self.ended("echo '%s'\necho '9 passed, 0 failed'\n" % (said % ", 2 bad"))
        self.assertEqual((lines[-2:], status), (["9 passed, 0 failed", "must-fail edits are bad: " + said[4:] % ", 2 bad"], 1))
        lines, status = self.ended("echo '%s'\necho '9 passed, 0 failed'\n" % (said % ""))
        self.assertEqual((lines[-1], status), ("9 passed, 0 failed", 0))

    def test_the_tools_fail(self):
        lines, status = self.ended("echo '9 passed, 0 failed'\n", "self.fail()")
        self.assertEqual((lines[-2:], status), (["9 passed, 0 failed", "the tests of the tools failed"], 1))

    def test_a_gate_that_is_not_there(self):
        lines, status = self.ended("exit 127\n")
        self.assertEqual(status, 127)


if __name__ == "__main__":
    unittest.main()
