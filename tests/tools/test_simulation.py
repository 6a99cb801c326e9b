"""The simulation that every expected output comes from, by its own tests."""
import subprocess
import sys
import unittest

from support import path, run


class Simulation(unittest.TestCase):

    def test_the_simulation_by_its_own_tests(self):
        answer = run([sys.executable, "-B", path("tests", "simulation", "selftest.py"), "--quick"], stdin=subprocess.DEVNULL)
        self.assertEqual(answer.status, 0)
        self.assertRegex(answer.out.decode(), r"all told: [0-9]+ good, 0 bad\s*$")


if __name__ == "__main__":
    unittest.main()
