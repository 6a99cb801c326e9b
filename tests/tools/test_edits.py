"""docs/EDITS.md is the page that tests/make_edits.py makes of the edits."""
import os
import subprocess
import sys
import unittest

ROOT = os.path.dirname(os.path.dirname(os.path.dirname(os.path.abspath(__file__))))


class Edits(unittest.TestCase):

    def test_the_page_is_current(self):
        run = subprocess.run([sys.executable, os.path.join(ROOT, "tests", "make_edits.py"), "--check"],
                             stdout=subprocess.PIPE, stderr=subprocess.STDOUT)
        self.assertEqual((run.returncode, run.stdout.decode()), (0, ""))


if __name__ == "__main__":
    unittest.main()
