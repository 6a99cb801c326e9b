"""bin/ringview and its program: what feeds each bus after every stroke, and the page that shows it."""
import json
import os
import random
import re
import tempfile
import unittest

from support import ToolCase, make_vectors, program, read, sim, stored_runs, tool


def story(page):
    return json.loads(re.search(r'<script type="application/json" id="story">(.*?)</script>', page.decode(), re.S).group(1))


class Ringtrace(ToolCase):

    def test_by_the_simulation(self):
        rng = random.Random(17)
        files = [data for data, _ in stored_runs()][:400:4] + list(make_vectors.locked_generators())[::3]
        files += list(make_vectors.outward_files()) + [sim.fault_file(rng) for _ in range(60)]
        for data in files:
            self.assertEqual(program("ringtrace", data).out.decode(), make_vectors.trace_text(data), data)

    def test_full_output(self):
        with open("/dev/full", "wb") as full:
            self.assertEqual(program("ringtrace", b"\3\0\0", stdout=full).said, "ringtrace: standard output cannot be written\n")


class Ringview(ToolCase):

    def page(self, lines):
        answer = tool("ringview", data=lines)
        self.check(answer, 0)
        return answer.out

    def test_the_story(self):
        told = story(self.page(b"ring 3\nBB1 stuck closed\n"))
        self.assertEqual(told["size"], 3)
        self.assertEqual([call["report"] for call in told["calls"]], ["", "BB1 stuck closed"])
        self.assertEqual(told["calls"][1], {
            "report": "BB1 stuck closed", "line": "1 B1=G1o B2=G1h B3=G1h / G2- GB2- BB2- / BB1+ BB3+",
            "strokes": ["G2-", "GB2-", "BB2-", "BB1+", "BB3+"],
            "feeds": ["G1!G2 G1!G2 G1!G2", "G1 G1 G1", "G1 G1 G1", "G1 G1 -", "G1 G1 -", "G1 G1 G1"]})

    def test_current_advances(self):
        """In the example of that name a dark ring is lit a bus a stroke, from G3 outward: B3, B2, B1, and past B1 to B5 and B4."""
        lit = story(self.page(read("examples", "current-advances.txt")))["calls"][7]
        self.assertEqual(lit["strokes"], ["G3+", "GB3+", "BB2+", "BB1+", "BB5+", "BB4+"])
        self.assertEqual(lit["feeds"], ["- - - - -", "- - - - -", "- - G3 - -", "- G3 G3 - -", "G3 G3 G3 - -", "G3 G3 G3 - G3",
                                        "G3 G3 G3 G3 G3"])

    def test_locks(self):
        """G1 stops feeding with the word, before the first stroke; when it is replaced nothing changes, and unlocked it starts."""
        told = story(self.page(b"ring 3\nG1 locked\nG1 stuck off\nG1 fit\nG1 unlocked\n"))
        self.assertEqual([call["report"] for call in told["calls"]], ["", "G1 locked", "G1 stuck off", "G1 fit", "G1 unlocked"])
        self.assertEqual(told["calls"][1], {
            "report": "G1 locked", "line": "1 B1=G2h B2=G2o B3=G2h / G1- GB1- / BB1+", "strokes": ["G1-", "GB1-", "BB1+"],
            "feeds": ["- G2 G2", "- G2 G2", "- G2 G2", "G2 G2 G2"]})
        for call in told["calls"][2:4]:
            self.assertEqual((call["strokes"], call["feeds"]), ([], ["G2 G2 G2"]))
        self.assertEqual((told["calls"][4]["strokes"], told["calls"][4]["feeds"]),
                         (["BB1-", "G1+", "GB1+"], ["G2 G2 G2", "- G2 G2", "- G2 G2", "G1 G2 G2"]))

    def test_the_page_says_that_a_generator_is_locked(self):
        """In words and by a padlock, which its key explains; what it shows is seen in tests/browser."""
        page = self.page(b"ring 3\nG1 locked\n").decode()
        self.assertIn('"locked" : ""', page)
        self.assertRegex(page, r'class="padlock".*locked out for service: does not start')

    def test_no_network(self):
        page = self.page(b"ring 20\n").decode()
        self.assertEqual(set(re.findall(r"https?://[^\"' ]*", page)), {"http://www.w3.org/2000/svg"})
        self.assertNotRegex(page, r"<link|@import|src=")

    def test_a_name_is_only_text(self):
        with tempfile.TemporaryDirectory() as folder:
            name = os.path.join(folder, "<script>x<!-- & \".txt")
            with open(name, "w") as out:
                out.write("ring 3\n")
            answer = tool("ringview", name)
        self.check(answer, 0)
        self.assertNotIn(b"<script>x", answer.out)
        self.assertIn(b"&lt;script&gt;x", answer.out)

    def test_refused(self):
        self.check(tool("ringview", data=b"ring 3\nG1 stuck open\n"), 1, b"", "refused 6; bin/faultfile check says why")
        self.check(tool("ringview", data=b"ring 3\nGB1 locked\n"), 1, b"", "refused 6; bin/faultfile check says why")
        self.check(tool("ringview", data=b"ring 3\nG9 fit\n"), 2, b"", "line 2: G9 fit")

    def test_longest(self):
        rng = random.Random(18)
        data = make_vectors.fault_file(20, [sim.good_pair(rng, 20, mood=3) for _ in range(4096)])
        self.assertEqual(len(story(self.page(data))["calls"]), 4097)

    def test_full_output(self):
        with open("/dev/full", "wb") as full:
            self.check(tool("ringview", data=b"ring 3\n", stdout=full), 2, None, "standard output cannot be written")


if __name__ == "__main__":
    unittest.main()
