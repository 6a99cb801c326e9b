"""The documents: their commands run, their runs are right, and the picture of the layers is that of the crates."""
import os
import re
import subprocess
import tempfile
import unittest

from support import faultlines, path, read, run, tool

KIT = {"check", "bytes"}


def text_of(*names):
    return read(*names).decode()


def commands(text):
    """The commands in a document's indented blocks: a line from `bin/` to two spaces."""
    return [re.split(r"  +", line.strip())[0] for line in text.splitlines() if line.startswith("    bin/")]


class Commands(unittest.TestCase):

    def check_commands(self, text):
        found = commands(text)
        self.assertGreater(len(found), 4)
        with tempfile.TemporaryDirectory() as folder:
            for name in ("bin", "examples"):
                os.symlink(path(name), os.path.join(folder, name))
            for command in found:
                with self.subTest(command):
                    answer = run(["sh", "-c", command], cwd=folder, stdin=subprocess.DEVNULL)
                    self.assertEqual(answer.said, "")
                    self.assertEqual(answer.status, int("refused" in command))

    def test_readme(self):
        self.check_commands(text_of("README.md"))

    def test_examples(self):
        self.check_commands(text_of("examples", "README.md"))

    def test_the_run_in_the_readme(self):
        shown = re.search(r"((?:    .*\n)+)", text_of("README.md").split("The run is\n")[1]).group(1)
        self.assertEqual(re.sub("^    ", "", shown, flags=re.M).encode(), tool("ringctl", path("examples", "bus-breaker-open.txt")).out)

    def test_the_sets_in_the_readme(self):
        shown = re.search(r"((?:    .*\n)+)", text_of("README.md").split("Of the first the answer is\n")[1]).group(1)
        answer = tool("ringcuts", "--bus", "B5", path("examples", "planning-desk.txt")).out
        self.assertEqual(re.sub("^    ", "", shown, flags=re.M).encode(), answer)
        self.assertIn(answer, read("examples", "planning-desk.cuts"))

    def test_the_chances_in_the_readme_the_examples_and_on_the_card(self):
        rates, lines = path("examples", "published-rates.rates"), text_of("examples", "planning-desk.chances").splitlines()
        answer = tool("ringchance", rates, path("examples", "planning-desk.txt")).out.decode()
        for document, said, some in (("README.md", "Its answer is\n", lines), ("examples/README.md", "Its lines of B4 and B5 are\n", lines[3:5])):
            shown = re.search(r"((?:    .*\n)+)", text_of(document).split(said)[1]).group(1)
            self.assertEqual(shown.splitlines(), ["    " + line for line in some])
        self.assertEqual(answer.splitlines(), lines)
        line = re.search(r"`(B3  sum .*?)` is B3 of a ring of three", text_of("docs", "CARD.md")).group(1)
        self.assertEqual(line, tool("ringchance", rates, data=b"ring 3\n").out.decode().splitlines()[2])

    def test_the_scan_in_the_readme(self):
        shown = re.search(r"((?:    .*\n)+)", text_of("README.md").split("Of the second the answer is\n")[1]).group(1)
        answer = tool("ringscan", "--together", path("examples", "cut-off.txt")).out
        self.assertEqual(re.sub("^    ", "", shown, flags=re.M).encode(), answer)

    def test_the_bookings_in_the_readme_and_the_examples(self):
        answer = tool("ringload", path("examples", "bookings.txt")).out
        self.assertEqual(answer, read("examples", "bookings.loads"))
        lines = answer.decode().splitlines()
        for document, said, first in (("README.md", "The first begins with\n", 0), ("examples/README.md", "after the four bookings are\n", 5)):
            shown = re.search(r"((?:    .*\n)+)", text_of(document).split(said)[1]).group(1)
            self.assertEqual(shown.splitlines(), ["    " + line for line in lines[first:first + 3]])

    def test_the_lines_of_a_scan_in_the_examples(self):
        shown = re.search(r"((?:    .*\n)+)", text_of("examples", "README.md").split("the last of the second are\n")[1]).group(1)
        file = path("examples", "generators-fail.txt")
        last = [tool(*words, file).out.splitlines(True)[-1] for words in (["ringctl"], ["ringscan", "--together"])]
        self.assertEqual(re.sub("^    ", "", shown, flags=re.M).encode(), b"".join(last))

    def check_changes(self, said, example, count):
        """The last lines of an example's run, with the buses that change."""
        shown = re.search(r"((?:    .*\n)+)", text_of("examples", "README.md").split(said)[1]).group(1)
        lines = [line.split(" / ") for line in text_of("examples", example + ".run").splitlines()]
        changes = []
        for (before, *_), (after, *waves) in zip(lines[-count - 1:], lines[-count:]):
            number, *buses = after.split(" ")
            changed = [bus for bus in buses if bus not in before.split(" ")] or ["-"]
            changes.append("    " + " / ".join([" ".join([number] + changed)] + waves) + "\n")
        self.assertEqual(shown, "".join(changes))

    def test_the_returns_in_the_examples(self):
        self.check_changes("The last four lines are\n", "generator-returns", 4)

    def test_the_service_visit_in_the_examples(self):
        self.check_changes("After the start its lines are\n", "service-visit", 6)

    def test_the_file_from_the_works(self):
        """README, the card and the examples say what it stands for; the examples have its lines, and the tables refuse one or two bytes."""
        file = path("examples", "from-the-works.faults")
        shown = re.search(r"((?:    .*\n)+)", text_of("examples", "README.md").split("in lines to go on with:\n")[1]).group(1)
        self.assertEqual(re.sub("^    ", "", shown, flags=re.M).encode(), tool("faultfile", "decode", file).out)
        self.assertEqual(tool("ringctl", file).out, tool("ringctl", data=b"ring 3\n").out)
        for text in (text_of("README.md"), text_of("docs", "CARD.md")):
            self.assertRegex(text, r"a file of no bytes\. It\s+stands for a ring of three without reports")
            self.assertRegex(text, r"(?m)^\| 1 \| the file has one or two bytes \|$")

    def test_the_words_on_the_card(self):
        """Each word has its number, and stands for the parts that take it; so has the row of refusal 6."""
        card = text_of("docs", "CARD.md")
        listed = re.search(r"\*\*Words\.\*\* (.*?)\.\n", card).group(1)
        self.assertEqual(re.findall(r"(\d) ([a-z ]+[a-z])", listed), [(str(number), word) for number, word in enumerate(faultlines.WORDS)])
        taken = {kind: {faultlines.WORDS.index(word) for word in words} for kind, words in faultlines.WORDS_OF_KIND.items()}
        wrong = re.search(r"\(above (\d)\), .*: (\d) or (\d) for a generator, (\d), (\d) or (\d) for a breaker \|", card).groups()
        every = set(range(int(wrong[0]) + 1))
        self.assertEqual(len(every), len(faultlines.WORDS))
        self.assertEqual((every - set(map(int, wrong[1:3])), every - set(map(int, wrong[3:]))), (taken["G"], taken["GB"]))

    def test_the_lamps_in_the_examples_and_on_the_card(self):
        text, run = text_of("examples", "README.md"), text_of("examples", "current-advances.run")
        shown = re.search(r"((?:    .*\n)+)", text.split("Its lines 7 and 10 are\n")[1]).group(1)
        self.assertEqual(shown, "".join("    %s\n" % run.splitlines()[1 + number] for number in (7, 10)))
        self.assertIn(" / %s\n" % re.search(r"the wave `(.*?)` of `one-cycle`", text).group(1), text_of("examples", "one-cycle.scans"))
        choice, wave = re.search(r"In a dark ring of five `(.*?)` begins\s+the second wave with `(.*?)`", text_of("docs", "CARD.md")).groups()
        self.assertRegex(run, r"(?m)^7 %s .* / - / %s " % (choice, re.escape(wave)))

    def test_the_sets_on_the_card(self):
        count, parts = re.search(r"`(B3 \d+)` says that B3 has ten, and `(.*?)` is one", text_of("docs", "CARD.md")).groups()
        lines = tool("ringcuts", "--bus", "B3", data=b"ring 3\n").out.decode().splitlines()
        self.assertEqual(lines[0], count)
        self.assertIn(parts, lines)

    def test_the_line_on_the_card(self):
        line = re.search(r"\*\*The run\.\*\* `(.*?)`", text_of("docs", "CARD.md")).group(1)
        self.assertIn(line.encode() + b"\n", read("examples", "bus-breaker-open.run"))

    def test_card_and_readme_agree(self):
        """Both have the picture of the ring, and the refusals from 1 to 16; 7 is given to no input any more."""
        readme, card = text_of("README.md"), text_of("docs", "CARD.md")
        picture = re.search(r"((?:    .*\n)+)", card).group(1)
        self.assertIn(picture, readme)
        for text in (readme, card):
            self.assertEqual(re.findall(r"^\| (\d+) \|", text, re.M), [str(k) for k in range(1, 17)])
            self.assertRegex(text, r"(?m)^\| 7 \| given to no input any more: it once meant ")

    def test_links_lead_somewhere(self):
        for name in ("README.md", "docs/CARD.md", "examples/README.md", "examples/exercises.md"):
            for target in re.findall(r"`?\b((?:docs|examples|tests|bench|bin|crates)/[\w./-]+\w)", text_of(name)):
                if "NAME" not in target and "CRATE" not in target:
                    self.assertTrue(os.path.exists(path(target)), "%s: %s" % (name, target))

    def test_the_kit(self):
        try:
            version = run(["rt", "version"], stdin=subprocess.DEVNULL).out.decode().strip()
        except OSError:
            self.skipTest("the kit is not on the path")
        self.assertIn("`%s`" % version, " ".join(text_of("README.md").split()))


class Layers(unittest.TestCase):
    """README's picture: a row a layer, its name, two spaces or more, and its crates; a crate uses only crates of the rows below."""

    def listed(self):
        lines = (line.split("#")[0].partition(":") for line in text_of("crates.txt").splitlines())
        return {crate.strip(): names.split() for crate, colon, names in lines if colon}

    def rows(self):
        block = re.search(r"((?:    .*\n)+)", text_of("README.md").split("## What is here\n")[1]).group(1)
        return [re.split(r"  +", row.strip(), maxsplit=1)[1].split() for row in block.splitlines()]

    def used(self, crate, names):
        """The crates that the sources of a crate name."""
        found = set()
        for folder, _, files in os.walk(path("crates", crate)):
            for file in files:
                if file.endswith((".rt", ".antt")) and "must-fail" not in folder:
                    text = re.sub(r"(//|--).*", "", text_of(os.path.join(folder, file)))
                    found |= set(re.findall(r"Rattle\.([a-z_0-9]+)", text))
                    found |= set(re.findall(r"\b([a-z_0-9]+)::", text)) if file.endswith(".rt") else set()
        return (found & (names | KIT)) - {crate}

    def test_every_crate_stands_in_one_row(self):
        self.assertEqual(sorted(sum(self.rows(), [])), sorted(self.listed()))
        self.assertEqual(sorted(os.listdir(path("crates"))), sorted(self.listed()))

    def test_a_crate_uses_rows_below_it(self):
        level = {crate: -i for i, row in enumerate(self.rows()) for crate in row}
        for crate, names in self.listed().items():
            for name in names:
                if name not in KIT:
                    self.assertLess(level[name], level[crate], "%s uses %s" % (crate, name))

    def test_crates_are_listed_behind_those_they_use(self):
        order = list(self.listed())
        for crate, names in self.listed().items():
            for name in set(names) - KIT:
                self.assertLess(order.index(name), order.index(crate))

    def test_the_code_uses_what_is_listed(self):
        listed = self.listed()
        for crate, names in listed.items():
            self.assertEqual(self.used(crate, set(listed)), set(names), crate)

    def test_every_crate_is_described(self):
        for crate in self.listed():
            self.assertRegex(text_of("README.md"), r"\n\|[^|]*`%s`[^|]*\|" % crate)


if __name__ == "__main__":
    unittest.main()
