"""tests/print_table.py prints the table of source priorities that stands in the source, as the simulation has it."""
import os
import sys
import tempfile
import unittest

from support import path, read, ringsim, run, sim

SCRIPT = path("tests", "print_table.py")
SOURCE = read("crates", "sources", "src", "lib.rt").decode()
SIZES = range(3, 21)


def printed(*words, **options):
    return run([sys.executable, "-B", SCRIPT, *words], **options)


def sheet(n):
    """The page of a size, by the simulation."""
    rows = "".join("B%d %s\n" % (bus, " ".join("G%d" % g for g in sim.sources(n, bus))) for bus in range(1, n + 1))
    return "Sources of a ring of %d, first to last\n\n%s" % (n, rows)


def words_of(text):
    """The lines of a text, each as its words."""
    return [line.split() for line in text.split("\n")]


class Table(unittest.TestCase):

    def test_every_page(self):
        answer = printed()
        self.assertEqual((answer.status, answer.said), (0, ""))
        pages = answer.out.decode().split("\f")
        self.assertEqual(len(pages), len(SIZES))
        for n, page in zip(SIZES, pages):
            self.assertEqual(words_of(page), words_of(sheet(n)), n)

    def test_the_entries_are_the_simulation_s_table(self):
        names = [word for line in words_of(printed().out.decode().replace("\f", "\n")) if line and line[0][0] == "B" for word in line[1:]]
        self.assertEqual([int(name[1:]) for name in names], ringsim.RANK_TABLE)
        self.assertEqual(len(names), 2865)

    def test_a_page_as_document_01_has_it(self):
        """"B1 tries G1, G2, .. Gn. B2 tries G2, G1, G3, .. Gn. Bk with k from 3 tries G2, G1, then the others upward without Gk, and Gk
        last.\""""
        answer = printed("5")
        self.assertEqual(answer.out.decode(), """Sources of a ring of 5, first to last

B1   G1  G2  G3  G4  G5
B2   G2  G1  G3  G4  G5
B3   G2  G1  G4  G5  G3
B4   G2  G1  G3  G5  G4
B5   G2  G1  G3  G4  G5
""")

    def test_sizes_in_the_order_asked(self):
        pages = printed("20", "3").out.decode().split("\f")
        self.assertEqual([words_of(page) for page in pages], [words_of(sheet(20)), words_of(sheet(3))])

    def test_no_such_size(self):
        for word in ("2", "21", "0", "x", "", "3.0", "\u0663"):
            answer = printed("3", word)
            self.assertEqual((answer.status, answer.out), (2, b""), word)
            self.assertIn("%r is no ring size: sizes are from 3 to 20" % word, answer.said)

    def test_standard_output_that_is_full(self):
        with open("/dev/full", "wb") as full:
            answer = printed(stdout=full)
        self.assertEqual((answer.status, answer.said), (1, "print_table.py: standard output: No space left on device\n"))


class FromTheSource(unittest.TestCase):
    """What is printed stands in the source that is read."""

    def setUp(self):
        self.folder = tempfile.TemporaryDirectory()
        self.addCleanup(self.folder.cleanup)

    def from_text(self, text, *words):
        name = os.path.join(self.folder.name, "lib.rt")
        with open(name, "wb") as file:
            file.write(text if isinstance(text, bytes) else text.encode())
        return name, printed("--source", name, *words)

    def test_another_entry_is_printed(self):
        _, answer = self.from_text(SOURCE.replace("2, 1, 4, 5, 3,", "2, 1, 4, 5, 4,"), "5")
        self.assertEqual(answer.status, 0)
        self.assertEqual(words_of(answer.out.decode()), words_of(sheet(5).replace("G4 G5 G3", "G4 G5 G4")))

    def test_a_source_without_a_table(self):
        row = "    2, 1, 4, 5, 3,\n"
        self.assertEqual(SOURCE.count(row), 1)
        start = SOURCE.index("const SOURCES")
        for text, said in (
                ("", "it has no constant SOURCES, or more than one"),
                (SOURCE + SOURCE, "it has no constant SOURCES, or more than one"),
                (SOURCE[:start] + "const SOURCES: [u8; 2865] = [\n    1,\n", "it has no constant SOURCES, or more than one"),
                (SOURCE.replace(row, "    2, 1, 4, 5,\n"), "SOURCES has 2864 entries, and its type says 2865"),
                (SOURCE.replace(row, row + row), "SOURCES has 2870 entries, and its type says 2865"),
                (SOURCE.replace("[u8; 2865] = [", "[u8; 2864] = ["), "SOURCES has 2865 entries, and its type says 2864"),
                ("const SOURCES: [u8; 3] = [\n1, 2, 3\n];\n", "SOURCES has 3 entries; the rows of the sizes from 3 to 20 are 2865"),
                (SOURCE.replace(row, "    2, 1, 4, FIVE, 3,\n"), "an entry of SOURCES is no number: 'FIVE'"),
                (SOURCE.replace(row, "    2, 1, 4,, 5, 3,\n"), "an entry of SOURCES is no number: ''"),
                (b"\xff", "'utf-8' codec can't decode byte 0xff in position 0: invalid start byte")):
            name, answer = self.from_text(text)
            self.assertEqual((answer.status, answer.out, answer.said), (1, b"", "print_table.py: %s: %s\n" % (name, said)))

    def test_a_source_that_cannot_be_read(self):
        missing = os.path.join(self.folder.name, "none")
        for name, said in ((missing, "No such file or directory"), (self.folder.name, "Is a directory")):
            answer = printed("--source", name)
            self.assertEqual((answer.status, answer.out, answer.said), (1, b"", "print_table.py: %s: %s\n" % (name, said)))


if __name__ == "__main__":
    unittest.main()
