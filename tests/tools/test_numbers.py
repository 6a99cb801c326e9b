"""Refusal 7 is given to no input (document 02, Note 3): the theorem that says so names every call that finds a refusal."""
import glob
import os
import re
import unittest

from support import path, read

STATEMENT = read("crates", "theory", "specs", "Statements", "Numbers.antt").decode()
THEOREMS = read("crates", "theory", "proofs", "Theorems", "Numbers.antt").decode()
NAME = re.compile(r"\w+::\w+")
RESULT = re.compile(r"Result<.*, Refusal>")
HANDED = {"rings::refused", "rings::refused_by", "reckoning::with_load"}     # these answer the number or the refusal that they are handed


def sources():
    """The text of each crate's code."""
    for file in sorted(glob.glob(path("crates", "*", "src", "*.rt"))):
        with open(file, encoding="utf-8") as source:
            yield file[len(path("crates")) + 1:].split(os.sep)[0], source.read()


def answer_types():
    """The types that can hold a refusal: a result whose error is one, or a declared type that holds one of these."""
    bodies = {name: body for _, text in sources() for name, body in re.findall(r"pub (?:enum|struct) (\w+) \{(.*?)^\}", text, re.S | re.M)}
    types = {name for name, body in bodies.items() if RESULT.search(body)} | {answer for _, answer, _ in calls() if RESULT.fullmatch(answer)}
    while True:
        more = {name for name, body in bodies.items() if any(re.search(r"\b%s\b" % kind, body) for kind in types)} - types
        if not more:
            return types
        types |= more


def calls():
    """The public calls, with the type of their answers and what their contracts promise of these: the definitions named first."""
    for crate, text in sources():
        for name, _, answer, contract in re.findall(r"^pub fn (\w+)\(([^)]*)\)\s*->\s*([\w\[\]; <>,()]+?)\n(.*?)^\{", text, re.S | re.M):
            promised = re.search(r"ensures(?: answer)? \{(.*?) \}$", contract, re.S | re.M)
            yield "%s::%s" % (crate, name), answer.strip(), re.findall(r"\b[a-z]+_\w+", promised.group(1))[:2] if promised else []


def groups():
    """The fields of the statement, each with the calls that the comment above it names."""
    for comment, fields in re.findall(r"^  -- (.*)\n((?:  pub .*\n(?:      .*\n)*)+)", STATEMENT, re.M):
        yield NAME.findall(comment), dict(re.findall(r"^  pub (\w+) : (.*(?:\n      .*)*)", fields, re.M))


class Named(unittest.TestCase):

    def test_the_answers_that_hold_refusals(self):
        self.assertLessEqual({"Result<(), Refusal>", "RingAnswer", "StateAnswer", "BookingAnswer", "Result<FileHead, Refusal>", "CutSetsAnswer",
                              "Result<Part, Refusal>", "Result<Word, Refusal>", "LatestAnswer", "ExposureAnswer"}, answer_types())

    def test_every_call_that_finds_a_refusal_has_its_field(self):
        """It is named above a field of its name, of an inner call with `inner_` before it, and with `_lem` behind it where a definition has
        the name; the field speaks of the definition that the call's contract equates the answer with."""
        types, seen = answer_types(), []
        for call, answer, promised in calls():
            if answer not in types or call in HANDED:
                continue
            own = call.split("::")[1]
            fields = [text for names, fields in groups() if call in names for name, text in fields.items()
                      if name.removesuffix("_lem") in (own, "inner_" + own)]
            self.assertEqual(len(fields), 1, call)
            self.assertTrue(promised, call)
            for definition in promised:
                self.assertRegex(fields[0], r"\b%s\b" % definition, call)
            seen.append(call)
        self.assertGreaterEqual(len(seen), 19)

    def test_every_name_is_a_call(self):
        self.assertEqual(set(NAME.findall(STATEMENT)) - {call for call, _, _ in calls()}, set())

    def test_every_field_is_tested(self):
        """`never_seven` has every field, and for every field another number is shown to be given."""
        self.assertIn("\npub never_seven : NeverGiven 7\n", THEOREMS)
        self.assertEqual(set(re.findall(r"λ never\. never\.(\w+)", THEOREMS)), {name for _, fields in groups() for name in fields})

    def test_every_number_of_a_condition_is_given(self):
        """`others_given` has each number that a condition of the definitions has, once: the paper's table but 7."""
        claimed = re.search(r"^pub others_given : (.*?)^unfolding", THEOREMS, re.S | re.M).group(1)
        numbers = [int(number) for number in re.findall(r"NeverGiven (\d+)", claimed)]
        definitions = "".join(read("crates", "model", "specs", name).decode() for name in os.listdir(path("crates", "model", "specs"))
                              if name.endswith(".antt"))
        conditions = {int(number) for number in re.findall(r"\((\d+), [a-z]\w*", definitions)} - {0}
        self.assertEqual(numbers, sorted(conditions))
        self.assertEqual(numbers, [number for number in range(1, 17) if number != 7])


if __name__ == "__main__":
    unittest.main()
