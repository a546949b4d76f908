"""Holds the refusals' numbers, names and words in the header, the Rust wrapper, the tools and the definition to each other.

At the repository's root: python3 -m unittest discover -s tests/steps
"""

import re
import unittest

import trying

import steps

HEADER = trying.ROOT / "include/rushhopper.h"
WRAPPER = trying.ROOT / "bindings/rust/src/refusal.rs"
# `refusal_number`, by which every contract has its numbers; the code's are proved to be these
DEFINITION = trying.ROOT / "crates/model/specs/Answers.antt"

# what the header has beside the documents' refusals
ACCEPTED = "accepted"
NOT_THE_DOCUMENTS = {"Accepted": 0, "OtherLayout": 255}


def between(path, start, end):
    """What stands between two texts of a file, the first time."""
    text = path.read_text(encoding="utf-8")
    return text.split(start, 1)[1].split(end, 1)[0]


def items(listed, pattern):
    """What a list has, comments left out: of each item the groups of the pattern, which must match all of it."""
    plain = re.sub(r"/\*.*?\*/|//[^\n]*", "", listed, flags=re.DOTALL)
    if not re.fullmatch(rf"\s*({pattern}(,\s*|\s*$))*", plain):
        raise ValueError(f"not a list of {pattern}: {plain}")
    return [match.groups() for match in re.finditer(pattern, plain)]


def camel(name):
    """A name of the header as the other languages write it: NOT_SENT is NotSent."""
    return "".join(part.capitalize() for part in name.split("_"))


def numbered(pairs):
    return {name: int(number) for name, number in pairs}


def header_numbers():
    listed = between(HEADER, "enum rushhopper_refusal {", "};")
    return {camel(name): number for name, number in numbered(items(listed, r"RUSHHOPPER_(\w+) = (\d+)")).items()}


def header_words():
    """By their places, which are the numbers."""
    listed = between(HEADER, "static const char *const words[] = {", "};")
    return [word for (word,) in items(listed, r'"([^"]*)"')]


def wrapper_numbers():
    return numbered(items(between(WRAPPER, "pub enum Refusal {", "}"), r"(\w+) = (\d+)"))


def wrapper_words():
    """By name."""
    listed = between(WRAPPER, "const WORDS: [(Refusal, &str); ", "];").split("= [", 1)[1]
    return items(listed, r'\(Refusal::(\w+), "([^"]*)"\)')


def defined_numbers():
    return numbered(re.findall(r"^refusal_number (\w+) = (\d+)$", DEFINITION.read_text(encoding="utf-8"), re.MULTILINE))


class Refusals(unittest.TestCase):
    def test_numbers_are_those_of_the_definition(self):
        defined = defined_numbers()
        self.assertEqual(sorted(defined.values()), list(range(1, len(defined) + 1)))
        self.assertEqual(wrapper_numbers(), defined)
        self.assertEqual(header_numbers(), defined | NOT_THE_DOCUMENTS)

    def test_words_are_the_same(self):
        words = {number: word for number, (word, _) in steps.REFUSALS.items()}
        self.assertEqual(sorted(words), sorted(defined_numbers().values()))
        self.assertEqual(dict(enumerate(header_words())), {0: ACCEPTED} | words)
        numbers = wrapper_numbers()
        self.assertEqual([(numbers[name], word) for name, word in wrapper_words()], sorted(words.items()))


if __name__ == "__main__":
    unittest.main()
