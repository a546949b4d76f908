"""Tries tools/draw.py. At the repository's root: python3 -m unittest discover -s tests/steps"""

import itertools
import re
import unittest
import xml.etree.ElementTree as ElementTree
from collections import defaultdict
from functools import partial

import trying

import draw
import follow
import steps

EXAMPLES = trying.ROOT / "examples"
WORKED = EXAMPLES / "worked_session.txt"
SVG = "{http://www.w3.org/2000/svg}"
NUMBER = "(-?[0-9.]+)"

command = partial(trying.command, "draw.py")


class Drawn:
    """A picture, read again."""

    def __init__(self, svg):
        self.root = ElementTree.fromstring(svg)
        self.width, self.height = float(self.root.get("width")), float(self.root.get("height"))
        self.texts = [(node.text, float(node.get("x")), float(node.get("y")), node.get("class")) for node in self.root.findall(f"{SVG}text")]
        groups = [group for group in self.root.iter(f"{SVG}g") if group.find(f"{SVG}title") is not None]
        self.arrows = {self.title(group): group for group in groups if group.find(f"{SVG}path[@class='arrow']") is not None}
        self.marks = {self.title(group): group for group in groups if group.find(f"{SVG}path[@class='arrow']") is None}

    @staticmethod
    def title(node):
        return node.find(f"{SVG}title").text

    def words(self, style):
        return [words for words, _, _, styles in self.texts if style in styles.split()]

    def lanes(self):
        return {words: y for words, _, y, _ in self.texts if words.startswith("controller ")}

    def mark(self, step):
        """The group, place and label of a step's mark, by its number."""
        (group,) = [group for title, group in self.marks.items() if title.startswith(f"step {step},")]
        place = re.fullmatch(rf"translate\({NUMBER} {NUMBER}\)", group.find(f"{SVG}path").get("transform"))
        return group, (float(place[1]), float(place[2])), [text.text for text in group.findall(f"{SVG}text")]

    def arrow(self, step):
        (group,) = [group for title, group in self.arrows.items() if title.startswith(f"step {step},")]
        path = re.fullmatch(f"M{NUMBER} {NUMBER}L{NUMBER} {NUMBER}", group.find(f"{SVG}path").get("d"))
        x, y, to_x, to_y = map(float, path.groups())
        return group.get("class"), (x, y), (to_x, to_y)

    def ends(self):
        """Where each lane's line ends, by controller."""
        lines = [re.fullmatch(f"M{NUMBER} {NUMBER}H{NUMBER}", path.get("d")) for path in self.root.findall(f"{SVG}path")]
        rows = {float(line[2]) + 4: float(line[3]) for line in lines if line}
        return {int(lane.split()[1]): rows.get(y) for lane, y in self.lanes().items()}

    def bars(self):
        """Each bar's title and style."""
        shapes = itertools.chain(self.root.findall(f"{SVG}rect"), self.root.findall(f"{SVG}path"))
        return {self.title(shape): shape.get("class") for shape in shapes if "bar" in shape.get("class").split()}


def drawn(*arguments):
    status, svg, said = command(*arguments)
    assert status == 0, said
    return Drawn(svg)


def near(place, other):
    return all(abs(a - b) <= 4.1 for a, b in zip(place, other))


class OfTheWorkedSession(unittest.TestCase):
    @classmethod
    def setUpClass(cls):
        cls.drawn = drawn(WORKED, WORKED.with_suffix(".report"))

    def test_its_title_says_what_is_drawn(self):
        self.assertEqual(self.drawn.words("large"), ["worked_session.txt: all 22 steps; 3 controllers, 1 spare"])
        self.assertIn("3 refused, as worked_session.report says", self.drawn.words("faint"))
        title = "worked_session.txt: all 22 steps; 3 controllers, 1 spare; 3 refused, as worked_session.report says"
        self.assertEqual(self.drawn.root.find(f"{SVG}title").text, title)

    def test_each_controller_has_a_lane(self):
        self.assertEqual(list(self.drawn.lanes()), ["controller 0", "controller 1", "controller 2"])

    def test_each_record_has_a_mark_in_its_lane(self):
        self.assertEqual(len(self.drawn.marks), 22)
        for step, who in ((2, 0), (3, 1), (7, 2), (8, 0), (21, 1)):
            _, (_, y), _ = self.drawn.mark(step)
            self.assertEqual(y, self.drawn.lanes()[f"controller {who}"] - 4)

    def test_time_goes_to_the_right(self):
        places = [self.drawn.mark(step)[1][0] for step in range(1, 23)]
        self.assertEqual(places, sorted(set(places)))

    def test_a_hear_is_an_arrow_from_the_sending_to_the_hearing(self):
        self.assertEqual(len(self.drawn.arrows), 6)
        for hear, sent, sort, name in ((8, 6, "proposal", "P0"), (12, 11, "state", "S0.1"), (19, 13, "vote", "V0.1")):
            style, start, end = self.drawn.arrow(hear)
            self.assertEqual(style, sort)
            self.assertEqual(start, self.drawn.mark(sent)[1])
            self.assertTrue(near(end, self.drawn.mark(hear)[1]))
            self.assertEqual(self.drawn.mark(hear)[2], [name])

    def test_what_is_sent_stands_at_its_mark(self):
        self.assertEqual([self.drawn.mark(step)[2] for step in (5, 9, 13)], [["P0=5"], ["S0.1=1"], ["V0.1=1"]])

    def test_a_refused_step_has_its_colour_number_and_word(self):
        for step, label in ((18, "13 idle"), (20, "14 too few heard"), (22, "18 heard")):
            group, _, lines = self.drawn.mark(step)
            self.assertEqual((group.get("class"), lines), ("refused", [label]))
        self.assertEqual(sum(group.get("class") == "refused" for group in self.drawn.marks.values()), 3)

    def test_a_mark_tells_its_line_and_what_was_done(self):
        self.assertEqual(self.drawn.title(self.drawn.mark(17)[0]), "step 17, line 20: advance 0\ncloses slot 0: 5")
        refused = "refused, 14: too few heard (below quota; in find, no majority)"
        self.assertEqual(self.drawn.title(self.drawn.mark(20)[0]), f"step 20, line 24: advance 2\n{refused}")

    def test_a_closed_slot_is_a_bar_with_its_entry(self):
        self.assertEqual(self.drawn.mark(17)[2], ["slot 0: 5"])
        self.assertEqual(
            self.drawn.bars(),
            {
                "controller 0, slot 0 from step 5, closed at step 17: 5": "bar slot full",
                "controller 1, slot 0 from step 6, not closed": "bar slot dashed",
                "controller 2, slot 0 from step 7, not closed": "bar slot dashed",
            },
        )

    def test_a_crash_ends_the_lane(self):
        ends = self.drawn.ends()
        self.assertEqual(ends[1], self.drawn.mark(21)[1][0])
        self.assertEqual([ends[0], ends[2]], [self.drawn.width - draw.MARGIN] * 2)


class Colours(unittest.TestCase):
    def test_each_class_that_is_drawn_has_its_colour_on_both_papers(self):
        picture = drawn(EXAMPLES / "left_behind.txt")
        light, dark = picture.root.find(f"{SVG}style").text.split("@media (prefers-color-scheme: dark)")
        colours = [dict(re.findall(r"\.(\w+) { color: (#\w+) }", sheet)) for sheet in (light, dark)]
        styles = {style for node in picture.root.iter() for style in (node.get("class") or "").split()}
        for name in ("paper", "ink", "faint", "slot", "proposal", "state", "vote", "notice", "refused"):
            self.assertIn(name, styles)
            self.assertNotEqual(*(colour[name] for colour in colours))
        ruled = set(re.findall(r"\.(\w+)", light))
        # these stand for no style: the arrows of a small rack, and what is not filled
        self.assertEqual(styles - ruled, {"arrows", "empty"})


class OfOtherRuns(trying.InFolder):
    def text(self, text, *options, name="run.txt"):
        return drawn(*options, self.file(name, text.encode()))

    def test_without_a_report_the_rules_say_what_is_refused(self):
        picture = drawn(WORKED)
        self.assertIn("3 refused, by the rules; no report was given", picture.words("faint"))
        self.assertEqual(picture.marks.keys(), drawn(WORKED, WORKED.with_suffix(".report")).marks.keys())

    def test_a_step_file_is_drawn_as_its_text(self):
        _, data, _ = trying.command("steps.py", "pack", WORKED)
        picture = drawn(self.file("run.steps", data))
        self.assertEqual(picture.words("large"), ["run.steps: all 22 steps; 3 controllers, 1 spare"])
        self.assertEqual(picture.title(picture.mark(17)[0]), "step 17, advance 0\ncloses slot 0: 5")

    def test_empty_slots_and_those_closed_by_notice(self):
        picture = drawn(EXAMPLES / "left_behind.txt")
        bars = picture.bars()
        self.assertEqual(bars["controller 0, slot 1 from step 36, closed at step 48: empty"], "bar slot empty")
        self.assertEqual(bars["controller 2, slot 1 from step 51, closed at step 52: empty"], "bar slot empty")
        self.assertEqual(picture.arrow(51)[0], "notice")

    def test_a_run_on_shows_what_its_advances_sent(self):
        picture = self.text("opening 1 0 1 1 1 0\nsubmit 0 7\nbegin 0\nrun on 0\n")
        self.assertEqual(picture.mark(4)[2], ["S0.1=1", "V0.1=1", "slot 0: 7"])

    def test_a_long_run_on_shows_its_first_and_its_last(self):
        lines = [(name, "ink") for name in "abcdef"]
        self.assertEqual(draw.shortened(lines[:4]), lines[:4])
        self.assertEqual([words for words, _ in draw.shortened(lines)], ["a", "+ 3", "e", "f"])

    def test_the_find_round(self):
        self.assertEqual(drawn(EXAMPLES / "find_round.txt").mark(26)[2], ["find"])

    def test_what_belongs_to_no_controller_has_its_own_row(self):
        picture = self.text("begin 0\nopening 16 1 1 1 1 0\nopening 1 0 1 1 1 0\nbegin 7\n")
        row = picture.mark(3)[1][1]
        self.assertEqual([picture.mark(step)[1][1] for step in (1, 2, 4)], [row] * 3)
        labels = [["21 out of place"], ["1 bad plan"], ["opening"], ["4 no such bench"]]
        self.assertEqual([picture.mark(step)[2] for step in (1, 2, 3, 4)], labels)

    def test_what_is_no_record_is_drawn(self):
        picture = drawn(self.file("run.steps", bytes([0, 1, 0, 1, 1, 1, 0, 0, 0, 99])))
        self.assertEqual(picture.mark(2)[2], ["19 unknown kind"])

    def test_nothing_and_no_rack(self):
        self.assertEqual(self.text("").words("large"), ["run.txt: all 0 steps; no rack was opened"])
        self.assertEqual(self.text("begin 0\n").words("large"), ["run.txt: all 1 step; no rack was opened"])

    def test_names_are_written_as_text(self):
        picture = self.text("opening 1 0 1 1 1 0\n", name="a<b&c>\"é.txt")
        self.assertEqual(picture.words("large"), ["a<b&c>\"é.txt: all 1 step; 1 controller, 0 spare"])

    def test_standard_input(self):
        status, svg, _ = command("-", given=b"opening 1 0 1 1 1 0\n")
        self.assertEqual((status, Drawn(svg).words("large")), (0, ["standard input: all 1 step; 1 controller, 0 spare"]))
        _, svg, _ = command(WORKED, "-", given=WORKED.with_suffix(".report").read_bytes())
        self.assertIn("3 refused, as standard input says", Drawn(svg).words("faint"))


def exchange(n):
    """Fifteen, say, who all hear each other's proposals."""
    lines = [f"opening {n} 0 1 1 1 0", "submit 0 5", *(f"relay {who} 5" for who in range(1, n)), *(f"begin {who}" for who in range(n))]
    for who in range(n):
        lines += [f"hear {who} {sender} proposal 0" for sender in range(n) if sender != who] + [f"advance {who}"]
    return "\n".join(lines) + "\n"


class OfParts(trying.InFolder):
    def test_a_slot(self):
        picture = drawn("--slot", "1", EXAMPLES / "hand_over.txt")
        self.assertEqual(picture.words("large"), ["hand_over.txt: slot 1 (12 of 41 steps); 3 controllers, 1 spare"])
        self.assertTrue(all("proposal 0" not in title and " 0 1\n" not in title for title in picture.marks))
        self.assertEqual([title.split(",")[1][:7] for title in picture.bars()], [" slot 1"] * 2)
        self.assertIn("dark since step 9", picture.words("faint"))
        self.assertIsNone(picture.ends()[0])

    def test_a_crash_that_is_not_drawn(self):
        run = "opening 2 0 1 1 2 0\nsubmit 0 5\nrelay 1 5\nbegin 0\ncrash 1\nhear 0 1 vote 0 1\nadvance 0\n"
        text = self.file("run.txt", run.encode())
        self.assertEqual(drawn("--steps", "1-4", text).ends()[1], draw.LEAST_WIDTH - draw.MARGIN)
        self.assertIn("dark since step 5", drawn("--steps", "6-7", text).words("faint"))
        self.assertNotIn("dark since step 5", drawn(text).words("faint"))

    def test_an_opening_that_is_not_drawn(self):
        picture = drawn("--steps", "1-4", EXAMPLES / "wide_records.txt", EXAMPLES / "wide_records.report")
        self.assertEqual(picture.ends(), {0: None, 1: None, 2: None})

    def test_a_range(self):
        picture = drawn("--steps", "18-400", WORKED)
        self.assertEqual(picture.words("large"), ["worked_session.txt: steps 18 to 22 (5 of 22 steps); 3 controllers, 1 spare"])
        self.assertEqual(len(picture.marks), 5)
        # sent before: the arrow comes from the left edge
        self.assertLess(picture.arrow(19)[1][0], picture.mark(18)[1][0])
        # closed before, and not drawn; not closed, and drawn from the left edge
        self.assertEqual([title[:12] for title in picture.bars()], ["controller 1", "controller 2"])

    def test_a_range_that_ends_before_a_close(self):
        bars = drawn("--steps", "1-10", WORKED).bars()
        self.assertEqual(bars["controller 0, slot 0 from step 5, closed at step 17: 5"], "bar slot dashed")

    def test_a_controller(self):
        picture = drawn("--controller", "2", EXAMPLES / "find_round.txt")
        self.assertIn("controller 2 (", picture.words("large")[0])
        for title in picture.arrows:
            self.assertRegex(title, "hear 2 ")
        for hear in (10, 16, 31):
            _, start, _ = picture.arrow(hear)
            self.assertIn(start, [picture.mark(step)[1] for step in (5, 6, 11, 12)])
        # the others' closes, too
        self.assertEqual(picture.mark(24)[2], ["slot 0: 5"])

    def test_all_of_them_together(self):
        picture = drawn("--slot", "0", "--controller", "1", "--steps", "5-20", WORKED)
        self.assertEqual(picture.words("large"), ["worked_session.txt: slot 0, controller 1, steps 5 to 20 (8 of 22 steps); 3 controllers, 1 spare"])

    def test_a_part_without_steps(self):
        self.assertEqual(command("--slot", "9", WORKED), (1, b"", "nothing to draw: slot 9 (0 of 22 steps)\n"))
        self.assertEqual(command("--steps", "30-40", WORKED)[:2], (1, b""))
        self.assertEqual(command("--controller", "3", WORKED), (1, b"", "there is no controller 3, the rack has 3\n"))

    def test_parts_that_are_none(self):
        for words in (("--steps", "5"), ("--steps", "9-5"), ("--steps", "0-3"), ("--slot", "x"), ("--controller", "-1")):
            status, svg, _ = command(*words, WORKED)
            self.assertEqual((status, svg), (2, b""))

    def test_fifteen_controllers(self):
        text = self.file("run.txt", exchange(15).encode())
        picture = drawn(text)
        self.assertEqual(list(picture.lanes()), [f"controller {who}" for who in range(15)])
        self.assertEqual(len(picture.arrows), 15 * 14)
        # one label for what controller 0 hears in a row
        self.assertEqual([picture.mark(step)[2] for step in range(32, 46)], [["P0"]] + [[]] * 13)
        self.assertEqual(len(drawn("--controller", "7", text).arrows), 14)

    def test_a_wide_picture_has_its_names_again(self):
        picture = drawn(self.file("run.txt", exchange(15).encode()))
        places = sorted({x for words, x, _, _ in picture.texts if words == "controller 0"})
        self.assertEqual(places[0], draw.MARGIN)
        self.assertGreater(len(places), 1)
        for x, other in itertools.product(places, [picture.mark(step)[1][0] for step in range(1, 257)]):
            self.assertFalse(x <= other <= x + draw.NAMES - draw.MARGIN)
        self.assertEqual(len(picture.texts), len(set(picture.texts)))

    def test_many_steps_are_said(self):
        text = self.file("run.txt", ("opening 1 0 1 1 1 0\n" + "begin 0\n" * 400).encode())
        self.assertEqual(command(text)[2], "401 steps are drawn; --slot, --steps or --controller draws a part of them\n")
        self.assertEqual(command("--steps", "1-400", text)[2], "")


class Mistakes(trying.InFolder):
    def test_a_report_of_another_file(self):
        status, svg, said = command(WORKED, EXAMPLES / "hand_over.report")
        self.assertEqual((status, svg), (1, b""))
        expected = "the report is of another file: its line 2 is 'refused 10 5', where these steps give 'refused 18 13'\n"
        self.assertEqual(said, expected)

    def test_a_mistake_in_the_text(self):
        text = self.file("run.txt", b"opening 1 0 1 1 1 0\nbegn 0\n")
        self.assertEqual(command(text)[:2], (1, b""))

    def test_no_file(self):
        self.assertEqual(command(self.folder / "none.txt")[:2], (1, b""))

    def test_one_standard_input(self):
        self.assertEqual(command("-", "-"), (1, b"", "FILE and REPORT cannot both be standard input\n"))


class Layout(unittest.TestCase):
    """Of every example: nothing leaves the picture, and labels keep apart."""

    def check(self, picture):
        rows = defaultdict(list)
        for group in picture.marks.values():
            for text in group.findall(f"{SVG}text"):
                half = draw.LETTER * len(text.text) / 2
                rows[text.get("y")].append((float(text.get("x")) - half, float(text.get("x")) + half))
        for row in rows.values():
            row.sort()
            for (_, end), (start, _) in itertools.pairwise(row):
                self.assertLessEqual(end, start + 0.1)
            self.assertGreaterEqual(row[0][0], 0)
            self.assertLessEqual(row[-1][1], picture.width)
        self.assertTrue(all(0 < y < picture.height for _, _, y, _ in picture.texts))

    def test_examples(self):
        texts = sorted(EXAMPLES.glob("*.txt"))
        self.assertTrue(texts)
        for text in texts:
            picture = drawn(text, text.with_suffix(".report"))
            self.check(picture)
            run = follow.follow(steps.read_records(str(text)))
            self.assertEqual(len(picture.marks), len(run.events))


if __name__ == "__main__":
    unittest.main()
