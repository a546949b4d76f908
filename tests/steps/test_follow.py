"""Tries tools/follow.py; compare.py holds it against the rehearsal program."""

import unittest

import trying

import follow
import steps

EXAMPLES = sorted((trying.ROOT / "examples").glob("*.txt"))
QUARREL = "opening 3 1 2 4 4 0\nsubmit 0 5\nrelay 1 5\nsubmit 2 9\nbegin 0\nbegin 1\nbegin 2\n"


def records(text):
    return [steps.Record(steps.step_text(step), step) for step in steps.read_text("text", text).values()]


def refusals(text):
    return [event.refusal for event in follow.follow(records(text)).events]


class Reports(unittest.TestCase):
    def test_every_example_is_followed_as_reported(self):
        self.assertTrue(EXAMPLES)
        for text in EXAMPLES:
            report = text.with_suffix(".report").read_text().splitlines()
            run = follow.follow(steps.read_records(str(text)), report)
            self.assertEqual(list(run.report()), report)

    def test_what_differs_is_a_mistake(self):
        opened, bench = "controllers 1 spare 0", "bench 0 lit 0"
        for report, line, found, wanted in (
            (["controllers 3 spare 0", bench], 1, "controllers 3 spare 0", opened),
            ([opened, "refused 2 12", bench], 2, "refused 2 12", bench),
            ([opened], 2, "its end", bench),
            ([opened, bench, bench], 3, bench, "its end"),
            ([], 1, "its end", opened),
        ):
            with self.assertRaises(steps.Mistakes) as raised:
                follow.follow(records("opening 1 0 1 1 1 0\nsubmit 0 7\n"), report)
            said = f"the report is of another file: its line {line} is '{found}', where these steps give '{wanted}'"
            self.assertEqual(raised.exception.lines, [said])

    def test_refusals_2_and_20_are_taken_from_the_report(self):
        opening = records("opening 15 7 1024 32 1024 510\nbegin 0\n")
        self.assertEqual([event.refusal for event in follow.follow(opening).events], [None, 12])
        self.assertEqual([event.refusal for event in follow.follow(opening, ["refused 1 2", "refused 2 21"]).events], [2, 21])
        self.assertEqual([event.refusal for event in follow.follow(opening, ["refused 1 20"]).events], [20])


class CheckPoints(unittest.TestCase):
    """Document 01's rows, with what was heard put in place."""

    def advanced(self, n, f, sort, words, slot=0, phase=1, start=0):
        """What an advance comes to of a controller that has heard these words, in the round that they are of."""
        rack = follow.Rack(n, f, 2, 4, 4, start)
        me = rack.controllers[0]
        me.log = [0] * slot
        me.round = follow.ROUNDS[sort]
        me.phase = 0 if sort == "proposal" else phase
        me.heard[sort, slot, me.phase] = dict(enumerate(words))
        (effect,) = rack.advance(me)
        return effect.verb, effect.word

    def test_c1_one_controller_alone(self):
        (*_, last) = follow.follow(records("opening 1 0 1 1 1 0\nsubmit 0 7\nbegin 0\nrun on 0\n")).events
        sent = [(effect.verb, effect.message.sort, effect.word) for effect in last.effects]
        self.assertEqual(sent, [("send", "state", 1), ("send", "vote", 1), ("close", "notice", 7)])

    def test_c2_to_c4_the_exchange(self):
        self.assertEqual(self.advanced(3, 1, "proposal", (5, 5)), ("send", 1))
        self.assertEqual(self.advanced(3, 1, "proposal", (5, 9)), ("send", 0))
        self.assertEqual(self.advanced(4, 1, "proposal", (5, 5, 9)), ("send", 0))

    def test_c5_the_state_round(self):
        self.assertEqual(self.advanced(4, 1, "state", (1, 1, 0)), ("send", "?"))

    def test_c6_to_c8_the_vote_round(self):
        # outcome 1, and no proposals to find the tag in
        self.assertEqual(self.advanced(5, 1, "vote", (1, 1, "?", "?")), ("seek", None))
        self.assertEqual(self.advanced(5, 2, "vote", (1, 1, "?")), ("send", 1))
        self.assertEqual(self.advanced(3, 1, "vote", ("?", "?"), slot=1), ("send", 0))

    def test_c9_the_find_round(self):
        rack = follow.Rack(3, 1, 1, 4, 4, 0)
        me = rack.controllers[0]
        me.round = "find"
        me.heard["proposal", 0, 0] = {0: 9, 1: 5}
        with self.assertRaises(follow.Refused) as raised:
            rack.advance(me)
        self.assertEqual(raised.exception.number, 14)
        me.heard["proposal", 0, 0][2] = 5
        self.assertEqual(rack.advance(me)[0].word, 5)

    def test_c10_the_first_ranked_tag(self):
        text = "opening 1 0 1 1 4 0\nsubmit 0 9\nsubmit 0 5\n"
        for more, proposed in (("", 5), ("submit 0 !9\n", steps.URGENT + 9)):
            self.assertEqual(follow.follow(records(f"{text}{more}begin 0\n")).events[-1].effects[0].word, proposed)

    def test_c11_and_the_coin_table(self):
        self.assertEqual("".join(map(str, follow.COINS[:20])), "11111111100000111101")
        self.assertEqual(len(follow.COINS), 511)
        self.assertEqual(self.advanced(3, 1, "vote", ("?", "?"), start=9), ("send", 0))
        self.assertEqual(self.advanced(3, 1, "vote", ("?", "?"), phase=2, start=510), ("send", 1))


class Rules(unittest.TestCase):
    """Some more by hand; compare.py reaches each."""

    def effects(self, text):
        return follow.follow(records(text)).events[-1].effects

    def test_a_run_on_stops_at_a_close(self):
        """Though a notice of the next slot was heard."""
        both = "hear 0 1 {0}\nhear 1 0 {0}\nadvance 0\nadvance 1\n"
        text = "opening 3 1 2 4 4 0\nsubmit 0 5\nrelay 1 5\nsubmit 0 6\nrelay 1 6\n"
        for slot in (0, 1):
            text += "begin 0\nbegin 1\n"
            text += "".join(both.format(message) for message in (f"proposal {slot}", f"state {slot} 1", f"vote {slot} 1"))
        text += "hear 2 0 notice 0\nhear 2 0 notice 1\nrun on 2\n"
        self.assertEqual([(effect.verb, effect.word) for effect in self.effects(text)], [("close", 5)])
        self.assertEqual([(effect.verb, effect.word) for effect in self.effects(text + "run on 2\n")], [("close", 6)])

    def test_what_a_dark_sender_sent_is_heard(self):
        self.assertEqual(self.effects(QUARREL + "crash 1\nhear 0 1 proposal 0\n")[0].word, 5)
        self.assertEqual(refusals(QUARREL + "crash 1\nhear 1 0 proposal 0\ncrash 1\n")[-2:], [5, 5])

    def test_numbers_of_controllers_come_first(self):
        self.assertEqual(refusals(QUARREL + "crash 0\nhear 0 3 proposal 0\nhear 3 0 proposal 0\nbegin 3\n")[-3:], [4, 4, 4])

    def test_reading_stops_at_what_is_no_record(self):
        broken = steps.Record("kind 10", steps.Broken("kind 10", 19))
        run = follow.follow([*records(QUARREL), broken, *records("begin 0\n")])
        self.assertEqual([event.refusal for event in run.events][-2:], [None, 19])

    def test_which_slot_a_step_is_of(self):
        run = follow.follow(records(QUARREL + "hear 0 1 proposal 1\nhear 0 1 proposal 0\nadvance 7\nadvance 0\n"))
        self.assertEqual([(event.who, event.slot) for event in run.events][-4:], [(0, 1), (0, 0), (None, None), (0, 0)])


if __name__ == "__main__":
    unittest.main()
