"""Tries tools/steps.py. At the repository's root: python3 -m unittest discover -s tests/steps"""

import random
import re
import unittest
from functools import partial

import trying

import steps

# document 01's input, byte for byte as its table of kinds lays it out
WORKED_BYTES = bytes.fromhex(
    "00 03 01 02 04 0400 0000"
    "01 00 0500000000000000  02 01 0500000000000000  01 02 0900000000000000"
    "03 00  03 01  03 02"
    "04 00 01 01 00 00  05 00  04 01 00 01 00 00  05 01"
    "04 00 01 02 00 01  05 00  04 01 00 02 00 01  05 01"
    "04 00 01 03 00 01  05 00  05 00"
    "04 02 00 03 00 01  05 02  06 01  04 00 01 03 00 01"
)
WORKED_EXPLAINED = """\
controllers 3 spare 1
refused 18 13      line 21: advance 0: idle (advance or run on while idle, no notice heard for the next slot)
refused 20 14      line 24: advance 2: too few heard (below quota; in find, no majority)
refused 22 18      line 26: hear 0 1 vote 0 1: heard (the receiver has heard it)
bench 0 lit 1 5
bench 1 dark 0
bench 2 lit 0
"""

TAG_WANTED = (
    "a tag (a number from 0 to 18446744073709551615, or time:number with each from 0 to 4294967295; "
    "if urgent, ! before a number up to 9223372036854775807 or a time up to 2147483647)"
)
STEPS_WANTED = "expected opening, submit, relay, begin, hear, advance, crash, run on, wide opening or wide hear"
HEAR_WANTED = "hear wants 5 words (receiver, sender, sort, slot, phase; no phase for a proposal or notice)"
SORT_WANTED = "hear wants a sort (proposal, state, vote, notice)"

# of slots and slot: both ends of one byte, the limit and what lies beside it, the end of two bytes
BOUNDARIES = (0, 1, 255, 256, 1023, 1024, 1025, 65535)


def packed(text):
    """The bytes of a text, without the command line."""
    return b"".join(map(steps.step_bytes, steps.read_text("text", text).values()))


def unpacked(data):
    read, broken = steps.read_steps(data)
    assert broken is None
    return "".join(steps.step_text(step) + "\n" for step in read)


def mistakes(text):
    try:
        steps.read_text("text", text)
    except steps.Mistakes as found:
        return found.lines
    return []


command = partial(trying.command, "steps.py")


class Layout(unittest.TestCase):
    """Each kind's text and bytes, and both ways between them."""

    def check(self, text, *data):
        self.assertEqual(packed(text), bytes(data))
        self.assertEqual(unpacked(bytes(data)), text + "\n")

    def test_opening(self):
        self.check("opening 3 1 2 4 4 0", 0, 3, 1, 2, 4, 4, 0, 0, 0)
        self.check("opening 15 7 64 32 256 510", 0, 15, 7, 64, 32, 0, 1, 254, 1)

    def test_steps_of_one_controller(self):
        self.check("begin 7", 3, 7)
        self.check("advance 0", 5, 0)
        self.check("crash 14", 6, 14)
        self.check("run on 255", 7, 255)

    def test_tags(self):
        self.check("submit 0 5", 1, 0, 5, 0, 0, 0, 0, 0, 0, 0)
        self.check("relay 1 4294967295", 2, 1, 255, 255, 255, 255, 0, 0, 0, 0)
        self.check("submit 2 1:0", 1, 2, 0, 0, 0, 0, 1, 0, 0, 0)
        self.check("submit 2 1355:17", 1, 2, 17, 0, 0, 0, 75, 5, 0, 0)
        self.check("relay 2 2147483647:4294967295", 2, 2, *[255] * 7, 127)
        self.check("submit 0 !0", 1, 0, *[0] * 7, 128)
        self.check("submit 0 !9", 1, 0, 9, *[0] * 6, 128)
        self.check("relay 1 !4294967295", 2, 1, *[255] * 4, 0, 0, 0, 128)
        self.check("submit 2 !1400:2", 1, 2, 2, 0, 0, 0, 120, 5, 0, 128)
        self.check("relay 2 !2147483647:4294967295", 2, 2, *[255] * 8)

    def test_spellings_of_a_tag(self):
        for tag, *others in (
            ("5", "0:5", "005"),
            ("1400:2", "6012954214402"),
            ("!0", "9223372036854775808", "2147483648:0", "!0:0"),
            ("!9", "9223372036854775817", "2147483648:9", "!0:9", "!009"),
            ("!1400:2", "9223378049808990210", "2147485048:2", "!6012954214402"),
            ("!2147483647:4294967295", "18446744073709551615", "4294967295:4294967295", "!9223372036854775807"),
        ):
            for other in others:
                self.assertEqual(packed(f"submit 0 {other}"), packed(f"submit 0 {tag}"))

    def test_random_tags(self):
        """As a number, by its halves and as it is shown, a tag is the same; the mark stands for the highest bit."""
        draw = random.Random(3)
        for size in draw.choices(range(65), k=1000):
            tag = draw.randrange(2**size)
            shown = steps.tag_text(tag)
            halves = f"{tag >> 32}:{tag % 2**32}"
            self.assertEqual([steps.read_tag(word) for word in (str(tag), halves, shown)], [tag] * 3)
            self.assertEqual(shown.startswith("!"), tag >= 2**63)
            self.assertEqual(steps.read_tag("!" + shown), None if tag >= 2**63 else tag + 2**63)

    def test_hear(self):
        self.check("hear 0 1 proposal 2", 4, 0, 1, 1, 2, 0)
        self.check("hear 0 1 state 2 3", 4, 0, 1, 2, 2, 3)
        self.check("hear 0 1 vote 2 3", 4, 0, 1, 3, 2, 3)
        self.check("hear 2 0 notice 1", 4, 2, 0, 4, 1, 0)

    def test_wide(self):
        self.check("wide opening 3 1 2 4 4 0", 8, 3, 1, 2, 0, 4, 4, 0, 0, 0)
        self.check("wide opening 15 7 255 32 1024 510", 8, 15, 7, 255, 0, 32, 0, 4, 254, 1)
        self.check("wide hear 0 1 proposal 2", 9, 0, 1, 1, 2, 0, 0)
        self.check("wide hear 0 1 state 255 3", 9, 0, 1, 2, 255, 0, 3)
        self.check("wide hear 0 1 vote 2 3", 9, 0, 1, 3, 2, 0, 3)
        self.check("wide hear 2 0 notice 0", 9, 2, 0, 4, 0, 0, 0)

    def test_wide_without_the_word(self):
        """From 256 on only two bytes will do."""
        self.check("opening 3 1 255 4 4 0", 0, 3, 1, 255, 4, 4, 0, 0, 0)
        self.check("opening 3 1 256 4 4 0", 8, 3, 1, 0, 1, 4, 4, 0, 0, 0)
        self.check("opening 15 7 1024 32 1024 510", 8, 15, 7, 0, 4, 32, 0, 4, 254, 1)
        self.check("hear 0 1 vote 255 3", 4, 0, 1, 3, 255, 3)
        self.check("hear 0 1 vote 256 3", 9, 0, 1, 3, 0, 1, 3)
        self.check("hear 0 1 proposal 1023", 9, 0, 1, 1, 255, 3, 0)
        self.check("hear 2 0 notice 1023", 9, 2, 0, 4, 255, 3, 0)

    def test_wide_of_a_large_number_is_the_same(self):
        for slots in (256, 1024, 65535):
            for step in (f"opening 3 1 {slots} 4 4 0", f"hear 0 1 vote {slots} 1", f"hear 2 0 notice {slots}"):
                self.assertEqual(packed(f"wide {step}"), packed(step))
                self.assertEqual(unpacked(packed(f"wide {step}")), f"{step}\n")

    def test_wide_steps_say_what_the_others_do(self):
        """Whatever the number, both words give the same step; the record has two bytes for it where it must or is asked to."""
        for slots in BOUNDARIES:
            for step, kinds in ((f"opening 3 1 {slots} 4 4 0", (0, 8)), (f"hear 0 1 vote {slots} 1", (4, 9))):
                [plain], [wide] = (steps.read_steps(packed(text))[0] for text in (step, f"wide {step}"))
                self.assertEqual(plain.numbers, wide.numbers)
                self.assertIn(slots, plain.numbers)
                self.assertEqual([packed(step)[0], packed(f"wide {step}")[0]], [kinds[slots > 255], kinds[1]])
                self.assertEqual(unpacked(packed(step)), f"{step}\n")

    def test_what_the_library_refuses_can_be_written(self):
        self.check("opening 255 255 0 255 65535 65535", 0, 255, 255, 0, 255, 255, 255, 255, 255)
        self.check("opening 255 255 65535 255 65535 65535", 8, *[255] * 9)
        self.check("opening 1 0 1025 1 1025 0", 8, 1, 0, 1, 4, 1, 1, 4, 0, 0)
        self.check("hear 9 200 9 65535 4", 9, 9, 200, 9, 255, 255, 4)
        self.check("wide hear 9 200 notice 0 1", 9, 9, 200, 4, 0, 0, 1)
        self.check("hear 9 200 proposal 255 4", 4, 9, 200, 1, 255, 4)
        self.check("hear 0 1 vote 0 0", 4, 0, 1, 3, 0, 0)
        self.check("hear 9 200 notice 255 1", 4, 9, 200, 4, 255, 1)
        self.check("hear 0 1 0 5 6", 4, 0, 1, 0, 5, 6)
        self.check("hear 0 1 255 5 0", 4, 0, 1, 255, 5, 0)
        self.check("submit 0 0", 1, 0, *[0] * 8)

    def test_a_phase_left_out_is_0(self):
        self.assertEqual(packed("hear 0 1 5 2"), bytes([4, 0, 1, 5, 2, 0]))
        self.assertEqual(packed("hear 0 1 proposal 2 0"), packed("hear 0 1 proposal 2"))
        self.assertEqual(packed("hear 0 1 notice 2 0"), packed("hear 0 1 notice 2"))
        self.assertEqual(packed("hear 0 1 4 2"), packed("hear 0 1 notice 2"))
        self.assertEqual(packed("wide hear 0 1 5 2"), bytes([9, 0, 1, 5, 2, 0, 0]))
        self.assertEqual(packed("hear 0 1 notice 256 0"), packed("hear 0 1 notice 256"))

    def test_lines(self):
        text = "\ufeff# a comment\r\n\n  begin\t0   # behind a step\r\n#advance 0\n\x0cadvance 1#close"
        self.assertEqual(command("pack", "-", given=text.encode())[1], bytes([3, 0, 5, 1]))
        self.assertEqual(packed("begin 000000000000000000000000000000001"), bytes([3, 1]))
        self.assertEqual(command("pack", "-", given=b"begin 0 # caf\xe9\n")[1], bytes([3, 0]))
        self.assertEqual(packed(""), b"")

    def test_random_files(self):
        draw = random.Random(1)

        def number(size):
            chosen = [number for number in BOUNDARIES if number < 256**size]
            return draw.choice([*chosen, 256**size - 1, draw.randrange(256**size)])

        for _ in range(300):
            read = [
                steps.Step(kind, [number(size) for _, size in kind.fields])
                for kind in draw.choices(steps.KINDS, k=draw.randrange(40))
            ]
            data = b"".join(map(steps.step_bytes, read))
            self.assertEqual(steps.read_steps(data), (read, None))
            self.assertEqual(packed(unpacked(data)), data)

    def test_random_bytes(self):
        """Whatever the bytes are, those before the broken end come back."""
        draw = random.Random(2)
        for _ in range(300):
            data = bytes(draw.choices(range(12), k=draw.randrange(80)))
            read, broken = steps.read_steps(data)
            written = b"".join(map(steps.step_bytes, read))
            self.assertTrue(data.startswith(written))
            self.assertEqual(broken is None, written == data)


class Mistaken(unittest.TestCase):
    """Every message, with its line."""

    def check(self, text, *expected):
        self.assertEqual(mistakes(text), [f"text:1: {line}" for line in expected])

    def test_no_such_step(self):
        self.check("sumbit 0 5", f"no step is called 'sumbit'; {STEPS_WANTED}")
        self.check("Begin 0", f"no step is called 'Begin'; {STEPS_WANTED}")
        self.check("run 0", f"no step is called 'run'; {STEPS_WANTED}")
        for text in ("wide", "wide begin 0", "wide run on 0", "wide wide hear 0 1 vote 0 1"):
            self.check(text, f"no step is called 'wide'; {STEPS_WANTED}")

    def test_no_kind_for_the_conductor(self):
        said = "step files have no kind for the conductor, a call of the library; write its steps one by one"
        for text in ("conduct", "conduct 0 # a slot", "conductor"):
            self.check(text, said)

    def test_count_of_words(self):
        self.check("opening 3 1 2 4 4", "opening wants 6 words (n, f, slots, phases, room, start), not 5")
        self.check("submit 0", "submit wants 2 words (controller, tag), not 1")
        self.check("relay 0 5 6", "relay wants 2 words (controller, tag), not 3")
        self.check("advance", "advance wants 1 word (controller), not 0")
        self.check("run on", "run on wants 1 word (controller), not 0")
        self.check("hear 0 1 proposal", f"{HEAR_WANTED}, not 3")
        self.check("hear 0 1 state 0", f"{HEAR_WANTED}, not 4")
        self.check("hear 0 1 vote 0", f"{HEAR_WANTED}, not 4")
        self.check("hear 0 1 vote 0 1 2", f"{HEAR_WANTED}, not 6")
        self.check("hear 2 0 notice", f"{HEAR_WANTED}, not 3")
        self.check("hear 2 0 notice 0 0 0", f"{HEAR_WANTED}, not 6")
        self.check("wide opening 3 1 2 4 4", "wide opening wants 6 words (n, f, slots, phases, room, start), not 5")
        self.check("wide hear 0 1 vote 0", f"wide {HEAR_WANTED}, not 4")
        self.check("wide hear 2 0 notice 0 0 0", f"wide {HEAR_WANTED}, not 6")

    def test_numbers(self):
        self.check("begin x", "begin wants a number from 0 to 255 as controller, not 'x'")
        self.check("begin 256", "begin wants a number from 0 to 255 as controller, not '256'")
        self.check("begin -1", "begin wants a number from 0 to 255 as controller, not '-1'")
        self.check("begin 1_0", "begin wants a number from 0 to 255 as controller, not '1_0'")
        self.check("begin \u0663", "begin wants a number from 0 to 255 as controller, not '\u0663'")
        self.check("crash " + "9" * 5000, f"crash wants a number from 0 to 255 as controller, not '{'9' * 5000}'")
        self.check("opening 3 1 2 4 65536 0", "opening wants a number from 0 to 65535 as room, not '65536'")
        self.check("hear 2 0 notice 0 x", "hear wants a number from 0 to 255 as phase, not 'x'")

    def test_numbers_of_two_bytes(self):
        """Of slots and slot, by either word; the others stay as they are."""
        for word in ("", "wide "):
            for number in ("65536", "-1", "x", "9" * 5000):
                slots, slot = (f"wants a number from 0 to 65535 as {name}, not '{number}'" for name in ("slots", "slot"))
                self.check(f"{word}opening 3 1 {number} 4 4 0", f"{word}opening {slots}")
                self.check(f"{word}hear 0 1 vote {number} 1", f"{word}hear {slot}")
                self.check(f"{word}hear 2 0 notice {number}", f"{word}hear {slot}")
            self.check(f"{word}opening 256 1 300 4 4 0", f"{word}opening wants a number from 0 to 255 as n, not '256'")
            self.check(f"{word}hear 0 1 vote 300 256", f"{word}hear wants a number from 0 to 255 as phase, not '256'")

    def test_tags(self):
        unmarked = ("x", "18446744073709551616", "1:", ":1", "1:2:3", "4294967296:0", "0:4294967296", "-5", "5!", "1:!2")
        large = ("!9223372036854775808", "!2147483648:0", "!0:4294967296", "!4294967295:4294967295", "!" + "9" * 5000)
        for tag in (*unmarked, *large, "!", "!x", "!1:", "!:1", "!1:2:3", "!-5", "!!9", "!!1400:2", "!" * 5000):
            self.check(f"submit 0 {tag}", f"submit wants {TAG_WANTED}, not '{tag}'")
        self.check("relay 0 ! 9", "relay wants 2 words (controller, tag), not 3", f"relay wants {TAG_WANTED}, not '!'")

    def test_sorts(self):
        self.check("hear 0 1 votes 0 1", f"{SORT_WANTED}, not 'votes'")
        self.check("hear 0 1 votes 0", f"{SORT_WANTED}, not 'votes'")
        self.check("hear 0 1 Notice 0", f"{SORT_WANTED}, not 'Notice'")
        self.check("hear 0 1 256 0 1", f"{SORT_WANTED}, not '256'")
        self.check("wide hear 0 1 votes 0", f"wide {SORT_WANTED}, not 'votes'")

    def test_only_a_newline_ends_a_line(self):
        self.assertEqual(mistakes("begin 0 # a\x0cb\x85c\nend"), [f"text:2: no step is called 'end'; {STEPS_WANTED}"])

    def test_all_mistakes_are_listed(self):
        text = "opening 3 1 2 4 4 0\nbegin x\n\nsubmit 300 y\nadvance 0\nend\n"
        given = [(2, "begin"), (4, "submit"), (4, "submit"), (6, "no")]
        self.assertEqual([line.split()[:2] for line in mistakes(text)], [[f"text:{at}:", word] for at, word in given])


class Logs(unittest.TestCase):
    """What explain puts behind a controller's line of a report."""

    def check(self, line, explained=""):
        self.assertEqual(steps.explain_line(line, []), line + explained)

    def test_tags_that_the_text_writes_otherwise(self):
        self.check("bench 1 lit 2 5819680686081 6012954214402", "  (1355:1 1400:2)")
        self.check("bench 0 dark 1 4294967296", "  (1:0)")
        self.check("bench 14 lit 4 - 5 - 9223372036854775817", "  (- 5 - !9)")
        self.check("bench 2 lit 3 9223372036854775808 9223378049808990210 -", "  (!0 !1400:2 -)")
        self.check("bench 2 dark 1 18446744073709551615", "  (!2147483647:4294967295)")

    def test_tags_that_are_decimal(self):
        self.check("bench 0 lit 0")
        self.check("bench 1 dark 0")
        self.check("bench 2 lit 3 5 - 4294967295")
        self.check("bench 3 dark 2 - -")

    def test_damaged_lines(self):
        for entries in ("6012954214402 x", "6012954214402  -", "6012954214402 ", " 6012954214402", "6012954214402 !9", "--"):
            self.check(f"bench 0 lit 2 {entries}")
        for entry in ("18446744073709551616", "-6012954214402", "9" * 5000, "1400:2"):
            self.check(f"bench 0 lit 2 6012954214402 {entry}")
        for start in ("bench 0 lit", "bench 0 off 1", "bench x lit 1", "bench 0 lit -", "bench lit 1", "Bench 0 lit 1", ""):
            self.check(f"{start} 6012954214402")


class Commands(trying.InFolder):
    """The command line: what is written where, and the exit status."""

    def test_help_has_the_text_of_steps(self):
        status, written, _ = command("--help")
        said = " ".join(written.decode().split())
        self.assertEqual(status, 0)
        self.assertIn("opening 3 1 2 4 4 0 # n f slots phases room start; a phase limit of 0 stands for 16", said)
        self.assertIn("16 phases and 64 tags: larger openings get refusal 2 there", said)
        self.assertIn("The conductor has no kind of record", said)
        self.assertIn("a ! before it adds 2^63, which makes it urgent (!9, !1400:2)", said)
        self.assertIn("packed as the number asks, with two bytes from 256 on, and nobody has to think of it", said)
        self.assertIn("wide opening 3 1 2 4 4 0 wide hear 0 1 vote 0 1", said)

    def test_worked_session(self):
        text = trying.ROOT / "examples" / "worked_session.txt"
        self.assertEqual(command("pack", text), (0, WORKED_BYTES, ""))
        self.assertEqual(command("pack", "-", given=text.read_bytes()), (0, WORKED_BYTES, ""))
        status, unpacked_text, _ = command("unpack", self.file("worked.steps", WORKED_BYTES))
        self.assertEqual((status, packed(unpacked_text.decode())), (0, WORKED_BYTES))

    def test_mistakes_write_nothing(self):
        path = self.file("session.txt", b"begin 0\nhear 0 1 votes 0 1\n")
        said = f"{path}:2: {SORT_WANTED}, not 'votes'\n"
        self.assertEqual(command("pack", path), (1, b"", said))
        self.assertEqual(command("explain", path, "-"), (1, b"", said))
        status, written, said = command("pack", "-", given=b"begin")
        self.assertEqual((status, written), (1, b""))
        self.assertEqual(said, "standard input:1: begin wants 1 word (controller), not 0\n")

    def test_no_such_file(self):
        missing = self.folder / "missing.txt"
        for arguments in (["pack", missing], ["unpack", missing], ["explain", missing, "-"]):
            self.assertEqual(command(*arguments), (1, b"", f"{missing}: No such file or directory\n"))

    def test_unpack_of_a_broken_file(self):
        unknown = b"begin 1\n# refused 19, unknown kind (no step has this kind): kind 10 at byte 2\n"
        self.assertEqual(command("unpack", "-", given=bytes([3, 1, 10, 3, 1])), (1, unknown, ""))
        cut = b"# refused 20, cut record (the file ends inside a body): submit at byte 0 with 2 of 9 bytes\n"
        self.assertEqual(command("unpack", "-", given=bytes([1, 0, 5])), (1, cut, ""))

    def test_cut_bodies(self):
        """Of every kind, after any of its bytes but the last; the wide ones are one byte longer."""
        lengths = [8, 9, 9, 1, 5, 1, 1, 1, 9, 6]
        for kind, length in enumerate(lengths):
            word = steps.KINDS[kind].word
            for place in range(length):
                cut = steps.Broken(f"{word} at byte 2 with {place} of {length} bytes", 20)
                read, broken = steps.read_steps(bytes([3, 1, kind]) + bytes(place))
                self.assertEqual((len(read), broken), (1, cut))
            read, broken = steps.read_steps(bytes([3, 1, kind]) + bytes(length))
            self.assertEqual((len(read), broken), (2, None))
        for kind in range(len(lengths), 256):
            broken = steps.Broken(f"kind {kind} at byte 0", 19)
            self.assertEqual(steps.read_steps(bytes([kind]) + bytes(20)), ([], broken))

    def test_explain_text(self):
        text, report = (trying.ROOT / "examples" / f"worked_session.{end}" for end in ("txt", "report"))
        self.assertEqual(command("explain", text, report), (0, WORKED_EXPLAINED.encode(), ""))
        self.assertEqual(command("explain", text, "-", given=report.read_bytes())[1].decode(), WORKED_EXPLAINED)

    def test_explain_step_file(self):
        path = self.file("broken.steps", bytes([3, 1, 10]))
        report = b"refused 1 21\nrefused 2 19\n"
        explained = (
            "refused 1 21       begin 1: out of place (step before an accepted opening, or opening after one)\n"
            "refused 2 19       kind 10 at byte 2: unknown kind (no step has this kind)\n"
        )
        self.assertEqual(command("explain", path, "-", given=report), (0, explained.encode(), ""))
        self.assertEqual(command("explain", path, "-"), (0, b"", ""))

    def test_explain_shows_tags_as_the_text_does(self):
        path = self.file("urgent.txt", b"opening 1 0 2 1 4 0\nsubmit 0 9223378049808990210\nrelay 0 2147485048:2\n")
        report = b"controllers 1 spare 0\nrefused 3 7\nbench 0 lit 1 9223378049808990210\n"
        explained = (
            "controllers 1 spare 0\n"
            "refused 3 7        line 3: relay 0 !1400:2: held (the controller holds this tag)\n"
            "bench 0 lit 1 9223378049808990210  (!1400:2)\n"
        )
        self.assertEqual(command("explain", path, "-", given=report), (0, explained.encode(), ""))

    def test_explain_shows_wide_steps(self):
        """As they are unpacked, whatever the text has."""
        text = b"wide opening 1 0 300 1 4 0\nhear 0 0 notice 256\nwide hear 0 0 notice 5\n"
        report = b"controllers 1 spare 0\nrefused 2 17\nrefused 3 17\nbench 0 lit 0\n"
        unsent = "unsent (the sender hasn't sent it; of a notice, hasn't closed that slot)"
        explained = (
            "controllers 1 spare 0\n"
            f"refused 2 17       line 2: hear 0 0 notice 256: {unsent}\n"
            f"refused 3 17       line 3: wide hear 0 0 notice 5: {unsent}\n"
            "bench 0 lit 0\n"
        )
        of_text, of_steps = self.file("band.txt", text), self.file("band.steps", packed(text.decode()))
        self.assertEqual(command("explain", of_text, "-", given=report), (0, explained.encode(), ""))
        without_lines = re.sub("line [0-9]: ", "", explained)
        self.assertEqual(command("explain", of_steps, "-", given=report), (0, without_lines.encode(), ""))

    def test_a_report_of_another_file(self):
        path = self.file("short.txt", b"begin 0\n")
        for line, why in (
            ("refused 2 21", "the file ends with record 1"),
            ("refused 0 21", "the file ends with record 1"),
            ("refused 1 25", "no refusal has this number"),
        ):
            self.assertEqual(command("explain", path, "-", given=line.encode()), (1, b"", f"'{line}': {why}\n"))
        both = "FILE and REPORT cannot both be standard input\n"
        self.assertEqual(command("explain", "-", "-"), (1, b"", both))

    def test_every_refusal_has_its_words(self):
        self.assertEqual(sorted(steps.REFUSALS), list(range(1, 25)))
        words = [steps.REFUSALS[number][0] for number in (22, 23, 24)]
        self.assertEqual(words, ["not level", "too few lit", "odd length"])


class Examples(unittest.TestCase):
    def test_comments_name_the_refusals_of_the_reports(self):
        for text in sorted((trying.ROOT / "examples").glob("*.txt")):
            said = re.findall(r"^[^#\n]+# refused, ([0-9]+)", text.read_text(), re.MULTILINE)
            lines = text.with_suffix(".report").read_text().splitlines()
            with self.subTest(text.name):
                self.assertEqual(said, [line.split()[2] for line in lines if line.startswith("refused")])


if __name__ == "__main__":
    unittest.main()
