"""Tries tools/archive.py. At the repository's root: python3 -m unittest discover -s tests/steps"""

import random
import re
import unittest
from collections import Counter
from functools import partial

import trying

import archive
import steps

# four entries: an empty slot, an urgent tag, one with a time and one without; plane by plane, the highest bytes first
TEXT = """\
slot 0 empty
slot 1 !1015:3
slot 2 900:1
slot 3 5
"""
STORED = bytes.fromhex("00800000 00000000 00030300 00f78400 00000000 00000000 00000000 00030105")
ENTRIES = [0, 2**63 + 1015 * 2**32 + 3, 900 * 2**32 + 1, 5]

ENTRY_WANTED = f"slot wants 'empty' or {steps.wanted(steps.Field('tag', 8))}"
LINE_WANTED = "expected 'slot', its number and its entry"
BAD_PLAN = "refused 1, bad plan (a number beyond the limits)"
ODD_LENGTH = "refused 24, odd length (archive: stored bytes that are no multiple of 8)"

# on both sides of one byte, and up to what the archive takes
COUNTS = (0, 1, 2, 3, 7, 8, 9, 255, 256, 257, 1023, 1024)


def mistakes(text):
    try:
        steps.read_text("text", text, archive.Lines().read)
    except steps.Mistakes as found:
        return found.lines
    return []


command = partial(trying.command, "archive.py")


class Layout(unittest.TestCase):
    """Entries and planes, and both ways between them."""

    def test_the_highest_bytes_come_first(self):
        self.assertEqual(archive.to_planes([0x0102030405060708]), bytes(range(1, 9)))
        self.assertEqual(archive.to_planes(ENTRIES), STORED)
        self.assertEqual(archive.to_entries(STORED), ENTRIES)
        self.assertEqual((archive.to_planes([]), archive.to_entries(b"")), (b"", []))

    def test_each_byte_at_its_place(self):
        """Of k entries, byte p of entry i is stored at p * k + i."""
        draw = random.Random(1)
        for count in COUNTS:
            entries = [draw.randrange(2**64) for _ in range(count)]
            stored = archive.to_planes(entries)
            self.assertEqual(len(stored), 8 * count)
            for place, byte in enumerate(stored):
                plane, slot = divmod(place, count)
                self.assertEqual(byte, entries[slot] >> 8 * (7 - plane) & 255)

    def test_both_ways(self):
        """From either side; the bytes are the same, each as often."""
        draw = random.Random(2)
        for count in COUNTS:
            entries = [draw.randrange(2**64) for _ in range(count)]
            stored = archive.to_planes(entries)
            self.assertEqual(archive.to_entries(stored), entries)
            self.assertEqual(Counter(stored), Counter(b"".join(entry.to_bytes(8, "little") for entry in entries)))
            stored = draw.randbytes(8 * count)
            self.assertEqual(archive.to_planes(archive.to_entries(stored)), stored)


class Mistaken(unittest.TestCase):
    """Every message, with its line."""

    def check(self, text, *expected):
        self.assertEqual(mistakes(text), [f"text:1: {line}" for line in expected])

    def test_lines(self):
        for text in ("5", "0 5", "slot", "slot 0", "slot 0 5 6", "Slot 0 5", "slots 0 5", "submit 0 5", "slot 0: 5 6"):
            self.check(text, f"{LINE_WANTED}, not '{text}'")
        self.check("slot  0\t# 5", f"{LINE_WANTED}, not 'slot 0'")

    def test_slots(self):
        for slot in ("1", "-0", "0:", "x", "18446744073709551616", "9" * 5000):
            self.check(f"slot {slot} 5", f"expected slot 0, not '{slot}'")

    def test_entries(self):
        for entry in ("-", "Empty", "!", "x", "-5", "1:", "!!9", "18446744073709551616", "!2147483648:0", "9" * 5000):
            self.check(f"slot 0 {entry}", f"{ENTRY_WANTED}, not '{entry}'")
        self.check("slot 1 x", "expected slot 0, not '1'", f"{ENTRY_WANTED}, not 'x'")

    def test_all_mistakes_are_listed(self):
        """Each by itself: what comes behind a slot that is left out, stands twice or cannot be read is right again."""
        text = "# a log\nslot 0 5\nslot 2 6\n\nslot 3 7\nslot 3 8\nslot x 9\nslot 5 10\nslto 6 11\nslot 7 x\nslot 8 empty\n"
        expected = [
            "text:3: expected slot 1, not '2'",
            "text:6: expected slot 4, not '3'",
            "text:7: expected slot 4, not 'x'",
            f"text:9: {LINE_WANTED}, not 'slto 6 11'",
            f"text:10: {ENTRY_WANTED}, not 'x'",
        ]
        self.assertEqual(mistakes(text), expected)


class Commands(trying.InFolder):
    """The command line: what is written where, and the exit status."""

    def test_help_has_the_text_of_logs(self):
        status, written, _ = command("--help")
        said = " ".join(written.decode().split())
        self.assertEqual(status, 0)
        self.assertIn("slot 0 900:1 slot 1 !1015:3 # urgent slot 2 empty", said)
        self.assertIn("more than 8,192 bytes or 1,024 entries get refusal 1, bad plan", said)
        self.assertIn("show stored bytes to text store text to stored bytes", said)

    def test_show_and_store(self):
        stored, text = self.file("log.planes", STORED), self.file("log.txt", TEXT.encode())
        self.assertEqual(command("show", stored), (0, TEXT.encode(), ""))
        self.assertEqual(command("show", "-", given=STORED), (0, TEXT.encode(), ""))
        self.assertEqual(command("store", text), (0, STORED, ""))
        self.assertEqual(command("store", "-", given=TEXT.encode()), (0, STORED, ""))

    def test_what_is_shown_is_stored_as_the_same_bytes(self):
        draw = random.Random(3)
        for count in (0, 1, 256, 1024):
            stored = draw.randbytes(8 * count)
            status, shown, _ = command("show", "-", given=stored)
            self.assertEqual((status, len(shown.splitlines())), (0, count))
            self.assertEqual(command("store", "-", given=shown), (0, stored, ""))

    def test_other_spellings(self):
        text = "\ufeff# a log\r\n\nslot 0 0   # empty\r\n slot\t01 2147484663:3\nslot 2 3865470566401#nine\nslot 3 0:5"
        self.assertEqual(command("store", "-", given=text.encode()), (0, STORED, ""))
        self.assertEqual(command("store", "-", given=b"# caf\xe9\nslot 0 1")[1], bytes([0, 0, 0, 0, 0, 0, 0, 1]))

    def test_mistakes_write_nothing(self):
        path = self.file("log.txt", b"slot 0 5\nslot 2 6\n")
        self.assertEqual(command("store", path), (1, b"", f"{path}:2: expected slot 1, not '2'\n"))
        said = f"standard input:1: {LINE_WANTED}, not 'slot'\n"
        self.assertEqual(command("store", "-", given=b"slot"), (1, b"", said))

    def test_no_such_file(self):
        missing = self.folder / "missing"
        for name in ("show", "store"):
            self.assertEqual(command(name, missing), (1, b"", f"{missing}: No such file or directory\n"))

    def test_too_many_bytes(self):
        """Whatever their length: 1 comes before 24."""
        for length in (8193, 8199, 8200, 100000):
            path = self.file("long.planes", bytes(length))
            said = f"{path}: {BAD_PLAN}: {length} bytes, more than 8192\n"
            self.assertEqual(command("show", path), (1, b"", said))
        self.assertEqual(command("show", "-", given=bytes(8192))[0], 0)

    def test_odd_lengths(self):
        for length in (1, 4, 7, 9, 12, 15, 8185, 8188, 8191):
            said = f"standard input: {ODD_LENGTH}: {length} bytes\n"
            self.assertEqual(command("show", "-", given=bytes(length)), (1, b"", said))

    def test_too_many_entries(self):
        lines = [f"slot {slot} {slot + 1}\n" for slot in range(1025)]
        path = self.file("long.txt", "".join(lines).encode())
        self.assertEqual(command("store", path), (1, b"", f"{path}: {BAD_PLAN}: 1025 entries, more than 1024\n"))
        status, stored, _ = command("store", "-", given="".join(lines[:-1]).encode())
        self.assertEqual((status, archive.to_entries(stored)), (0, list(range(1, 1025))))


class Examples(unittest.TestCase):
    def test_the_account_has_the_planes_of_the_entries(self):
        account, text = ((trying.ROOT / "examples" / f"archive.{end}").read_text() for end in ("account", "entries"))
        planes = re.findall("^plane [1-8]:(.*)$", account, re.MULTILINE)
        entries = steps.read_text("text", text, archive.Lines().read).values()
        self.assertEqual(bytes.fromhex("".join(planes)), archive.to_planes(entries))
        self.assertIn(text, account)


if __name__ == "__main__":
    unittest.main()
