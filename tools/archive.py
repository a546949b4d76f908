#!/usr/bin/env python3
"""Logs of the archive by hand: stored bytes to readable entries, and back.

    python3 tools/archive.py show FILE              stored bytes to text
    python3 tools/archive.py store TEXT > FILE      text to stored bytes

`-` stands for standard input.

The archive keeps a log by byte plane: the highest byte of every entry first, then the next, to the eighth. The text has one
slot to a line, from slot 0 on and none left out; blank lines and what follows a # are passed over:

    slot 0 900:1
    slot 1 !1015:3             # urgent
    slot 2 empty

Tags are written as in the texts of tools/steps.py, and tag 0 is an empty slot. What is shown is stored as the same bytes.

Turned away as by the library: more than 8,192 bytes or 1,024 entries get refusal 1, bad plan, and bytes that are no multiple
of 8 get 24, odd length.
"""

import sys

import steps

PLANES = 8
MOST_ENTRIES = 1024
BAD_PLAN = 1
ODD_LENGTH = 24
TAG = steps.Field("tag", PLANES)


class Lines:
    """The lines of a text, read one after the other; which slot comes next is kept."""

    def __init__(self):
        self.slot = 0

    def read(self, words):
        """The entry that a line has for the next slot."""
        expected = self.slot
        self.slot += 1
        if len(words) != 3 or words[0] != "slot":
            raise steps.Mistakes([f"expected 'slot', its number and its entry, not '{' '.join(words)}'"])
        number, entry = steps.decimal(words[1], steps.TAGS), read_entry(words[2])
        mistakes = []
        if number != expected:
            mistakes.append(f"expected slot {expected}, not '{words[1]}'")
        if entry is None:
            mistakes.append(f"slot wants '{steps.EMPTY}' or {steps.wanted(TAG)}, not '{words[2]}'")
        # a slot that is left out is one mistake
        if number is not None:
            self.slot = number + 1
        if mistakes:
            raise steps.Mistakes(mistakes)
        return entry


def read_entry(word):
    return 0 if word == steps.EMPTY else steps.read_tag(word)


def refuse(name, refusal, found):
    raise steps.Mistakes([f"{steps.shown_name(name)}: refused {refusal}, {steps.refusal_text(refusal)}: {found}"])


def to_planes(entries):
    """Each plane takes one byte of every entry."""
    rows = b"".join(entry.to_bytes(PLANES, "big") for entry in entries)
    return b"".join(rows[plane::PLANES] for plane in range(PLANES))


def to_entries(stored):
    """Each entry takes one byte of every plane."""
    count = len(stored) // PLANES
    return [int.from_bytes(stored[slot::count], "big") for slot in range(count)]


def show(arguments):
    stored = steps.read_input(arguments.file)
    if len(stored) > PLANES * MOST_ENTRIES:
        refuse(arguments.file, BAD_PLAN, f"{len(stored)} bytes, more than {PLANES * MOST_ENTRIES}")
    if len(stored) % PLANES != 0:
        refuse(arguments.file, ODD_LENGTH, f"{len(stored)} bytes")
    for slot, entry in enumerate(to_entries(stored)):
        print("slot", slot, steps.entry_text(entry))


def store(arguments):
    entries = steps.read_readable(arguments.file, Lines().read).values()
    if len(entries) > MOST_ENTRIES:
        refuse(arguments.file, BAD_PLAN, f"{len(entries)} entries, more than {MOST_ENTRIES}")
    sys.stdout.buffer.write(to_planes(entries))


if __name__ == "__main__":
    steps.main(__doc__, {"stored bytes to text": show, "text to stored bytes": store})
