#!/usr/bin/env python3
"""Step files by hand: from readable text and back, and reports explained.

    python3 tools/steps.py pack FILE.txt > FILE.steps     text to step file
    python3 tools/steps.py unpack FILE.steps              step file to text
    python3 tools/steps.py explain FILE REPORT            report, with refused steps and readable tags beside it

`-` stands for standard input. FILE of explain is a step file if its name ends in .steps, else text. tools/draw.py draws either.

The text has one step to a line; blank lines and what follows a # are passed over:

    opening 3 1 2 4 4 0        # n f slots phases room start; a phase limit of 0 stands for 16
    submit 0 5                 # controller tag
    relay 1 5
    begin 0
    hear 0 1 proposal 0        # receiver sender sort slot
    hear 0 1 state 0 1         # the same and the phase
    hear 0 1 vote 0 1
    hear 2 0 notice 0          # as for a proposal: no phase
    advance 0
    crash 1
    run on 0

A tag is a decimal number, or TIME:NUMBER for TIME times 2^32 plus NUMBER; a ! before it adds 2^63, which makes it urgent
(!9, !1400:2), and urgent tags are always shown so. Reports have decimals; behind a log with any tag from 2^32 on, explain puts
it in brackets as the text writes it.

Any number that fits its bytes can be written, also one that the library refuses; a sort that has no name is written as its
number. A phase that is left out is 0, but a state or vote wants one. The rehearsal program has tables for 7 controllers, 16
slots, 16 phases and 64 tags: larger openings get refusal 2 there. The conductor has no kind of record: its steps are written
one by one.

Records of kinds 0 and 4, opening and hear, have one byte for the slots or the slot; kinds 8 and 9 are the same steps with two.
`opening` and `hear` are packed as the number asks, with two bytes from 256 on, and nobody has to think of it. Who wants kinds 8
and 9 for smaller numbers, too, writes `wide` before the step, and unpack writes it where a file has them so:

    wide opening 3 1 2 4 4 0
    wide hear 0 1 vote 0 1
"""

import argparse
import re
import sys
from typing import NamedTuple


class Field(NamedTuple):
    name: str
    size: int


class Kind(NamedTuple):
    word: str
    fields: tuple[Field, ...]


class Step(NamedTuple):
    kind: Kind
    numbers: list[int]


class Broken(NamedTuple):
    """What stands at the end of a step file and is no record: reading stops there with the refusal."""

    text: str
    refusal: int


class Record(NamedTuple):
    """A record of a file, as it is shown, and its step or what is broken there."""

    text: str
    content: Step | Broken


class Mistakes(Exception):
    """All that is wrong with an input, one line each."""

    def __init__(self, lines):
        super().__init__("\n".join(lines))
        self.lines = lines


def declare(word, **sizes):
    return Kind(word, tuple(Field(name, size) for name, size in sizes.items()))


def widen(kind, name):
    """The same step with two bytes for the field of that name."""
    fields = (field._replace(size=2) if field.name == name else field for field in kind.fields)
    return Kind(f"wide {kind.word}", tuple(fields))


# a field's size is in bytes
OPENING = declare("opening", n=1, f=1, slots=1, phases=1, room=2, start=2)
HEAR = declare("hear", receiver=1, sender=1, sort=1, slot=1, phase=1)
WIDE = {OPENING: widen(OPENING, "slots"), HEAR: widen(HEAR, "slot")}
NARROW = {wide: narrow for narrow, wide in WIDE.items()}
# by their numbers
KINDS = (
    OPENING,
    declare("submit", controller=1, tag=8),
    declare("relay", controller=1, tag=8),
    declare("begin", controller=1),
    HEAR,
    declare("advance", controller=1),
    declare("crash", controller=1),
    declare("run on", controller=1),
    WIDE[OPENING],
    WIDE[HEAR],
)
HEARS = (HEAR, WIDE[HEAR])
SORTS = {"proposal": 1, "state": 2, "vote": 3, "notice": 4}
SORT_WORDS = {number: word for word, number in SORTS.items()}
TAGS = 2**64
HALF_TAG = 2**32
URGENT = 2**63
MARK = "!"
EMPTY = "empty"

UNKNOWN_KIND = 19
CUT_RECORD = 20
REFUSALS = {
    1: ("bad plan", "a number beyond the limits"),
    2: ("short table", "a table shorter than the run needs"),
    3: ("spoiled record", "run numbers beyond limits, more known tags than room, or a record that no run makes"),
    4: ("no such bench", "acting controller or sender is n or more"),
    5: ("dark", "the acting controller is dark"),
    6: ("blank tag", "tag 0"),
    7: ("held", "the controller holds this tag"),
    8: ("tag room full", "submit of an unknown tag, no room"),
    9: ("unknown tag", "relay of a tag never submitted"),
    10: ("busy", "begin in a round"),
    11: ("log full", "begin, all slots closed"),
    12: ("nothing pending", "begin, no pending tag"),
    13: ("idle", "advance or run on while idle, no notice heard for the next slot"),
    14: ("too few heard", "below quota; in find, no majority"),
    15: ("phases used up", "vote round of the last phase would go on to another"),
    16: ("no such message", "sort, slot or phase out of range; proposals and notices have phase 0"),
    17: ("unsent", "the sender hasn't sent it; of a notice, hasn't closed that slot"),
    18: ("heard", "the receiver has heard it"),
    UNKNOWN_KIND: ("unknown kind", "no step has this kind"),
    CUT_RECORD: ("cut record", "the file ends inside a body"),
    21: ("out of place", "step before an accepted opening, or opening after one"),
    22: ("not level", "conductor: not all lit ones idle at one slot, or a message of that slot was sent"),
    23: ("too few lit", "conductor: fewer lit than the quota"),
    24: ("odd length", "archive: stored bytes that are no multiple of 8"),
}


def decimal(word, limit):
    """The number that a word says, if it is a decimal number below the limit."""
    if not re.fullmatch("[0-9]+", word):
        return None
    digits = word.lstrip("0")
    # a word may be longer than what Python turns into a number
    if len(digits) > len(str(limit)):
        return None
    number = int(digits or "0")
    return number if number < limit else None


def read_unmarked(word):
    halves = [decimal(half, HALF_TAG) for half in word.split(":")]
    if len(halves) == 2 and None not in halves:
        return halves[0] * HALF_TAG + halves[1]
    return decimal(word, TAGS)


def read_tag(word):
    if not word.startswith(MARK):
        return read_unmarked(word)
    rest = read_unmarked(word.removeprefix(MARK))
    return None if rest is None or rest >= URGENT else URGENT + rest


def read_field(field, word):
    if field.name == "tag":
        return read_tag(word)
    if field.name == "sort" and word in SORTS:
        return SORTS[word]
    return decimal(word, 256**field.size)


def wanted(field):
    """What a field takes, in words."""
    most = 256**field.size - 1
    if field.name == "tag":
        urgent = f"if urgent, {MARK} before a number up to {URGENT - 1} or a time up to {URGENT // HALF_TAG - 1}"
        return f"a tag (a number from 0 to {most}, or time:number with each from 0 to {HALF_TAG - 1}; {urgent})"
    if field.name == "sort":
        return f"a sort ({', '.join(SORTS)})"
    return f"a number from 0 to {most} as {field.name}"


def wanted_words(kind):
    names = ", ".join(field.name for field in kind.fields)
    count = len(kind.fields)
    note = "; no phase for a proposal or notice" if kind in HEARS else ""
    return f"{count} {'word' if count == 1 else 'words'} ({names}{note})"


def read_words(kind, words):
    """The numbers of a step from the words behind its name; a number that the wide kind has room for is taken."""
    if kind in HEARS and len(words) == 4 and words[2] not in ("state", "vote"):
        words = [*words, "0"]
    fields = WIDE.get(kind, kind).fields
    mistakes = []
    if len(words) != len(fields):
        mistakes.append(f"{kind.word} wants {wanted_words(kind)}, not {len(words)}")
    numbers = [read_field(field, word) for field, word in zip(fields, words)]
    for field, word, number in zip(fields, words, numbers):
        if number is None:
            mistakes.append(f"{kind.word} wants {wanted(field)}, not '{word}'")
    if mistakes:
        raise Mistakes(mistakes)
    return numbers


def fits(kind, numbers):
    return all(number < 256**field.size for field, number in zip(kind.fields, numbers))


def read_line(words):
    for kind in KINDS:
        name = kind.word.split()
        if words[: len(name)] == name:
            numbers = read_words(kind, words[len(name) :])
            return Step(kind if fits(kind, numbers) else WIDE[kind], numbers)
    if words[0] in ("conduct", "conductor"):
        raise Mistakes(["step files have no kind for the conductor, a call of the library; write its steps one by one"])
    *others, last = [kind.word for kind in KINDS]
    raise Mistakes([f"no step is called '{words[0]}'; expected {', '.join(others)} or {last}"])


def read_text(name, text, read=read_line):
    """What the lines of a text say, here steps, by their numbers; `name` is the file's, for what is said of mistakes."""
    lines = {}
    mistakes = []
    for line, content in enumerate(text.split("\n"), 1):
        words = content.partition("#")[0].split()
        if not words:
            continue
        try:
            lines[line] = read(words)
        except Mistakes as found:
            mistakes += [f"{name}:{line}: {mistake}" for mistake in found.lines]
    if mistakes:
        raise Mistakes(mistakes)
    return lines


def tag_text(tag):
    urgent, rest = divmod(tag, URGENT)
    time, number = divmod(rest, HALF_TAG)
    return MARK * urgent + (f"{time}:{number}" if time else str(number))


def field_text(field, number):
    if field.name == "tag":
        return tag_text(number)
    if field.name == "sort":
        return SORT_WORDS.get(number, str(number))
    return str(number)


def narrow(kind):
    """The same step as document 01 has it."""
    return NARROW.get(kind, kind)


def step_word(step):
    """A step's name; without `wide` where the numbers ask for it, since reading adds it there."""
    kind = narrow(step.kind)
    return step.kind.word if fits(kind, step.numbers) else kind.word


def step_text(step):
    words = [field_text(field, number) for field, number in zip(step.kind.fields, step.numbers)]
    if words[2:3] in (["proposal"], ["notice"]) and words[-1] == "0":
        words.pop()
    return " ".join([step_word(step), *words])


def step_bytes(step):
    body = [number.to_bytes(field.size, "little") for field, number in zip(step.kind.fields, step.numbers)]
    return bytes([KINDS.index(step.kind)]) + b"".join(body)


def read_body(kind, body):
    numbers = []
    for field in kind.fields:
        numbers.append(int.from_bytes(body[: field.size], "little"))
        body = body[field.size :]
    return Step(kind, numbers)


def read_steps(data):
    """The steps of a step file, and what is broken at its end, if anything is."""
    steps = []
    place = 0
    while place < len(data):
        if data[place] >= len(KINDS):
            return steps, Broken(f"kind {data[place]} at byte {place}", UNKNOWN_KIND)
        kind = KINDS[data[place]]
        length = sum(field.size for field in kind.fields)
        body = data[place + 1 : place + 1 + length]
        if len(body) < length:
            return steps, Broken(f"{kind.word} at byte {place} with {len(body)} of {length} bytes", CUT_RECORD)
        steps.append(read_body(kind, body))
        place += 1 + length
    return steps, None


def refusal_text(number):
    word, meaning = REFUSALS[number]
    return f"{word} ({meaning})"


def entry_text(entry):
    """An entry of a log: its tag, or that the slot is empty."""
    return tag_text(entry) if entry else EMPTY


def reported_entry(word):
    """An entry of a report as the text writes it, an empty slot as it stands; None for what is no entry."""
    if word == "-":
        return word
    tag = decimal(word, TAGS)
    return None if tag is None else tag_text(tag)


def explain_bench(line):
    """A line of a report; behind a log with tags that the text writes otherwise, the log as the text has it."""
    bench = re.fullmatch("bench [0-9]+ (?:lit|dark) [0-9]+ (.+)", line)
    entries = bench[1].split(" ") if bench else []
    shown = [reported_entry(entry) for entry in entries]
    return line if None in shown or shown == entries else f"{line}  ({' '.join(shown)})"


def read_refusal(line):
    """The record and the number that a line of a report says were refused, if it says so."""
    refused = re.fullmatch("refused ([0-9]{1,9}) ([0-9]{1,9})", line)
    return (int(refused[1]), int(refused[2])) if refused else None


def explain_line(line, records):
    """A line of a report; behind a refusal the step that was refused, and why."""
    refused = read_refusal(line)
    if not refused:
        return explain_bench(line)
    record, refusal = refused
    if not 1 <= record <= len(records):
        raise Mistakes([f"'{line}': the file ends with record {len(records)}"])
    if refusal not in REFUSALS:
        raise Mistakes([f"'{line}': no refusal has this number"])
    return f"{line:<18} {records[record - 1].text}: {refusal_text(refusal)}"


def read_input(name):
    if name == "-":
        return sys.stdin.buffer.read()
    try:
        with open(name, "rb") as file:
            return file.read()
    except OSError as error:
        raise Mistakes([f"{name}: {error.strerror}"]) from error


def shown_name(name):
    return "standard input" if name == "-" else name


def read_readable(name, read=read_line):
    """Comments may be in any encoding; a byte-order mark at the start is passed over."""
    return read_text(shown_name(name), read_input(name).decode("utf-8-sig", "replace"), read)


def records_of(data):
    steps, broken = read_steps(data)
    return [Record(step_text(step), step) for step in steps] + ([Record(broken.text, broken)] if broken else [])


def read_records(name):
    """The records of a step file or, with their lines, of a text."""
    if name.endswith(".steps"):
        return records_of(read_input(name))
    return [Record(f"line {line}: {step_text(step)}", step) for line, step in read_readable(name).items()]


def read_played(arguments):
    """The records of FILE and the lines of REPORT, if one is named."""
    if arguments.file == arguments.report == "-":
        raise Mistakes(["FILE and REPORT cannot both be standard input"])
    records = read_records(arguments.file)
    if arguments.report is None:
        return records, None
    return records, read_input(arguments.report).decode("ascii", "backslashreplace").splitlines()


def pack(arguments):
    steps = read_readable(arguments.file).values()
    sys.stdout.buffer.write(b"".join(map(step_bytes, steps)))


def unpack(arguments):
    steps, broken = read_steps(read_input(arguments.file))
    for step in steps:
        print(step_text(step))
    if broken:
        print(f"# refused {broken.refusal}, {refusal_text(broken.refusal)}: {broken.text}")
        raise SystemExit(1)


def explain(arguments):
    records, report = read_played(arguments)
    explained = [explain_line(line, records) for line in report]
    for line in explained:
        print(line)


def read_arguments(about, commands):
    """What the command line asks for; `commands` has each by what it does."""
    parser = argparse.ArgumentParser(description=about, formatter_class=argparse.RawDescriptionHelpFormatter)
    added = parser.add_subparsers(required=True, metavar="COMMAND")
    for does, run in commands.items():
        command = added.add_parser(run.__name__, help=does)
        command.add_argument("file", metavar="FILE", help="- is standard input")
        if run is explain:
            command.add_argument("report", metavar="REPORT", help="what the rehearsal program wrote of FILE")
        command.set_defaults(run=run)
    return parser.parse_args()


def carry_out(arguments):
    try:
        arguments.run(arguments)
    except Mistakes as found:
        sys.exit(str(found))


def main(about, commands):
    carry_out(read_arguments(about, commands))


if __name__ == "__main__":
    main(__doc__, {"text to step file": pack, "step file to text": unpack, "a report explained": explain})
