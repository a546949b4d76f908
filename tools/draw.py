#!/usr/bin/env python3
"""A picture of a run, from its text or step file.

    python3 tools/draw.py FILE [REPORT] > run.svg
    python3 tools/draw.py --slot 3 FILE [REPORT] > run.svg           steps of slot 3
    python3 tools/draw.py --steps 20-60 FILE [REPORT] > run.svg      records 20 to 60
    python3 tools/draw.py --controller 7 FILE [REPORT] > run.svg     steps of controller 7, and of others what it heard

Each of the three leaves steps out, so that a large run stays readable; together they leave out more.

`-` stands for standard input. FILE is a step file if its name ends in .steps, else text as tools/steps.py has it.

Each controller has a lane, time goes to the right, and the numbers above are those of the records. A hear is an arrow from
where its message was sent to where it is heard, by sort: P0 is a proposal of slot 0, S0.1 a state of slot 0 in phase 1, V0.1
such a vote, N0 a notice; a label counts also for what is heard right behind it. S0.1=1 is the state 1, sent. A bar is a slot,
from its begin, or from the notice where there is none, to its close, and what it was closed with stands there. A lane ends
with its controller's crash. The mouse finds the step, its line and what it did at each mark.

A refused step is red, with its number and word. REPORT, what the rehearsal program wrote of FILE, says which are; without it
they are those that the rules give, with tables for every opening. A report of another file is turned away.

A step belongs to the slot that its message names, or else to that at which its controller stands.
"""

import argparse
import sys
from bisect import bisect_right
from pathlib import PurePath
from typing import NamedTuple

import follow
import steps
import svg

# in pixels; letters are taken to be so wide
MARGIN = 16
TITLE = 20
SUBTITLE = 36
NUMBERS = 58
NAMES = 100
NAMES_EVERY = 1400
NEAREST = 15
LETTER = 6.6
SMALL_LETTER = 5.6
LABEL_SPACE = 7
LINE = 13
HALF_LANE = 10
LANE_SPACE = 30
HALF_BAR = 8
SAMPLE = 32
LEAST_WIDTH = 760

MOST_LINES = 4
MANY_STEPS = 400
MANY_LANES = 7


class Label(NamedTuple):
    """Lines of text and their styles, over or under a mark."""

    lines: list
    over: bool

    @property
    def width(self):
        return LETTER * max((len(words) for words, _ in self.lines), default=0)


class Bar(NamedTuple):
    """A slot at a controller, by the numbers of the records that begin and close it; with no last one it is not closed."""

    slot: int
    first: int
    last: int | None
    entry: int | None


class Part(NamedTuple):
    """Which records are drawn: all, or those within a range, of a slot, or that concern a controller."""

    first: int
    last: int | None
    slot: int | None
    who: int | None

    def choose(self, run):
        heard = {effect.message for event in run.events if event.who == self.who for effect in event.effects}
        for event in run.events:
            within = self.first <= event.number and (self.last is None or event.number <= self.last)
            if within and self.slot in (None, event.slot) and (self.who in (None, event.who) or concerns(event, heard)):
                yield event


def concerns(event, heard):
    """Whether another controller sends there what was heard, or closes a slot or ends its lane."""
    return any(verb in ("close", "halt") or (verb == "send" and message in heard) for verb, message, _ in event.effects)


# ---- in words


def message_name(message):
    phase = f".{message.phase}" if message.phase else ""
    return f"{message.sort[0].upper()}{message.slot}{phase}"


def message_text(message):
    phase = f", phase {message.phase}" if message.phase else ""
    return f"{message.sort} of slot {message.slot}{phase}"


def word_text(message, word):
    if message.sort == "notice":
        return steps.entry_text(word)
    return steps.tag_text(word) if message.sort == "proposal" else str(word)


def effect_text(effect):
    verb, message, word = effect
    if verb == "hold":
        return f"holds {steps.tag_text(word)}"
    if verb == "send":
        return f"sends its {message_text(message)}: {word_text(message, word)}"
    if verb == "receive":
        return f"hears the {message_text(message)} of controller {message.sender}: {word_text(message, word)}"
    if verb == "close":
        return f"closes slot {message.slot}: {steps.entry_text(word)}"
    return {"open": "all are lit and idle", "seek": "enters the find round", "halt": "is dark"}[verb]


def event_text(event):
    what = [f"step {event.number}, {event.record.text}", *map(effect_text, event.effects)]
    if event.refusal:
        what.append(f"refused, {event.refusal}: {steps.refusal_text(event.refusal)}")
    return "\n".join(what)


def kind_word(event):
    if isinstance(event.record.content, steps.Broken):
        return "no record"
    return steps.narrow(event.record.content.kind).word


def is_heard(event):
    return any(effect.verb == "receive" for effect in event.effects)


# ---- labels


def effect_line(effect):
    """What a label says of an effect, and its style."""
    verb, message, word = effect
    if verb == "hold":
        return steps.tag_text(word), "ink"
    if verb == "send":
        return f"{message_name(message)}={word_text(message, word)}", message.sort
    if verb == "receive":
        return message_name(message), message.sort
    if verb == "close":
        return f"slot {message.slot}: {steps.entry_text(word)}", "notice strong"
    return {"open": "opening", "seek": "find", "halt": "crash"}[verb], "ink strong"


def shortened(lines):
    """Of a long run on the first and the last."""
    left_out = len(lines) - (MOST_LINES - 1)
    return lines if left_out < 2 else [lines[0], (f"+ {left_out}", "ink"), *lines[2 - MOST_LINES :]]


def label_of(event):
    if event.refusal:
        return Label([(f"{event.refusal} {steps.REFUSALS[event.refusal][0]}", "refused")], over=False)
    lines = shortened(list(map(effect_line, event.effects)))
    # that of a hear away from its arrow
    return Label(lines, over=not is_heard(event) or event.effects[0].message.sender > event.who)


def labels_of(events):
    """The label of each; where a controller hears the like several times in a row, the first has it for all."""
    labels = list(map(label_of, events))
    shown = labels[:1]
    for place in range(1, len(events)):
        before, event = events[place - 1 : place + 1]
        again = is_heard(event) and event.who == before.who and labels[place] == labels[place - 1]
        shown.append(Label([], True) if again else labels[place])
    return shown


# ---- slots


def bars_of(run, who):
    """The slots of a controller: from the begin, or from the notice where there is none, to the close."""
    bars = []
    noticed = {}
    began = None
    for event in run.events:
        for verb, message, word in event.effects if event.who == who else []:
            if verb == "receive" and message.sort == "notice":
                noticed.setdefault(message.slot, event.number)
            elif verb == "send" and message.sort == "proposal":
                began = event.number
            elif verb == "close":
                bars.append(Bar(message.slot, began or noticed[message.slot], event.number, word))
                began = None
    return bars + ([Bar(run.controllers[who].slot, began, None, None)] if began else [])


# ---- the picture


class Picture:
    def __init__(self, run, part):
        self.run = run
        self.part = part
        self.events = list(part.choose(run))
        self.labels = labels_of(self.events)
        self.numbers = [event.number for event in self.events]
        pairs = [(event, effect) for event in run.events for effect in event.effects]
        self.opened = next((event.number for event, effect in pairs if effect.verb == "open"), None)
        self.halted = {event.who: event.number for event, effect in pairs if effect.verb == "halt"}
        self.sent = {effect.message: event.number for event, effect in pairs if effect.verb in ("send", "close")}
        self.set_columns()
        self.set_rows()

    def set_columns(self):
        """Marks stand in the order of their records, as near to each other as their labels let them; between them at times the names."""
        x = edge = self.left = MARGIN + NAMES
        self.names = [MARGIN]
        self.columns = []
        edges = {}
        for event, label in zip(self.events, self.labels):
            if x > self.names[-1] + NAMES_EVERY:
                self.names.append(max(x + NEAREST, *edges.values()))
                x = edge = self.names[-1] + NAMES
                edges = {}
            side = event.who, label.over
            x = max(x + NEAREST, edges.get(side, edge) + LABEL_SPACE + label.width / 2)
            self.columns.append(x)
            if label.lines:
                edges[side] = x + label.width / 2
        self.right = max(x + NEAREST, LEAST_WIDTH - MARGIN, *edges.values())

    def set_rows(self):
        """A row for what has no controller, if anything drawn has none, and a lane for each controller."""
        rack = [None] if None in (event.who for event in self.events) else []
        self.lanes = range(len(self.run.controllers))
        self.rows = {}
        y = NUMBERS + LABEL_SPACE
        for who in [*rack, *self.lanes]:
            labels = [label for event, label in zip(self.events, self.labels) if event.who == who]
            over, under = (max((len(label.lines) for label in labels if label.over == side), default=0) for side in (True, False))
            y += over * LINE + HALF_LANE
            self.rows[who] = y
            y += under * LINE + HALF_LANE + (0 if who is None else LANE_SPACE)
        self.bottom = y

    def column(self, number):
        """Where a record stands; one that is not drawn, behind the last that was before it."""
        place = bisect_right(self.numbers, number)
        if place == 0:
            return self.left
        x = self.columns[place - 1]
        return x if self.numbers[place - 1] == number else x + NEAREST / 2

    def draw(self):
        """From the ground up."""
        yield from self.draw_numbers()
        for who in self.lanes:
            yield from self.draw_lane(who)
        arrows = map(self.draw_arrow, filter(is_heard, self.events))
        yield svg.node("g", *arrows, class_="crowd" if len(self.lanes) > MANY_LANES else "arrows")
        yield from map(self.draw_mark, self.events, self.labels, self.columns)

    def draw_numbers(self):
        """The numbers of the records, where there is room."""
        edge = self.left
        for x, number in zip(self.columns, map(str, self.numbers)):
            half = SMALL_LETTER * len(number) / 2
            if x - half >= edge:
                yield svg.text(number, x, NUMBERS, "faint small middle")
                edge = x + half + SMALL_LETTER / 2

    def lane_end(self, who):
        """At its crash, if that has come by the last record that is drawn."""
        halted = self.halted.get(who)
        return self.column(halted) if halted and halted <= self.numbers[-1] else self.right

    def draw_lane(self, who):
        """From the opening on; a crash that is not drawn is said."""
        y = self.rows[who]
        start, end = self.column(self.opened), self.lane_end(who)
        if self.opened <= self.numbers[-1] and start < end:
            yield svg.line(start, end, y)
        if end < self.right and self.halted[who] not in self.numbers:
            yield svg.text(f"dark since step {self.halted[who]}", end + LABEL_SPACE, y + 4, "faint")
        for bar in bars_of(self.run, who):
            if self.part.slot in (None, bar.slot):
                yield from self.draw_bar(who, bar, end)
        for x in self.names:
            if x < end:
                yield svg.text(f"controller {who}", x, y + 4, "ink strong")

    def draw_bar(self, who, bar, end):
        """What began before all that is drawn stands out to the left; what is closed behind it goes on to the lane's end."""
        closed = bar.last is not None and bar.last <= self.numbers[-1]
        start = self.column(bar.first) if bar.first >= self.numbers[0] else self.left - HALF_BAR
        end = self.column(bar.last) if closed else end
        if bar.first > self.numbers[-1] or end <= max(start, self.left):
            return
        how = "not closed" if bar.last is None else f"closed at step {bar.last}: {steps.entry_text(bar.entry)}"
        title = svg.title(f"controller {who}, slot {bar.slot} from step {bar.first}, {how}")
        if closed:
            yield svg.bar(start, end, self.rows[who], HALF_BAR, "full" if bar.entry else "empty", title)
        else:
            yield svg.open_bar(start, end, self.rows[who], HALF_BAR, title)

    def draw_arrow(self, event):
        message = event.effects[0].message
        start = self.column(self.sent[message]), self.rows[message.sender]
        end = self.column(event.number), self.rows[event.who]
        return svg.node("g", svg.title(event_text(event)), svg.arrow(message.sort, start, end), class_=message.sort)

    def draw_mark(self, event, label, x):
        y = self.rows[event.who]
        first = y - HALF_LANE - 2 - LINE * (len(label.lines) - 1) if label.over else y + HALF_LANE + 9
        lines = [svg.text(words, x, first + place * LINE, f"{style} middle") for place, (words, style) in enumerate(label.lines)]
        sent = [effect.message.sort for effect in event.effects if effect.message]
        colour = "refused" if event.refusal else sent[-1] if sent else "ink"
        mark = svg.shape(kind_word(event), x, y, hollow=event.refusal)
        return svg.node("g", svg.title(event_text(event)), mark, *lines, class_=colour)

    def svg(self, title, subtitle):
        heading = [svg.text(title, MARGIN, TITLE, "ink large strong"), svg.text(subtitle, MARGIN, SUBTITLE, "faint")]
        legend, bottom = legend_below(self.bottom, self.right)
        drawn = [*heading, *self.draw(), *legend]
        return svg.picture(f"{title}; {subtitle}", self.right + MARGIN, bottom + MARGIN, steps.SORTS, drawn)


def samples():
    """What the legend shows, with its style and words."""
    for kind in ("submit", "relay", "begin", "advance", "run on", "crash"):
        yield svg.shape(kind, 16, -4, hollow=False), "ink", kind
    yield svg.shape("advance", 16, -4, hollow=True), "refused", "refused"
    named = {"proposal": "P0, of slot 0", "state": "S0.1, of slot 0, phase 1", "vote": "V0.1", "notice": "N0"}
    for sort, name in named.items():
        yield svg.arrow(sort, (0, -4), (30, -4)), sort, f"{sort} {name}"
    yield svg.bar(0, 26, -4, HALF_BAR, "full"), "slot", "slot with an order"
    yield svg.bar(0, 26, -4, HALF_BAR, "empty"), "slot", "empty slot"
    yield svg.open_bar(0, 26, -4, HALF_BAR), "slot", "slot not closed"


def legend_below(y, right):
    """The legend in as many lines as it needs, and where they end."""
    drawn = []
    x, y = MARGIN, y + LINE + LABEL_SPACE
    for sample, style, words in samples():
        width = SAMPLE + LETTER * len(words) + MARGIN
        if x + width > right:
            x, y = MARGIN, y + LINE + LABEL_SPACE
        drawn.append(svg.node("g", sample, svg.text(words, SAMPLE, 0, "ink"), class_=style, transform=svg.at(x, y)))
        x += width
    return drawn, y


# ---- the command


def counted(count, word):
    return f"{count} {word}" if count == 1 else f"{count} {word}s"


def part_text(part, drawn, total):
    """Which steps are drawn."""
    chosen = []
    if part.slot is not None:
        chosen.append(f"slot {part.slot}")
    if part.who is not None:
        chosen.append(f"controller {part.who}")
    if part.last is not None:
        chosen.append(f"steps {part.first} to {min(part.last, total)}")
    return f"{', '.join(chosen)} ({drawn} of {counted(total, 'step')})" if chosen else f"all {counted(total, 'step')}"


def file_name(name):
    return PurePath(steps.shown_name(name)).name


def heading(name, report, run, part, events):
    """The title says what is drawn, the line below it what was refused, and who says so."""
    rack = f"{counted(len(run.controllers), 'controller')}, {run.rack.spare} spare" if run.rack else "no rack was opened"
    refused = sum(event.refusal is not None for event in events) or "none"
    source = f"as {file_name(report)} says" if report else "by the rules; no report was given"
    return f"{file_name(name)}: {part_text(part, len(events), len(run.events))}; {rack}", f"{refused} refused, {source}"


def read_range(words):
    """FIRST-LAST, records counted from 1."""
    first, _, last = words.partition("-")
    numbers = [steps.decimal(word, 10**9) for word in (first, last)]
    if None in numbers or not 1 <= numbers[0] <= numbers[1]:
        raise argparse.ArgumentTypeError(f"expected FIRST-LAST with numbers from 1 on, not '{words}'")
    return numbers


def read_number(word):
    number = steps.decimal(word, 10**9)
    if number is None:
        raise argparse.ArgumentTypeError(f"expected a number, not '{word}'")
    return number


def read_arguments():
    parser = argparse.ArgumentParser(description=__doc__, formatter_class=argparse.RawDescriptionHelpFormatter)
    parser.add_argument("file", metavar="FILE", help="- is standard input")
    parser.add_argument("report", metavar="REPORT", nargs="?", help="what the rehearsal program wrote of FILE")
    parser.add_argument("--slot", type=read_number, help="draw the steps of this slot")
    parser.add_argument("--controller", type=read_number, help="draw the steps of this controller, and those whose messages it heard")
    parser.add_argument("--steps", type=read_range, metavar="FIRST-LAST", default=(1, None), help="draw these records")
    parser.set_defaults(run=draw)
    return parser.parse_args()


def draw(arguments):
    run = follow.follow(*steps.read_played(arguments))
    part = Part(*arguments.steps, arguments.slot, arguments.controller)
    if part.who is not None and part.who >= len(run.controllers):
        raise steps.Mistakes([f"there is no controller {part.who}, the rack has {len(run.controllers)}"])
    picture = Picture(run, part)
    if run.events and not picture.events:
        raise steps.Mistakes([f"nothing to draw: {part_text(part, 0, len(run.events))}"])
    if len(picture.events) > MANY_STEPS:
        print(f"{len(picture.events)} steps are drawn; --slot, --steps or --controller draws a part of them", file=sys.stderr)
    svg_text = picture.svg(*heading(arguments.file, arguments.report, run, part, picture.events))
    sys.stdout.buffer.write(svg_text.encode("utf-8", "replace"))


if __name__ == "__main__":
    steps.carry_out(read_arguments())
