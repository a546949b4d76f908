"""What each record of a step file does to a rack, by the rules of documents 01 and 02: for tools that show a run.

This is written apart from the proved library and is as good as this page; tests/steps/compare.py holds it against the
rehearsal program. With that program's report at hand `follow` takes from it what its tables and the length of its input
decide, and a report that says anything else than the rules is turned away.
"""

from collections import Counter
from typing import NamedTuple

import steps

SHORT_TABLE = 2
PHASES_UNLESS_TOLD = 16
# the round in which a message of each sort leaves its sender
ROUNDS = {"proposal": "exchange", "state": "state", "vote": "vote", "notice": "idle"}
UNSURE = "?"


class Message(NamedTuple):
    sender: int
    sort: str
    slot: int
    phase: int


class Effect(NamedTuple):
    """What an accepted step did: open; hold a tag; send; receive; close, which sends a notice; seek, in the find round; halt."""

    verb: str
    message: Message | None = None
    word: int | str | None = None


class Event(NamedTuple):
    """What became of a record; it has no controller if the rack has none of its number, and then no slot."""

    number: int
    record: steps.Record
    who: int | None
    slot: int | None
    refusal: int | None
    effects: list


class Refused(Exception):
    def __init__(self, number):
        super().__init__(number)
        self.number = number


def refuse(*grounds):
    """With the first of these numbers whose condition is met, if one is."""
    for number, met in grounds:
        if met:
            raise Refused(number)


def coin_table():
    table = [1] * 9
    while len(table) < 511:
        table.append(table[-5] ^ table[-9])
    return table


COINS = coin_table()


class Controller:
    def __init__(self):
        self.lit = True
        self.round = "idle"
        self.phase = 0
        self.log = []
        self.held = set()
        # by sort, slot and phase: what each sender said
        self.heard = {}

    @property
    def slot(self):
        return len(self.log)

    def words(self, sort, phase=0):
        """What it has heard in its slot, by sender."""
        return self.heard.get((sort, self.slot, phase), {})

    def hear(self, message, word):
        sender, *rest = message
        self.heard.setdefault(tuple(rest), {})[sender] = word


class Rack:
    """The steps of document 01's "What a controller does", each behind its refusals; `me` is the controller that acts."""

    def __init__(self, n, f, slots, phases, room, start):
        self.controllers = [Controller() for _ in range(n)]
        self.spare = f
        self.quota = n - f
        self.majority = n // 2 + 1
        self.slots = slots
        self.phases = phases
        self.room = room
        self.start = start
        self.known = set()
        self.sent = {}

    def hold(self, me, tag):
        self.known.add(tag)
        me.held.add(tag)
        return [Effect("hold", word=tag)]

    def send(self, me, sort, phase, word):
        """To all; its own counts as heard when sent."""
        message = Message(self.controllers.index(me), sort, me.slot, phase)
        self.sent[message] = word
        me.hear(message, word)
        me.round, me.phase = ROUNDS[sort], phase
        return [Effect("close" if sort == "notice" else "send", message, word)]

    def close(self, me, entry):
        effects = self.send(me, "notice", 0, entry)
        me.log.append(entry)
        return effects

    def submit(self, me, tag):
        full = tag not in self.known and len(self.known) >= self.room
        refuse((6, tag == 0), (7, tag in me.held), (8, full))
        return self.hold(me, tag)

    def relay(self, me, tag):
        refuse((6, tag == 0), (9, tag not in self.known), (7, tag in me.held))
        return self.hold(me, tag)

    def begin(self, me):
        """Proposes the smallest of the urgent tags pending, or else of all."""
        pending = me.held.difference(me.log)
        refuse((10, me.round != "idle"), (11, me.slot >= self.slots), (12, not pending))
        urgent = {tag for tag in pending if tag >= steps.URGENT}
        return self.send(me, "proposal", 0, min(urgent or pending))

    def hear(self, me, sender, sort, slot, phase):
        message = Message(sender, steps.SORT_WORDS.get(sort), slot, phase)
        first, last = (1, self.phases) if message.sort in ("state", "vote") else (0, 0)
        nowhere = message.sort is None or slot >= self.slots or not first <= phase <= last
        heard = sender in me.heard.get((message.sort, slot, phase), {})
        refuse((16, nowhere), (17, message not in self.sent), (18, heard))
        me.hear(message, self.sent[message])
        return [Effect("receive", message, self.sent[message])]

    def crash(self, me):
        me.lit = False
        return [Effect("halt")]

    def advance(self, me):
        """A heard notice goes before every other rule; of several the lowest sender's counts."""
        notices = me.words("notice")
        if notices:
            return self.close(me, notices[min(notices)])
        refuse((13, me.round == "idle"))
        return getattr(self, f"advance_{me.round}")(me)

    def run_on(self, me):
        """Until a slot is closed or the next advance is refused; refused if the first is."""
        effects = self.advance(me)
        while effects[-1].verb != "close":
            try:
                effects += self.advance(me)
            except Refused:
                break
        return effects

    def quota_of(self, me, sort, phase=0):
        """How often each word was heard, with a quota of them."""
        words = me.words(sort, phase).values()
        refuse((14, len(words) < self.quota))
        return Counter(words)

    def majority_tag(self, me):
        tags = Counter(me.words("proposal").values())
        return next((tag for tag, count in tags.items() if count >= self.majority), None)

    def advance_exchange(self, me):
        self.quota_of(me, "proposal")
        return self.send(me, "state", 1, 0 if self.majority_tag(me) is None else 1)

    def advance_state(self, me):
        states = self.quota_of(me, "state", me.phase)
        vote = next((value for value in (0, 1) if states[value] >= self.majority), UNSURE)
        return self.send(me, "vote", me.phase, vote)

    def advance_vote(self, me):
        votes = self.quota_of(me, "vote", me.phase)
        outcome = next((value for value in (0, 1) if votes[value] > self.spare), None)
        if outcome is not None:
            return self.conclude(me, outcome)
        refuse((15, me.phase >= self.phases))
        coin = COINS[(self.start + 32 * me.slot + me.phase - 1) % len(COINS)]
        return self.send(me, "state", me.phase + 1, next((value for value in (0, 1) if votes[value]), coin))

    def conclude(self, me, outcome):
        tag = self.majority_tag(me) if outcome else 0
        if tag is not None:
            return self.close(me, tag)
        me.round = "find"
        return [Effect("seek")]

    def advance_find(self, me):
        tag = self.majority_tag(me)
        refuse((14, tag is None))
        return self.close(me, tag)


def open_rack(n, f, slots, phases, room, start):
    phases = phases or PHASES_UNLESS_TOLD
    limits = ((n, 15), (slots, 1024), (phases, 32), (room, 1024))
    within = all(1 <= number <= most for number, most in limits)
    refuse((1, not within or 2 * f + 1 > n or start >= len(COINS)))
    return Rack(n, f, slots, phases, room, start)


class Run:
    """A step file, record by record; `reported` has the refusals of its report, if there is one, by record."""

    def __init__(self, reported):
        self.rack = None
        self.events = []
        self.reported = reported

    @property
    def controllers(self):
        return self.rack.controllers if self.rack else []

    def take(self, record):
        number = len(self.events) + 1
        who, slot = self.standing(record.content)
        try:
            event = Event(number, record, who, slot, None, self.play(record.content, self.reported.get(number)))
        except Refused as refused:
            event = Event(number, record, who, slot, refused.number, [])
        self.events.append(event)
        return event

    def standing(self, content):
        """The controller that acts, if the rack has it, and the slot: a message's own, or else where the controller stands."""
        if isinstance(content, steps.Broken) or steps.narrow(content.kind) == steps.OPENING:
            return None, None
        who, *rest = content.numbers
        if who >= len(self.controllers):
            return None, None
        return who, rest[2] if content.kind in steps.HEARS else self.controllers[who].slot

    def play(self, content, reported):
        # the program's input may end before the file
        refuse((steps.CUT_RECORD, reported == steps.CUT_RECORD))
        if isinstance(content, steps.Broken):
            raise Refused(content.refusal)
        kind = steps.narrow(content.kind)
        refuse((21, (kind == steps.OPENING) == bool(self.rack)))
        if kind == steps.OPENING:
            rack = open_rack(*content.numbers)
            refuse((SHORT_TABLE, reported == SHORT_TABLE))
            self.rack = rack
            return [Effect("open")]
        return self.step(kind, *content.numbers)

    def step(self, kind, who, *rest):
        """4 and 5, then the step's own rule."""
        numbers = (who, rest[0]) if kind == steps.HEAR else (who,)
        refuse((4, max(numbers) >= len(self.controllers)))
        me = self.controllers[who]
        refuse((5, not me.lit))
        return getattr(self.rack, kind.word.replace(" ", "_"))(me, *rest)

    def report(self):
        """The lines that the rehearsal program writes."""
        for event in self.events:
            if event.refusal:
                yield f"refused {event.number} {event.refusal}"
            elif event.effects == [Effect("open")]:
                yield f"controllers {len(self.controllers)} spare {self.rack.spare}"
        for who, controller in enumerate(self.controllers):
            entries = [str(entry or "-") for entry in controller.log]
            yield " ".join(["bench", str(who), "lit" if controller.lit else "dark", str(controller.slot), *entries])


def follow(records, report=None):
    """The run of these records; a report that is not theirs is a mistake."""
    run = Run(dict(filter(None, map(steps.read_refusal, report or []))))
    for record in records:
        if run.take(record).refusal in (steps.UNKNOWN_KIND, steps.CUT_RECORD):
            break
    if report is None:
        return run
    expected = list(run.report())
    for line, (found, wanted) in enumerate(zip([*report, "its end"], [*expected, "its end"]), 1):
        if found != wanted:
            raise steps.Mistakes([f"the report is of another file: its line {line} is '{found}', where these steps give '{wanted}'"])
    return run
