"""Compares tools/follow.py with the rehearsal program on step files, and counts what they reach.

    python3 tests/steps/compare.py REHEARSE [RUNS [SEED]]

The files are examples, changed at random. Fails at the first report that differs, and if a case never occurred.
"""

import random
import subprocess
import sys
from collections import Counter

import trying

import follow
import steps

# 3 and those above 21 are no step file's
REFUSALS = {1, 2, *range(4, 22)}
VERBS = {"open", "hold", "send", "receive", "close", "seek", "halt"}
CASES = {"closed as empty", "closed by a notice", "closed while idle", "state by a vote", "state by the coin"}
# of records left out, written twice, moved behind the next, or given another number: how many in a hundred
CHANGES = (0, 1, 3, 10)
NUMBERS = (0, 0, 0, 1, 2, 3, 4, 5, 9, 15, 33, 510, 511, steps.URGENT + 9)
ENDS = (b"", b"", b"", b"", b"\x0a", b"\xff", b"\x04\x00")


def renumbered(draw, step):
    """The step with one of its numbers changed, if the new one has room there."""
    numbers = list(step.numbers)
    numbers[draw.randrange(len(numbers))] = draw.choice(NUMBERS)
    return step._replace(numbers=numbers) if steps.fits(step.kind, numbers) else step


def changed(draw, example):
    """An example with some of its steps changed."""
    share = draw.choice(CHANGES) / 100
    made = []
    for step in example:
        # there are few openings, and their limits matter
        if draw.random() < (0.5 if steps.narrow(step.kind) == steps.OPENING else share):
            step = renumbered(draw, step)
        made += [step] * draw.choices((1, 0, 2), (1 - 2 * share, share, share))[0]
        if len(made) > 1 and draw.random() < share:
            made[-2:] = reversed(made[-2:])
    return made


def closing_cases(met, who, slot, entry):
    """How a slot was closed, by what its controller had sent and heard."""
    if entry == 0:
        yield "closed as empty"
    if (who, "receive", "notice", slot) in met:
        yield "closed by a notice"
    if (who, "send", "proposal", slot) not in met:
        yield "closed while idle"


def cases(run):
    """What a run has reached."""
    met = set()
    for event in run.events:
        yield event.refusal
        for verb, message, word in event.effects:
            yield verb
            if verb == "close":
                yield from closing_cases(met, event.who, message.slot, word)
            if message:
                met.add((event.who, verb, message.sort, message.slot))
            if verb == "send" and message.sort == "state" and message.phase > 1:
                votes = run.controllers[event.who].heard["vote", message.slot, message.phase - 1]
                yield "state by the coin" if set(votes.values()) == {follow.UNSURE} else "state by a vote"


def played(rehearse, data):
    """The run of a step file, held against the program's report."""
    report = subprocess.run([rehearse], input=data, capture_output=True, check=True).stdout.decode().splitlines()
    try:
        return follow.follow(steps.records_of(data), report)
    except steps.Mistakes as found:
        sys.exit(f"{found}\n{data.hex()}")


def main(rehearse, runs="1000", seed="1"):
    draw = random.Random(int(seed))
    texts = sorted((trying.ROOT / "examples").glob("*.txt"))
    examples = [list(steps.read_text(text.name, text.read_text()).values()) for text in texts]
    reached = Counter()
    for _ in range(int(runs)):
        data = b"".join(map(steps.step_bytes, changed(draw, draw.choice(examples))))
        reached.update(cases(played(rehearse, data + draw.choice(ENDS))))
    missing = (REFUSALS | VERBS | CASES) - set(reached)
    if missing:
        sys.exit(f"never reached: {', '.join(map(str, missing))}")
    print(f"{runs} step files followed as the rehearsal program plays them; {reached['close']} slots were closed")


if __name__ == "__main__":
    main(*sys.argv[1:])
