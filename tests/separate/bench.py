#!/usr/bin/env python3
"""Writes docs/BENCH.md: the tables of several runs of the benchmark as one, and the instructions of a call.

    bench.py BENCH [RUNS] > docs/BENCH.md

BENCH is the built benchmark, target/cargo/release/bench once tests/run has run. It is run with --quick, 40 times if not said,
a few seconds each, on a machine with nothing else to do. Each row is that of the run at the 20th percentile of the library's
times for it. The instructions are counted by valgrind.
"""

import re
import subprocess
import sys

RUNS = 40
PERCENT = 20
TIME = "library, ns"
COUNT = ["valgrind", "--tool=callgrind", "--callgrind-out-file=/dev/null", "--toggle-collect=rushhopper_*"]
# calls by the names of the benchmark, and the racks or the entries that they are counted with
COUNTED = (("n", (3, 15), ("fill-strip", "open", "submit-blank", "submit-new", "relay", "begin", "hear-proposal", "hear-vote",
                           "hear-notice", "exchange", "state", "vote-close", "vote-coin", "find", "notice-state", "run-on",
                           "conduct", "crash")),
           ("entries", (16, 64, 1024), ("to-planes", "to-entries")))

HEAD = """\
# Benchmark

Written by `python3 tests/separate/bench.py target/cargo/release/bench > docs/BENCH.md` on a machine with nothing else to do: {runs}
with `--quick`, each row that of the run at the {percent}th percentile of the library's times for it. tests/separate/README.md says how
a row is measured. docs/FIGURES.md has the ten that are asked for first.
"""

# what stands above each table, in the order in which the benchmark prints them
ABOVE = ("""
## Each call beside the separate implementation's

Nanoseconds of a call and millions of calls per second, and the ratio of the times: the median, and the 10th to 90th percentile of
the pairs. 64 slots, 16 phases, room 256; f the most that n allows.
""", """
## How the library's calls grow
""", """
## The longest run

1,024 slots, 16 phases, room 1,024. "In order": the tags were submitted in the order of their ranks, as the logs have them;
"shuffled": in any order, and logged by rank. The conductor's tag is held by one; the step files are of three replicas, in kinds 8
and 9 where these apply.
""", """
## Logs for the archive

A batch writes 8,192 bytes, so that it stays in the first cache.
""")

INSTRUCTIONS = """
## Instructions of a call

What `valgrind --tool=callgrind --toggle-collect='rushhopper_*' target/cargo/release/bench --callgrind CALL N` collects, over the calls
that it prints: 128 known tags, 32 closed slots; N is n, or the archive's entries. They do not depend on what else runs.
"""


def cells(line):
    return [cell.strip() for cell in line.strip("|").split("|")]


def tables(printed):
    """The tables of a run, each the list of its lines."""
    found, before = [], ""
    for line in printed.splitlines():
        if line.startswith("|"):
            if not before.startswith("|"):
                found.append([])
            found[-1].append(line)
        before = line
    return found


def time(line, column):
    """A row that grows has several times."""
    return sum(float(one) for one in cells(line)[column].split(", "))


def chosen(table, *others):
    """One table of the same one of several runs."""
    column = cells(table[0]).index(TIME)
    lines = table[:2]
    for rows in zip(table[2:], *(other[2:] for other in others), strict=True):
        if len({tuple(cells(row)[:column]) for row in rows}) > 1:
            sys.exit(f"the runs differ in {rows[0]}")
        ordered = sorted(rows, key=lambda row: time(row, column))
        lines.append(ordered[(len(ordered) - 1) * PERCENT // 100])
    return lines


def measured(bench, runs):
    printed = []
    for run in range(runs):
        print(f"run {run + 1} of {runs}", file=sys.stderr)
        printed.append(tables(subprocess.run([bench, "--quick"], stdout=subprocess.PIPE, text=True, check=True).stdout))
        if len(printed[-1]) != len(ABOVE):
            sys.exit(f"the benchmark printed {len(printed[-1])} tables, and not {len(ABOVE)}")
    return [chosen(*table) for table in zip(*printed)]


def instructions(bench, call, size):
    done = subprocess.run([*COUNT, bench, "--callgrind", call, str(size)], capture_output=True, text=True, check=True)
    collected, calls = re.search(r"Collected : (\d+)", done.stderr), re.match(r"(\d+) calls", done.stdout)
    return str(round(int(collected[1]) / int(calls[1])))


def counted(bench):
    for name, sizes, calls in COUNTED:
        yield ["", f"| call | {' | '.join(f'{name} {size}' for size in sizes)} |", "|---|" + "---:|" * len(sizes)]
        yield [f"| {call} | {' | '.join(instructions(bench, call, size) for size in sizes)} |" for call in calls]


def written(runs, found, counts):
    """The whole page."""
    yield HEAD.format(runs="one run" if runs == 1 else f"{runs} runs", percent=PERCENT).rstrip("\n")
    for above, table in zip(ABOVE, found, strict=True):
        yield from (above.rstrip("\n"), "", *table)
    yield INSTRUCTIONS.rstrip("\n")
    for lines in counts:
        yield from lines


def main():
    if len(sys.argv) not in (2, 3) or not all(word.isdecimal() and int(word) for word in sys.argv[2:]):
        sys.exit(__doc__)
    bench, runs = sys.argv[1], int(sys.argv[2]) if len(sys.argv) == 3 else RUNS
    try:
        counts = list(counted(bench))
        found = measured(bench, runs)
    except (OSError, subprocess.CalledProcessError) as failed:
        sys.exit(str(failed))
    for text in written(runs, found, counts):
        print(text)


if __name__ == "__main__":
    main()
