"""Measures the calls on long lists: lists.py FOLDER PROGRAM. bench/lists.sh calls it, with the program of pm_bench.

Times are of the processor, which the process got from its start to its end: what it waited for one doesn't count. For
each call and size, runs at that size and at size 1 take turns. The best of each counts, and their difference is left
for the call, the making of its input and the checksum. Where valgrind is there, the instructions are counted too, in
one run at each size, and again those at size 1 are taken away.

Memory is the peak of the resident memory of a run, the least of the rounds, as measure.py tells it.
"""

import os
import re
import resource
import shutil
import subprocess
import sys

from measure import head, machine, megabytes, row, run

# How many rounds are run at each size.
ROUNDS = {10_000: 60, 100_000: 20, 1_000_000: 5}

# The checksums at size 1, and at each size of ROUNDS. They were worked out by programs in Python that follow the
# definitions and not the code.
CHECKSUMS = {
    "code": [0, 15818597375083165464, 1089864976874301604, 6779174713565372161],
    "arrange": [0, 2051683158133011702, 8989606300984032236, 1199327837182393628],
    "parts": [31, 8361950581408717552, 3060868375429025120, 1247562333080618432],
    "choices drawn": [0, 3903688881761821193, 12176235328083788614, 2355969703457662526],
    "choices path": [0, 8385362608160902688, 9589766222479658304, 891412000724583552],
    "tree drawn": [1, *ROUNDS],
    "tree path": [1, *ROUNDS],
    "grow drawn": [30752, 11869600999810514062, 253296618302807598, 14496739191395365980],
    "grow path": [30752, 11724266935432733064, 12457420295033507664, 10150408807261935904],
    "ungrow drawn": [0, 3903688881761821193, 12176235328083788614, 2355969703457662526],
    "ungrow path": [0, 8385362608160902688, 9589766222479658304, 891412000724583552],
}

# What is left for a call where the time of another one, which does the rest of the work, is taken away.
ALONE = {
    "`grow` alone, drawn": ("tree drawn", "choices drawn"),
    "`grow` alone, path": ("tree path", "choices path"),
    "`ungrow` alone, drawn": ("ungrow drawn", "tree drawn"),
    "`ungrow` alone, path": ("ungrow path", "tree path"),
}


class Result:
    """The least seconds and peak memory of the runs of a call at one size, and the least seconds at size 1."""

    def __init__(self, size, start, whole, kilobytes):
        self.start = start
        self.whole = whole
        self.kilobytes = kilobytes
        self.each = (whole - start) / size * 1e9


def processor_time():
    """The seconds of processor time that the processes run so far have got."""
    usage = resource.getrusage(resource.RUSAGE_CHILDREN)
    return usage.ru_utime + usage.ru_stime


def run_once(program, call, size, target):
    """The seconds of processor time and the peak memory of one run, and whether its status and its checksum are right."""
    name, *shape = call.split()
    before = processor_time()
    result = run([program, name, str(size), *shape], target=target)
    seconds = processor_time() - before
    with open(target, encoding="ascii") as lines:
        printed = lines.read()
    expected = CHECKSUMS[call][[1, *ROUNDS].index(size)]
    return seconds, result.kilobytes, result.status == 0 and printed == f"{expected}\n"


def measure(program, call, size, target):
    """The result of a call at this size, and whether all runs were right."""
    pairs = [(run_once(program, call, 1, target), run_once(program, call, size, target)) for _ in range(ROUNDS[size])]
    starts, wholes = zip(*pairs)
    result = Result(size, min(starts)[0], min(wholes)[0], min(kilobytes for _, kilobytes, _ in wholes))
    return result, all(good for _, _, good in starts + wholes)


def instructions(program, call, size):
    """How many instructions one run takes, as valgrind counts them, or None where it tells no number."""
    name, *shape = call.split()
    count = ["valgrind", "--tool=callgrind", "--callgrind-out-file=/dev/null"]
    result = subprocess.run([*count, program, name, str(size), *shape], capture_output=True, check=False)
    found = re.search(rb"Collected : (\d+)", result.stderr)
    return int(found.group(1)) if found else None


def growth(each):
    """How many times the last figure is the first, as text."""
    return f"{each[-1] / each[0]:.1f}" if each[0] > 0 else "-"


def time_table(program, target):
    """One row for each call: at each size its milliseconds, those at size 1, and the nanoseconds per entry.

    Answers the results of each call, and whether all runs were right.
    """
    units = [f"{size:,}: {unit}" for size in ROUNDS for unit in ("ms", "ms at 1", "ns per entry")]
    head(["Processor time", *units, "growth"])
    results = {}
    right = True
    for call in CHECKSUMS:
        measured = [measure(program, call, size, target) for size in ROUNDS]
        results[call] = [result for result, _ in measured]
        right = right and all(good for _, good in measured)
        cells = [f"`{call}`"]
        for result in results[call]:
            cells += [f"{result.whole * 1e3:.1f}", f"{result.start * 1e3:.1f}", f"{result.each:.0f}"]
        row([*cells, growth([result.each for result in results[call]])])
    print()
    return results, right


def alone_table(results):
    """One row for each difference of two calls: the nanoseconds per choice at each size."""
    head(["Nanoseconds per choice", *[f"{size:,}" for size in ROUNDS], "growth"])
    for title, (whole, rest) in ALONE.items():
        each = [more.each - less.each for more, less in zip(results[whole], results[rest])]
        row([title, *[f"{nanoseconds:.0f}" for nanoseconds in each], growth(each)])
    print()


def memory_table(results, floor):
    """One row for each call: the peak memory of a run at each size, in MB."""
    head(["Peak memory, MB", *[f"{size:,}" for size in ROUNDS]])
    for call, each in results.items():
        row([f"`{call}`", *[megabytes(result.kilobytes, floor) for result in each]])
    print()


def instruction_table(program):
    """One row for each call: the instructions for each entry at each size."""
    head(["Instructions per entry", *[f"{size:,}" for size in ROUNDS], "growth"])
    for call in CHECKSUMS:
        start, *counts = [instructions(program, call, size) for size in [1, *ROUNDS]]
        if start is None or None in counts:
            row([f"`{call}`", *["-"] * (len(counts) + 1)])
            continue
        each = [(count - start) / size for count, size in zip(counts, ROUNDS)]
        row([f"`{call}`", *[f"{count:.0f}" for count in each], growth(each)])
    print()


def main():
    folder, program = sys.argv[1], os.path.abspath(sys.argv[2])
    target = os.path.join(folder, "answer")
    machine(", ".join(str(rounds) for rounds in ROUNDS.values()))
    right = run([program], target=target).status == 1
    results, good = time_table(program, target)
    right = good and right
    alone_table(results)
    memory_table(results, run(["true"]).kilobytes)
    if shutil.which("valgrind"):
        instruction_table(program)
    print("Each run had the right status and checksum." if right else "A run had a wrong status or checksum.")
    return 0 if right else 1


if __name__ == "__main__":
    sys.exit(main())
