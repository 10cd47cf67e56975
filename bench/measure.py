"""Measures the program, alone or beside another one: measure.py FOLDER PROGRAM [OTHER]. bench/run.sh calls it.

Seconds are wall seconds from the start of a process to its end. Memory is the peak of the resident memory, as the
system tells it where the process is waited for; 1 MB is 1,000,000 bytes. The system counts what the process had before
it became the program as well, and that is a copy of this process. So what is below this process's own memory can't be
seen: it is printed as `<` and that bound. Hence this process stays small: it keeps no tree and no answer, and the trees
are made by another process.

Of three rounds the best counts, for seconds and memory each. In a round the programs run one after the other.
"""

import os
import signal
import sys
import time

ROUNDS = 3
STARTS = 50  # starts of a program in one round of the start-up
LIMIT = 600  # seconds after which a run is stopped
BLOCK = 65536

DEEP_NODES = [10_000, 50_000, 200_000]
WIDE_HUBS = [106, 1_064, 4_255]
MAP_NODES = [5_000, 50_000, 500_000]
LARGEST_NODES = 1_000_000
SAMPLE_NODES = [1_000, 10_000, 100_000, 1_000_000]
PROFILE_NODES = [1_000, 10_000, 100_000, 300_000, 500_000]
PROFILE_DEGREES = [[4], [2, 4, 6]]
DRAWINGS = [(10, 1_000), (100, 1_000), (1_000, 1_000), (10_000, 100), (100_000, 10), (1_000_000, 1)]
DRAW_SEED = 1
CENSUSES = [(3, 6_480), (4, 272_160)]
CLASSES = ["quartic", "eulerian", "general", "bipartite"]


class Run:
    """What one run of a program took, and how it ended: its status, or None where it was stopped or crashed."""

    def __init__(self, seconds, kilobytes, status):
        self.seconds = seconds
        self.kilobytes = kilobytes
        self.status = status


def run(words, source=os.devnull, target=os.devnull):
    """Runs the program words[0] with the file `source` as its input, its output going to `target`, to its end."""
    streams = [
        (os.POSIX_SPAWN_OPEN, 0, source, os.O_RDONLY, 0),
        (os.POSIX_SPAWN_OPEN, 1, target, os.O_WRONLY | os.O_CREAT | os.O_TRUNC, 0o600),
        (os.POSIX_SPAWN_OPEN, 2, os.devnull, os.O_WRONLY, 0),
    ]
    start = time.perf_counter()
    child = os.posix_spawnp(words[0], words, os.environ, file_actions=streams)
    signal.signal(signal.SIGALRM, lambda *_: os.kill(child, signal.SIGKILL))
    signal.alarm(LIMIT)
    _, status, usage = os.wait4(child, 0)
    seconds = time.perf_counter() - start
    signal.alarm(0)
    return Run(seconds, usage.ru_maxrss, os.WEXITSTATUS(status) if os.WIFEXITED(status) else None)


def best(runs):
    """The least seconds and memory of some runs, and their status, or None where one crashed or two differ."""
    statuses = {each.status for each in runs}
    status = statuses.pop() if len(statuses) == 1 else None
    return Run(min(each.seconds for each in runs), min(each.kilobytes for each in runs), status)


def equal_files(one, other):
    """Whether two files have the same bytes."""
    with open(one, "rb", buffering=0) as left, open(other, "rb", buffering=0) as right:
        while True:
            block = left.read(BLOCK)
            if block != right.read(BLOCK):
                return False
            if not block:
                return True


def row(cells):
    print("| " + " | ".join(cells) + " |", flush=True)


def head(cells):
    row(cells)
    row(["---"] + ["---:"] * (len(cells) - 1))


def megabytes(kilobytes, floor):
    """The memory in MB, or the floor as a bound where it is no higher than a tenth above the floor."""
    if kilobytes * 10 <= floor * 11:
        return f"< {floor * 1.1 * 1024 / 1e6:.0f}"
    return f"{kilobytes * 1024 / 1e6:.0f}"


def machine(best_of):
    """Prints what the machine is, and of how many runs the best counts."""
    with open("/proc/meminfo", encoding="ascii") as lines:
        kilobytes = int(lines.readline().split()[1])
    load = os.getloadavg()[0]
    print(f"{os.cpu_count()} processors, {kilobytes * 1024 / 2**30:.0f} GiB, load {load:.1f}. Best of {best_of}.\n")


def start_up(programs):
    """Starts each program without words, and `true`. Answers the floor of memory, and whether each status was right."""
    commands = [("`true`", "true", 0)] + [(name, path, 2) for name, path in programs]
    rounds = {name: [] for name, _, _ in commands}
    for _ in range(ROUNDS):
        for name, path, _ in commands:
            start = time.perf_counter()
            runs = [run([path]) for _ in range(STARTS)]
            total = time.perf_counter() - start
            last = best(runs)
            rounds[name].append(Run(total / STARTS, last.kilobytes, last.status))
    floor = best(rounds["`true`"]).kilobytes
    head(["Start-up", "status", "milliseconds", "MB"])
    right = True
    for name, _, expected in commands:
        result = best(rounds[name])
        right = right and result.status == expected
        row([name, str(result.status), f"{result.seconds * 1e3:.2f}", megabytes(result.kilobytes, floor)])
    print()
    return floor, right


class Case:
    """One input: how it is called, how many edges its map has, and the steps that make its file. A step is the words of a
    program, whose output is the next one's input; the last one's output is the file. Without steps there is no input."""

    def __init__(self, label, edges, steps):
        self.label = label
        self.edges = edges
        self.steps = steps

    def size(self):
        """How large the case is, for a row of a table."""
        return f"{self.edges:,}"

    def rate(self, seconds):
        """What these seconds come to."""
        return f"{seconds / self.edges * 1e9:.0f}"

    def make(self, folder):
        """Makes the file. Answers its name, and whether each step ended well."""
        source = os.devnull
        right = True
        for number, words in enumerate(self.steps):
            target = os.path.join(folder, f"step{number}")
            right = run(words, source, target).status == 0 and right
            source = target
        return source, right


class Unread(Case):
    """One command that reads nothing, and how many things it makes: a case whose size and rate are in these."""

    def __init__(self, label, edges, count, words):
        super().__init__(label, edges, [])
        self.count = count
        self.words = words

    def size(self):
        return f"{self.count:,}"

    def rate(self, seconds):
        return f"{self.count / seconds:,.1f}"


def drawing(nodes, records):
    """So many records of quartic maps with so many vertices."""
    return Unread(f"{nodes:,}", 2 * nodes * records, records, ["draw", "quartic", str(nodes), str(DRAW_SEED), str(records)])


def census(edges, lists):
    """The census of the general maps with so many edges, which have so many lists of choices."""
    return Unread(f"{edges:,}", edges * lists, lists, ["census", "general", str(edges)])


def answer_once(programs, words, source, answers):
    """The best runs of a command on a file, and whether the outputs of each round were the same."""
    runs = [[] for _ in programs]
    same = True
    for _ in range(ROUNDS):
        for number, (_, path) in enumerate(programs):
            runs[number].append(run([path] + words, source, answers[number]))
        same = same and equal_files(answers[0], answers[-1])
    return [best(each) for each in runs], same


def answer_row(case, results, same, floor):
    """One row of the table: the program, its rate, then the other one, the ratios and whether they agree."""
    cells = [case.label, case.size(), str(results[0].status), f"{results[0].seconds:.3f}"]
    cells += [case.rate(results[0].seconds), megabytes(results[0].kilobytes, floor)]
    if len(results) == 2:
        other = results[1]
        cells += [f"{other.seconds:.3f}", megabytes(other.kilobytes, floor)]
        cells += [f"{results[0].seconds / other.seconds:.2f}"]
        cells += [f"{results[0].kilobytes / other.kilobytes:.2f}" if other.kilobytes * 10 > floor * 11 else "-"]
        cells += ["yes" if same else "NO"]
    row(cells)


def answer_table(programs, folder, title, words_of, cases, floor, sizes="edges", rates="ns per edge"):
    """One table of a command on some inputs. Answers whether all went right."""
    titles = [title, sizes, "status", "seconds", rates, "MB"]
    if len(programs) == 2:
        titles += ["other: seconds", "other: MB", "ratio of seconds", "ratio of MB", "same output"]
    head(titles)
    answers = [os.path.join(folder, f"answer{number}") for number in range(len(programs))]
    right = True
    for case in cases:
        source, made = case.make(folder)
        results, same = answer_once(programs, words_of(case), source, answers)
        answer_row(case, results, same, floor)
        right = right and made and same and all(each.status == 0 for each in results)
    print()
    return right


def maker(script, *words):
    """The words that run a script of this folder."""
    return [sys.executable, os.path.join(os.path.dirname(os.path.abspath(__file__)), script)] + [str(word) for word in words]


def tables(program):
    """The tables: a title, the words of the command for a case, and the cases. The number of edges is half the sum of the
    degrees: beside H hubs of degree 64, 31 H + 1 nodes have degree 4."""
    deep = [Case(f"{nodes:,}", 2 * nodes, [maker("trees.py", "deep", nodes)]) for nodes in DEEP_NODES]
    wide = [Case(f"{hubs:,}", 94 * hubs + 2, [maker("trees.py", "wide", hubs)]) for hubs in WIDE_HUBS]
    def renamed(nodes):
        steps = [maker("trees.py", "deep", nodes), [program, "close", "eulerian"], maker("maps.py")]
        return Case(f"{nodes:,}", 2 * nodes, steps)

    def triangulated(nodes):
        steps = [maker("stems.py", nodes), [program, "close", "tri"], maker("maps.py")]
        return Case(f"{nodes:,}", 3 * nodes, steps)

    stems = [Case(f"{nodes:,}", 3 * nodes, [maker("stems.py", nodes)]) for nodes in SAMPLE_NODES]
    maps = [renamed(nodes) for nodes in MAP_NODES]
    more = maps + [renamed(LARGEST_NODES)]
    profiles = []
    for degrees in PROFILE_DEGREES:
        for nodes in PROFILE_NODES:
            profile = ",".join(f"{degree}:{nodes}" for degree in degrees)
            profiles.append(Case(profile, sum(degrees) // 2 * nodes, [maker("choices.py", "eulerian", profile)]))

    # General maps take the lists of quartic ones, and bipartite maps those of eulerian ones.
    choices = {"eulerian": profiles, "bipartite": profiles}
    for name, edges in [("quartic", 2), ("general", 1)]:
        choices[name] = [Case(str(size), edges * size, [maker("choices.py", "quartic", size)]) for size in SAMPLE_NODES]

    def sampled(case, name):
        return Case(case.label, case.edges, case.steps + [[program, "sample", name, case.label]])

    def sampling(name):
        return (f"Choices, `sample {name}`", lambda case: ["sample", name, case.label], choices[name])

    def unsampling(name):
        return (f"Samples, `unsample {name}`", lambda case: ["unsample", name], [sampled(case, name) for case in choices[name]])

    def unread(title, verb, *last):
        def of(name):
            cases = [Case(case.label, case.edges, []) for case in choices[name]]
            return (f"{title}, `{verb} {name}`", lambda case: [verb, name, case.label, str(DRAW_SEED), *last], cases)

        return of

    return [
        ("Deep trees, `close eulerian`", lambda case: ["close", "eulerian"], deep),
        ("Wide trees, `close eulerian`", lambda case: ["close", "eulerian"], wide),
        ("Stem trees, `close tri`", lambda case: ["close", "tri"], stems),
        ("Maps, `canon`", lambda case: ["canon"], maps),
        ("Maps, `check general`", lambda case: ["check", "general"], maps),
        ("Triangulations, `check tri`", lambda case: ["check", "tri"], list(map(triangulated, SAMPLE_NODES))),
        *map(sampling, CLASSES),
        ("Maps, `medial`", lambda case: ["medial"], more),
        ("Maps, `unmedial`", lambda case: ["unmedial"], more),
        ("Maps, `dual`", lambda case: ["dual"], more),
        ("Maps, `open eulerian`", lambda case: ["open", "eulerian"], maps),
        ("Maps, `layers`", lambda case: ["layers"], maps),
        *map(unsampling, CLASSES),
        *map(unread("One record", "draw", "1"), CLASSES),
        *map(unread("Trips", "trip"), CLASSES),
    ]


def main():
    folder = sys.argv[1]
    programs = list(zip(["program", "other"], map(os.path.abspath, sys.argv[2:])))
    machine(ROUNDS)
    floor, right = start_up(programs)
    for title, words_of, cases in tables(programs[0][1]):
        right = answer_table(programs, folder, title, words_of, cases, floor) and right
    counted = [
        ("Drawings, `draw quartic`", "records", [drawing(nodes, records) for nodes, records in DRAWINGS]),
        ("Censuses, `census general`", "lists", [census(edges, lists) for edges, lists in CENSUSES]),
    ]
    for title, things, cases in counted:
        rates = f"{things} per second"
        right = answer_table(programs, folder, title, lambda case: case.words, cases, floor, things, rates) and right
    if right:
        same = ", and both programs printed the same." if len(programs) == 2 else "."
        print("Each run ended with the right status" + same)
    else:
        print("A run didn't end in time, crashed or had a wrong status, or two outputs differ.")
    return 0 if right else 1


if __name__ == "__main__":
    sys.exit(main())
