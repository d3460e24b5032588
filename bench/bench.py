#!/usr/bin/env python3
"""Times the built program on inputs of growing size, and prints a table.

    bench/bench.py [--program FILE] [--beside FILE] [--reps N] [--seconds S] [--only GROUP,..]
                   [--inputs FOLDER] [--write]

--program   the program; by default OTP_PROGRAM, or what ./otp builds
--beside    another program that takes the same words, timed in turn with the first: the table
            gets its times, and the ratios of time and of memory
--reps      how often each is run; times and peaks are medians (3)
--seconds   a run that lasts longer is stopped, and larger cases of its group are left out (60)
--only      some groups of cases; without it all of them, which are named in GROUPS
--inputs    keeps the grammars that are made in this folder
--write     writes the table into docs/PERFORMANCE.md too

Every run is `generate G FORM BUDGET`. The grammars are made here, from fixed seeds, so that they
are the same wherever this runs. Times are processor time, with that of the system, and a peak is
the most memory that the process held, both as the system tells them when it ends. `Growth` is the
power of the nodes of all stages by which time grows from the case above, where that takes 0.02 s or
more. The text is written to a file in a temporary folder.
"""
import argparse
import ctypes
import os
import platform
import random
import statistics
import subprocess
import sys
import tempfile
import threading
from math import log

TOP = os.path.dirname(os.path.dirname(os.path.abspath(__file__)))
DOCUMENT = os.path.join(TOP, "docs", "PERFORMANCE.md")
BEGIN, END = "<!-- the table of bench/bench.py begins -->", "<!-- and ends -->"
BUDGET = "65536"


# ---- inputs: each case is a group, a name, a grammar and a form

def grammar(tiers, constraints=(), letters=()):
    """The text of a grammar with these tiers, letters and constraints, which get names."""
    lines = ["otp 1"] + ["tier %s %s" % tier for tier in tiers]
    lines += ["letter %s" % letter for letter in letters]
    lines += ["constraint C%d %s" % numbered for numbered in enumerate(constraints)]
    return "\n".join(lines) + "\n"


def free_tiers(count):
    """One input tier, and so many overt ones."""
    return [("A", "input")] + [("f%d" % number, "overt") for number in range(count)]


def events(rng, names, most):
    """From one event to `most` of them, each at an edge or inside of a tier."""
    return [rng.choice(["[", "]", ""]) + rng.choice(names) for _ in range(rng.randint(1, most))]


def random_constraints(rng, names, count):
    """Implications and clashes with random events at edges and insides."""
    lines = []
    for _ in range(count):
        left = " and ".join(events(rng, names, 2))
        if rng.random() < 0.5:
            lines.append("%s -> %s" % (left, " or ".join(events(rng, names, 2))))
        else:
            lines.append("%s # %s" % (left, " and ".join(events(rng, names, 2))))
    return lines


def plain(count):
    return grammar(free_tiers(count)), "[ | | ]"


def constrained(count):
    rng = random.Random(100 + count)
    names = [name for name, _ in free_tiers(count)]
    return grammar(free_tiers(count), random_constraints(rng, names, 8)), "[ | | ]"


def stretched(count):
    """Six free tiers, and so many constraints on what lies inside of a constituent."""
    rng = random.Random(200)
    names = [name for name, _ in free_tiers(6)][1:]
    lines = []
    for number in range(count):
        tier = names[number % len(names)]
        edge = rng.choice(["[", "]"]) + rng.choice([name for name in names if name != tier])
        lines.append("%s -> %s" % (tier, edge))
    return grammar(free_tiers(6), lines), "[ | | | | ]"


def opposed(count):
    """Each pair of neighbours is to begin together, and is not to be open together."""
    names = [name for name, _ in free_tiers(count)]
    lines = []
    for one, other in zip(names, names[1:]):
        lines += ["[%s -> [%s" % (one, other), "%s # %s" % (one, other), "]%s -> ]%s" % (other, one)]
    return grammar(free_tiers(count), lines[:24]), "[ | | ]"


def syllables(length):
    """Consonants and vowels, their outputs, and syllables, with a form of so many letters."""
    tiers = [("C", "input"), ("V", "input"), ("c", "overt"), ("v", "overt"), ("S", "hidden")]
    lines = [
        "[C -> [c", "]C -> ]c", "[V -> [v", "]V -> ]v", "[c -> [C", "]c -> ]C", "[v -> [V",
        "]v -> ]V", "c -> S", "v -> S", "[S -> [c", "]S -> ]v", "]v # S",
    ]
    return grammar(tiers, lines, ["t = C", "a = V"]), "=" + ("tat" * length)[:length]


GROUPS = [
    ("free tiers, no constraint", plain, range(3, 9)),
    ("free tiers, 8 constraints", constrained, range(3, 9)),
    ("stretch implications", stretched, range(0, 7)),
    ("constraints that oppose each other", opposed, range(3, 9)),
    ("long forms", syllables, (8, 16, 32, 63)),
]


# ---- runs

def adopt_orphans():
    """Lets this process wait for grandchildren, so that a peak is the program's own: a child's peak
    would begin with that of Python, from which it is forked."""
    subreaper = 36
    try:
        return ctypes.CDLL(None).prctl(subreaper, 1, 0, 0, 0) == 0
    except (AttributeError, OSError):
        return False


def run(program, words, out, seconds):
    """Processor seconds and peak in KB of one run whose output goes to a file, or None if it was
    stopped or refused."""
    gate, go = os.pipe()
    shell = subprocess.run(
        ["sh", "-c", '{ read go; exec "$@" < /dev/null; } <&%d > "$0" 2> /dev/null & echo $!' % gate,
         out, program, *words],
        stdout=subprocess.PIPE, text=True, check=True, pass_fds=[gate])
    pid = int(shell.stdout)
    timer = threading.Timer(seconds, os.kill, (pid, 9))
    timer.start()
    os.close(gate)
    os.write(go, b"\n")
    os.close(go)
    _, status, usage = os.wait4(pid, 0)
    timer.cancel()
    return (usage.ru_utime + usage.ru_stime, usage.ru_maxrss) if status == 0 else None


def medians(programs, words, folder, reps, seconds):
    """The medians of each program's times and peaks, run in turn; None where one was stopped."""
    runs = [[] for _ in programs]
    for _ in range(reps):
        for number, program in enumerate(programs):
            if None not in runs[number]:
                out = os.path.join(folder, "text%d" % number)
                runs[number].append(run(program, words, out, seconds))
    return [None if None in them else tuple(map(statistics.median, zip(*them))) for them in runs]


def facts(path):
    """Of an answer's text: the nodes of the largest stage and of all, states, arcs, and megabytes."""
    stages, states, arcs = [], 0, 0
    with open(path, encoding="ascii") as lines:
        for line in lines:
            if line.startswith("arc "):
                arcs += 1
            elif line.startswith("stage "):
                stages.append(int(line.split()[2]))
            elif line.startswith("automaton "):
                states = int(line.split()[1])
    return max(stages), sum(stages), states, arcs, os.path.getsize(path) / 1e6


# ---- the table

def head(beside):
    cells = ["Size", "Largest stage", "All stages", "States", "Arcs", "Text, MB", "s", "Growth", "Peak, MB"]
    if beside:
        cells += ["s beside", "Ratio", "Peak beside", "Ratio"]
    return cells


def power(new, old):
    """The power of size by which time grows, of pairs of size and time; nothing where it is too
    short to tell."""
    if old is None or new[0] <= old[0] or old[1] < 0.02:
        return ""
    return "%.1f" % (log(new[1] / old[1]) / log(new[0] / old[0]))


def row(size, found, ran, other, before):
    largest, nodes, states, arcs, megabytes = found
    cells = [str(size)] + ["{:,}".format(number) for number in (largest, nodes, states, arcs)]
    cells += ["%.2f" % megabytes, "%.3f" % ran[0], power((nodes, ran[0]), before), "%.1f" % (ran[1] / 1024)]
    if other is not None:
        cells += ["%.3f" % other[0], "%.1f" % (ran[0] / other[0])]
        cells += ["%.1f" % (other[1] / 1024), "%.1f" % (ran[1] / other[1])]
    return cells


def lay_out(cells):
    return "| " + " | ".join(cells) + " |"


def measure(group, arguments, programs, folder, say):
    """Runs the cases of a group, and says a row for each."""
    name, make, sizes = group
    say("\n**%s**\n" % (name[0].upper() + name[1:]))
    say(lay_out(head(len(programs) > 1)))
    say("|" + "--:|" * len(head(len(programs) > 1)))
    before = None
    for size in sizes:
        text, form = make(size)
        path = os.path.join(arguments.inputs or folder, "%s-%d.otp" % (make.__name__, size))
        with open(path, "w", encoding="ascii") as file:
            file.write(text)
        words = ["generate", path, form, BUDGET]
        ran = medians(programs, words, folder, arguments.reps, arguments.seconds)
        if ran[0] is None:
            say("| %s | stopped or refused |" % size)
            return
        found = facts(os.path.join(folder, "text0"))
        say(lay_out(row(size, found, ran[0], ran[1] if len(ran) > 1 else None, before)))
        before = (found[1], ran[0][0])


def machine():
    """What this runs on."""
    model = ""
    try:
        with open("/proc/cpuinfo", encoding="utf-8") as lines:
            model = next((line.split(":")[1].strip() for line in lines if line.startswith("model name")), "")
    except OSError:
        pass
    return "%s, %s, %d processors" % (platform.system(), model or platform.machine(), os.cpu_count())


def built():
    """The program that ./otp runs."""
    if "OTP_PROGRAM" in os.environ:
        return os.environ["OTP_PROGRAM"]
    base = os.path.join(TOP, "examples", "base.otp")
    subprocess.run([os.path.join(TOP, "otp"), "canon", base], check=True, stdout=subprocess.DEVNULL)
    return os.path.join(TOP, "crates", "otp", "out", "otp")


def put_table(lines):
    """Puts the table in its place in the document."""
    with open(DOCUMENT, encoding="utf-8") as file:
        text = file.read()
    front, rest = text.split(BEGIN)
    _, behind = rest.split(END)
    with open(DOCUMENT, "w", encoding="utf-8") as file:
        file.write(front + BEGIN + "\n" + "\n".join(lines) + "\n\n" + END + behind)


def main():
    words = argparse.ArgumentParser(description=__doc__, formatter_class=argparse.RawDescriptionHelpFormatter)
    words.add_argument("--program")
    words.add_argument("--beside")
    words.add_argument("--reps", type=int, default=3)
    words.add_argument("--seconds", type=float, default=60)
    words.add_argument("--only", default="")
    words.add_argument("--inputs")
    words.add_argument("--write", action="store_true")
    arguments = words.parse_args()
    programs = [arguments.program or built()] + ([arguments.beside] if arguments.beside else [])
    lines = []

    def say(line):
        lines.append(line)
        print(line, flush=True)

    if not adopt_orphans():
        sys.exit("bench.py: this system does not let a process wait for the children of its children")
    say("%s. Medians of %d." % (machine(), arguments.reps))
    chosen = [name for name in arguments.only.split(",") if name]
    with tempfile.TemporaryDirectory() as folder:
        for group in GROUPS:
            if not chosen or group[1].__name__ in chosen:
                measure(group, arguments, [os.path.abspath(program) for program in programs], folder, say)
    if arguments.write:
        put_table(lines)


main()
