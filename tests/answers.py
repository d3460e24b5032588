#!/usr/bin/env python3
"""Compares whole answers with two slow programs, on grammars that are drawn by chance.

    tests/answers.py [GRAMMARS]     the last line is `N passed, M failed`

The first slow program goes by the definitions: it lists timelines up to a length, counts by choices
of events as intervals, and compares all of them. The second goes by the table of moves, one column
at a time: stages, potentials, the first optimal timeline, and the automaton, of which each column
leads from a state to the same state as in the program's answer. Any two arcs of a state with one
target must differ in the sets of two tiers at least. What `otp once` writes has the same counts, the same
example, and the same automaton by the kinds of its states; its nodes are the kinds that the moves of
all candidates lead to, each with the vector that remains.

The grammars are the same at each run. The program is the one that ./otp runs, or the file in the
environment variable OTP_PROGRAM.
"""
import itertools
import os
import random
import subprocess
import sys
import tempfile

TOP = os.path.dirname(os.path.dirname(os.path.abspath(__file__)))
sys.path.insert(0, os.path.join(TOP, "tools"))
sys.dont_write_bytecode = True
import otp_read as read  # noqa: E402

SYMBOLS = "-+[]|"
EDGES = set("[]|")
OPENS = set("+[|")  # a tier is open after these
WHILE_OPEN, WHILE_SHUT = "+]|", "-["
PROGRAM = os.environ.get("OTP_PROGRAM") or os.path.join(TOP, "otp")
DEP = "otp 1\ntier A input\ntier a overt\nconstraint Dep a -> A\n"
passed, failed = 0, 0


def judge(what, found, wanted):
    """Counts one comparison, and tells a difference."""
    global passed, failed
    if found == wanted:
        passed += 1
    else:
        failed += 1
        print("FAILED %s: %s, wanted %s" % (what, found, wanted))


def run(*words):
    """What the program writes, and its status."""
    done = subprocess.run([PROGRAM, *words], capture_output=True, text=True, check=False)
    return done.stdout, done.returncode


# --- the definitions: constituents, events, choices, candidates ---

def constituents(word):
    """The pairs (i, j) that a tier's symbols draw."""
    pairs = []
    for start, symbol in enumerate(word):
        if symbol in "[|":
            ends = [place for place in range(start + 1, len(word)) if word[place] in "]|"]
            if not ends:
                return None
            pairs.append((start, ends[0]))
    return pairs


def drawn(pairs, size):
    """The symbols that pairs draw."""
    word = []
    for place in range(size):
        starts = any(pair[0] == place for pair in pairs)
        ends = any(pair[1] == place for pair in pairs)
        inside = any(pair[0] < place < pair[1] for pair in pairs)
        word.append("|" if starts and ends else "[" if starts else "]" if ends else "+" if inside else "-")
    return "".join(word)


def is_word(word):
    """Whether a tier's symbols are well formed."""
    pairs = constituents(word)
    if pairs is None or drawn(pairs, len(word)) != word:
        return False
    return all(one[1] <= other[0] for one, other in zip(pairs, pairs[1:]))


def intervals(event, words):
    """The events of a type, as intervals of doubled places."""
    found = []
    for start, end in constituents(words[event.tier]):
        low, high = {"[": (2 * start, 2 * start), "]": (2 * end, 2 * end),
                     "": (2 * start + 1, 2 * end - 1)}[event.part]
        found.append((low, high))
    return found


def count(constraint, words):
    """The violations: choices of one event for each type, that have a meet."""
    left = [intervals(event, words) for event in constraint.left]
    right = [intervals(event, words) for event in constraint.right]
    clash = constraint.family == "#"
    total = 0
    for choice in itertools.product(*(left + right if clash else left)):
        low, high = max(each[0] for each in choice), min(each[1] for each in choice)
        if low > high:
            continue
        met = not clash and any(max(low, each[0]) <= min(high, each[1]) for side in right for each in side)
        total += not met
    return total


def candidates(grammar, form, most):
    """All candidates of a form that have at most so many columns."""
    inputs = [place for place, tier in enumerate(grammar.tiers) if grammar.roles[tier] == "input"]
    columns = ["".join(column) for column in itertools.product(SYMBOLS, repeat=len(grammar.tiers))]
    columns = [column for column in columns if EDGES & set(column)]

    def grow(front):
        words = ["".join(column[tier] for column in front) for tier in range(len(grammar.tiers))]
        squeezed = [part for part in ("".join(column[place] for place in inputs) for column in front)
                    if EDGES & set(part)]
        if squeezed != form[:len(squeezed)]:
            return
        if squeezed == form and all(is_word(word) for word in words):
            yield list(front)
        if len(front) == most:
            return
        for column in columns:
            if all(symbol in (WHILE_OPEN if word and word[-1] in OPENS else WHILE_SHUT)
                   for symbol, word in zip(column, words)):
                yield from grow(front + [column])

    return grow([])


def compare_definitions(name, grammar, form, answer, most):
    """The counts and the optimal timelines, against all candidates up to a length."""
    best, least = [], None
    for columns in candidates(grammar, form, most):
        words = {tier: "".join(column[number] for column in columns)
                 for number, tier in enumerate(grammar.tiers)}
        vector = [count(constraint, words) for constraint in grammar.constraints]
        if least is None or vector < least:
            best, least = [], vector
        if vector == least:
            best.append(read.text_of(columns))
    if len(answer.example) <= most:
        judge(name + ", counts by choices", answer.counts, least)
        judge(name + ", optimal timelines", sorted(accepted(answer, most)), sorted(best))
        order = sorted(best, key=lambda text: column_order(read.timeline(text)))
        judge(name + ", example", read.text_of(answer.example), order[0])
    else:
        judge(name + ", nothing shorter is better", least is None or answer.counts < least, True)


def column_order(columns):
    """Fewer columns first, and then symbol by symbol."""
    return len(columns), [[SYMBOLS.index(symbol) for symbol in column] for column in columns]


def accepted(answer, most):
    """The timelines of at most so many columns that the automaton accepts."""
    table, found, fronts = read.moves(answer), [], [([], 0)]
    while fronts:
        columns, state = fronts.pop()
        if answer.final[state]:
            found.append(read.text_of(columns))
        if len(columns) < most:
            fronts += [(columns + [column], target) for column, target in table[state]]
    return found


# --- the moves of kinds, one column at a time ---

class Moves:
    """The moves of kinds of a grammar and a form. A kind is its place, open tiers, and phases."""

    def __init__(self, grammar, form):
        self.grammar, self.form = grammar, form
        tiers = list(enumerate(grammar.tiers))
        self.inputs = [number for number, tier in tiers if grammar.roles[tier] == "input"]
        self.free = [number for number, tier in tiers if grammar.roles[tier] != "input"]
        self.number = {tier: number for number, tier in tiers}
        self.kept = {}

    def is_stretch(self, constraint):
        return constraint.family == "->" and all(event.part == "" for event in constraint.left)

    def open_before(self, kind):
        """Which tiers are open before the next column."""
        place, opened, _phases = kind
        before = {}
        for index, number in enumerate(self.inputs):
            before[number] = place > 0 and self.form[place - 1][index] in OPENS
        for index, number in enumerate(self.free):
            before[number] = opened[index]
        return before

    def fitting(self, kind):
        """The columns that fit, in column order."""
        before, place = self.open_before(kind), kind[0]
        symbols = [WHILE_OPEN if before[tier] else WHILE_SHUT for tier in range(len(self.grammar.tiers))]
        symbols = [sorted(each, key=SYMBOLS.index) for each in symbols]
        for column in itertools.product(*symbols):
            if not EDGES & set(column):
                continue
            part = "".join(column[number] for number in self.inputs)
            if not EDGES & set(part):
                yield "".join(column), place
            elif place < len(self.form) and part == self.form[place]:
                yield "".join(column), place + 1

    def present(self, event, column):
        symbol = column[self.number[event.tier]]
        return symbol in {"[": "[|", "]": "]|", "": "+"}[event.part]

    def edge_on(self, events, column):
        return any(column[self.number[event.tier]] in EDGES for event in events)

    def cost(self, constraint, phase, before, column):
        """What a column costs under a constraint."""
        left, right = constraint.left, constraint.right
        if self.is_stretch(constraint):
            return int(phase == "u" and self.edge_on(left, column))
        if constraint.family == "->":
            return int(all(self.present(event, column) for event in left)
                       and not any(self.present(event, column) for event in right))
        if all(event.part == "" for event in left + right):
            return int(all(before[self.number[event.tier]] for event in left + right)
                       and self.edge_on(left + right, column))
        return int(all(self.present(event, column) for event in left + right))

    def phase(self, constraint, phase, column):
        """The phase of a stretch implication after a column."""
        after = lambda event: column[self.number[event.tier]] in OPENS  # noqa: E731
        if not all(after(event) for event in constraint.left):
            return "."
        interior = any(event.part == "" and after(event) for event in constraint.right)
        if self.edge_on(constraint.left, column):
            return "m" if interior else "u"
        edge = any(event.part != "" and self.present(event, column) for event in constraint.right)
        return "m" if phase == "m" or edge or interior else "u"

    def of(self, kind, rank):
        """The moves from a kind under the first constraints: column, target, and cost of each."""
        key = (kind, rank)
        if key not in self.kept:
            before, moves = self.open_before(kind), []
            ranked = self.grammar.constraints[:rank]
            for column, place in self.fitting(kind):
                phases, costs, at = [], [], 0
                for constraint in ranked:
                    phase = kind[2][at] if self.is_stretch(constraint) else None
                    costs.append(self.cost(constraint, phase, before, column))
                    if self.is_stretch(constraint):
                        phases.append(self.phase(constraint, phase, column))
                        at += 1
                opened = tuple(column[number] in OPENS for number in self.free)
                moves.append((column, (place, opened, tuple(phases)), costs))
            self.kept[key] = moves
        return self.kept[key]

    def cut(self, kind, rank):
        stretches = sum(self.is_stretch(constraint) for constraint in self.grammar.constraints[:rank])
        return kind[0], kind[1], kind[2][:stretches]

    def is_final(self, kind):
        return kind[0] == len(self.form) and not any(kind[1])

    def start(self, rank):
        return self.cut((0, (False,) * len(self.free), (".",) * len(self.grammar.constraints)), rank)


def order_of(kind):
    """Kind order: place, open tiers, phases with closed before unmet before met."""
    return kind[0], kind[1], [".um".index(phase) for phase in kind[2]]


def is_kept(moves, potentials, below, kind, target, costs):
    """Whether a move is tight at each stage from 1 to below - 1."""
    for stage in range(1, below):
        here = potentials[stage].get(moves.cut(kind, stage))
        there = potentials[stage].get(moves.cut(target, stage))
        if here is None or there is None or here != costs[stage - 1] + there:
            return False
    return True


def reached(moves, rank, potentials, below):
    """The kept moves between the kinds that are reached from the start."""
    found, todo = {}, [moves.start(rank)]
    while todo:
        kind = todo.pop()
        if kind in found:
            continue
        found[kind] = [(column, target, costs) for column, target, costs in moves.of(kind, rank)
                       if is_kept(moves, potentials, below, kind, target, costs)]
        todo += [target for _column, target, _costs in found[kind]]
    return found


def remaining(moves, found, rank):
    """What remains to be counted from each kind, by rounds."""
    least = {kind: 0 if moves.is_final(kind) else None for kind in found}
    changed = True
    while changed:
        changed = False
        for kind, steps in found.items():
            for _column, target, costs in steps:
                if least[target] is None:
                    continue
                sum_ = least[target] + (costs[rank - 1] if rank else 0)
                if least[kind] is None or sum_ < least[kind]:
                    least[kind], changed = sum_, True
    return {kind: value for kind, value in least.items() if value is not None}


def kind_text(kind):
    return "%d/%s/%s" % (kind[0], "".join("+" if each else "-" for each in kind[1]), "".join(kind[2]))


def slow_answer(grammar, form):
    """Stages, states with their arcs by columns, and which are final."""
    moves, potentials, stages = Moves(grammar, form), [], []
    for rank in range(len(grammar.constraints) + 1):
        least = remaining(moves, reached(moves, rank, potentials, rank), rank)
        potentials.append(least)
        stages.append([(kind_text(kind), least[kind]) for kind in sorted(least, key=order_of)])
    rank = len(grammar.constraints)
    found = reached(moves, rank, potentials, rank + 1)
    number = {kind: place for place, kind in enumerate(sorted(potentials[rank], key=order_of))}
    arcs = {number[kind]: {column: number[target] for column, target, _costs in steps}
            for kind, steps in found.items()}
    final = {number[kind]: moves.is_final(kind) for kind in found}
    counts = [potentials[stage][moves.start(stage)] for stage in range(1, rank + 1)]
    return stages, arcs, final, counts


def single_pass(text):
    """What `otp once` wrote: an answer without stages, and the kinds of its nodes with their vectors."""
    nodes = [line.split(" ", 2)[1:] for line in text.splitlines() if line.startswith("node ")]
    return read.answer(text), [(node[0], [int(word) for word in " ".join(node[1:]).split()]) for node in nodes]


def by_kinds(answer, kinds):
    """The arcs of an automaton, by columns and by the kinds of its states."""
    return {kinds[state]: {column: kinds[target] for column, target in moves}
            for state, moves in read.moves(answer).items()}


def least_vectors(moves, found):
    """The least vector that remains from each kind, by rounds."""
    least = {kind: [0] * len(moves.grammar.constraints) if moves.is_final(kind) else None for kind in found}
    changed = True
    while changed:
        changed = False
        for kind, steps in found.items():
            for _column, target, costs in steps:
                if least[target] is None:
                    continue
                sum_ = [one + other for one, other in zip(least[target], costs)]
                if least[kind] is None or sum_ < least[kind]:
                    least[kind], changed = sum_, True
    return least


def compare_single_pass(name, path, grammar, form, answer):
    """What a single pass finds, beside the stages and beside a slow program."""
    text, status = run("once", path, read.text_of(form))
    judge(name + ", status of a single pass", status, 0)
    if status != 0:
        return
    single, nodes = single_pass(text)
    judge(name + ", counts both ways", single.counts, answer.counts)
    judge(name + ", example both ways", single.example, answer.example)
    judge(name + ", automaton both ways", by_kinds(single, [kind for kind, _vector in nodes]),
          by_kinds(answer, [kind for kind, _potential in answer.stages[-1]]))
    moves, rank = Moves(grammar, form), len(grammar.constraints)
    least = least_vectors(moves, reached(moves, rank, [], 0))
    judge(name + ", nodes of a single pass", nodes,
          [(kind_text(kind), least[kind]) for kind in sorted(least, key=order_of)])


def differ(one, other):
    """In how many tiers the sets of two classes differ."""
    cut = lambda text: read.re.findall(r"\{[^}]*\}|.", text)  # noqa: E731
    return sum(a != b for a, b in zip(cut(one), cut(other)))


def compare_moves(name, grammar, form, answer):
    """The whole answer, column by column."""
    stages, arcs, final, counts = slow_answer(grammar, form)
    judge(name + ", counts", answer.counts, counts)
    judge(name + ", number of stages", len(answer.stages), len(stages))
    for number, (found, wanted) in enumerate(zip(answer.stages, stages)):
        judge("%s, stage %d" % (name, number), found, wanted)
    listed = {}
    for state, moves in read.moves(answer).items():
        listed[state] = dict(moves)
        judge("%s, state %d has no column twice" % (name, state), len(listed[state]), len(moves))
    judge(name + ", arcs", listed, arcs)
    judge(name + ", final states", answer.final, final)
    for state, labels in answer.arcs.items():
        near = [(one, other) for one, other in itertools.combinations(labels, 2)
                if one[1] == other[1] and differ(one[0], other[0]) < 2]
        judge("%s, arcs of state %d are joined" % (name, state), near, [])


# --- grammars by chance ---

def side(draw, tiers, word):
    events = [draw.choice(["", "", "[", "]"]) + draw.choice(tiers)
              for _ in range(draw.choice([1, 1, 1, 2, 3]))]
    return (" %s " % word).join(events)


def grammar_text(draw):
    """A grammar of two to four tiers, and up to four constraints."""
    tiers = [("A", "input")] + ([("B", "input")] if draw.random() < 0.25 else [])
    tiers += [("a", "overt")] + draw.sample([("b", "overt"), ("h", "hidden")], draw.choice([0, 0, 1, 1]))
    names = [name for name, _role in tiers]
    lines = ["otp 1"] + ["tier %s %s" % tier for tier in tiers]
    for number in range(draw.choice([0, 1, 2, 3, 4])):
        if draw.random() < 0.65:
            text = "%s -> %s" % (side(draw, names, "and"), side(draw, names, "or"))
        else:
            text = "%s # %s" % (side(draw, names, "and"), side(draw, names, "and"))
        lines.append("constraint C%d %s" % (number, text))
    return "\n".join(lines) + "\n"


def form_of(draw, grammar):
    """A form of at most three columns."""
    inputs = [tier for tier in grammar.tiers if grammar.roles[tier] == "input"]
    while True:
        size = draw.choice([0, 2, 2, 3])
        words = ["".join(draw.choice(SYMBOLS) for _ in range(size)) for _ in inputs]
        columns = ["".join(column) for column in zip(*words)]
        if all(is_word(word) for word in words) and all(EDGES & set(column) for column in columns):
            return columns


def compare(name, path, text, form, most):
    """One grammar and one form, against both slow programs."""
    with open(path, "w", encoding="ascii") as file:
        file.write(text)
    written, status = run("generate", path, read.text_of(form))
    judge(name + ", status", status, 0)
    if status == 0:
        grammar, answer = read.grammar(text), read.answer(written)
        judge(name + ", form", answer.form, form)
        with open(path + ".answer", "w", encoding="ascii") as file:
            file.write(written)
        judge(name + ", verdict", run("check", path, path + ".answer"), ("Yes\n", 0))
        compare_moves(name, grammar, form, answer)
        compare_single_pass(name, path, grammar, form, answer)
        if most:
            compare_definitions(name, grammar, form, answer, most)


# --- answers that were worked out by hand ---

def worked(folder):
    """Rows that are known beforehand."""
    path = os.path.join(folder, "dep.otp")
    with open(path, "w", encoding="ascii") as file:
        file.write(DEP)
    text, _ = run("generate", path, "empty")
    judge("one dependence constraint", text.splitlines(), [
        "answer 1", "form empty", "counts 0", "example empty",
        "stage 0 2", "node 0/-/ 0", "node 0/+/ 0", "stage 1 2", "node 0/-/. 0", "node 0/+/u 1",
        "automaton 1", "state 0 final", "end"])
    text, _ = run("generate", os.path.join(TOP, "examples/faithful.otp"), "[ ]")
    answer = read.answer(text)
    judge("Max and Dep, stages", [len(stage) for stage in answer.stages], [6, 7, 8])
    judge("Max and Dep, states", len(answer.final), 7)
    text, _ = run("generate", os.path.join(TOP, "examples/ranked.otp"), "[ ]")
    judge("Max, Dep and One, timelines", len(accepted(read.answer(text), 12)), 9)
    syllables = os.path.join(TOP, "examples/syllables.otp")
    text, status = run("show", syllables, "=" + 31 * "ta" + "t")
    judge("63 letters", (status, text.splitlines()[0]), (0, "counts 0 0 0 0 0 0 0 0 0 0 0 1 0"))
    judge("64 letters", run("show", syllables, "=" + 32 * "ta"), ("", 4))


EIGHT = "otp 1\ntier A input\n" + "".join("tier b%d overt\n" % tier for tier in range(1, 9))


def twenty_four():
    """Constraints on eight tiers. Under the first four and six more the kinds are halved again and again;
    if nothing were pruned before the last, there would be more than a million."""
    sides = ["b%d # b%d" % (tier, tier) for tier in range(1, 5)]
    sides += ["b1 -> [b%d" % tier for tier in range(2, 9)]
    sides += ["b1 -> ]b%d" % tier for tier in range(2, 9)]
    sides += ["b1 and b2 -> [b%d" % tier for tier in range(3, 9)]
    return "".join("constraint C%d %s\n" % (number, side) for number, side in enumerate(sides))


def many_tiers(folder):
    """Eight overt tiers, without constraints and under twenty-four."""
    path = os.path.join(folder, "eight.otp")
    with open(path, "w", encoding="ascii") as file:
        file.write(EIGHT)
    answer = read.answer(run("generate", path, "empty")[0])
    judge("eight tiers, kinds", [len(stage) for stage in answer.stages], [256])
    judge("eight tiers, states", len(answer.final), 256)
    judge("eight tiers, columns", sum(len(moves) for moves in read.moves(answer).values()), 390369)
    judge("eight tiers, example", answer.example, [])
    with open(path, "w", encoding="ascii") as file:
        file.write(EIGHT + twenty_four())
    judge("24 constraints, budget 256", run("show", path, "empty", "256"),
          ("counts" + 24 * " 0" + "\nexample empty\n", 0))
    judge("24 constraints, budget 255", run("show", path, "empty", "255"), ("", 7))
    answer = read.answer(run("generate", path, "empty")[0])
    judge("24 constraints, kinds", [len(stage) for stage in answer.stages], [256, 256, 128, 64, 32] + 20 * [16])


def main():
    draw = random.Random(1997)
    wanted = int(sys.argv[1]) if len(sys.argv) > 1 else 300
    with tempfile.TemporaryDirectory() as folder:
        worked(folder)
        many_tiers(folder)
        for number in range(wanted):
            text = grammar_text(draw)
            grammar = read.grammar(text)
            form = form_of(draw, grammar)
            most = 4 if len(grammar.tiers) == 2 else 3 if len(grammar.tiers) == 3 and len(form) < 3 else 0
            compare("grammar %d" % number, os.path.join(folder, "g.otp"), text, form, most)
    print("%d passed, %d failed" % (passed, failed))
    return failed != 0


if __name__ == "__main__":
    sys.exit(main())
