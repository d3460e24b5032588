#!/usr/bin/env python3
"""Tries `otp check` on answers that were altered.

    tests/check.py [ALTERED]     the last line is `N passed, M failed`

A table of alterations of one worked answer has the verdict or the refusal of each; so has each cut of
its text. Then answers of grammars that are drawn by chance are altered by chance, until so many of
them were read. Each verdict is compared with that of a slow program, which goes through the table of
faults in docs/FORMATS.md, one column at a time.

The grammars are the same at each run. The program is the one that ./otp runs, or the file in the
environment variable OTP_PROGRAM.
"""
import itertools
import os
import random
import re
import sys
import tempfile

sys.dont_write_bytecode = True
sys.path.insert(0, os.path.dirname(os.path.abspath(__file__)))
import answers  # noqa: E402
from answers import EDGES, SYMBOLS, TOP, Moves, judge, read, run  # noqa: E402

WORKED = """answer 1
form [ ]
counts 0 1 0
example [- ]-
stage 0 6
node 0/-/ 0
node 0/+/ 0
node 1/-/ 0
node 1/+/ 0
node 2/-/ 0
node 2/+/ 0
stage 1 6
node 0/-/ 0
node 0/+/ 1
node 1/-/ 0
node 1/+/ 1
node 2/-/ 0
node 2/+/ 1
stage 2 3
node 0/-/. 1
node 1/-/u 1
node 2/-/. 0
stage 3 3
node 0/-/.. 0
node 1/-/u. 0
node 2/-/.. 0
automaton 3
state 0
arc 1 [-
state 1
arc 2 ]-
state 2 final
end
"""

# What `check` says of the worked answer if some lines, counted from 1, have another text. None takes a
# line out, and a text with a line feed is two lines. A verdict begins with Yes or No; anything else is
# a refusal, with its line.
ALTERED = [
    ("nothing", {}, "Yes"),
    # the head
    ("another header", {1: "answer 2"}, "1 BadHeader"),
    ("a space behind the header", {1: "answer 1 "}, "1 BadHeader"),
    ("no header", {1: None}, "1 BadHeader"),
    ("an empty header", {1: ""}, "1 BadHeader"),
    ("a carriage return", {1: "answer 1\r"}, "1 BadHeader"),
    ("the word form in capitals", {2: "Form [ ]"}, "2 BadLine"),
    ("an empty line", {2: ""}, "2 BadLine"),
    ("no form", {2: None}, "2 BadLine"),
    ("two forms", {2: "form [ ]\nform [ ]"}, "3 BadLine"),
    ("a form that does not end", {2: "form ["}, "2 BadLine"),
    ("a form of the wrong width", {2: "form [- ]-"}, "2 BadLine"),
    ("a form with two spaces", {2: "form [  ]"}, "2 BadLine"),
    ("a form with a column without an edge", {2: "form [ + ]"}, "2 BadLine"),
    ("another form", {2: "form empty"}, "8 BadNumber"),
    ("two counts", {3: "counts 0 1"}, "3 BadLine"),
    ("four counts", {3: "counts 0 1 0 0"}, "3 BadLine"),
    ("no counts", {3: "counts"}, "3 BadLine"),
    ("a space behind the counts", {3: "counts 0 1 0 "}, "3 BadLine"),
    ("a tab in the counts", {3: "counts 0\t1 0"}, "3 BadLine"),
    ("a count with a zero in front", {3: "counts 0 01 0"}, "3 BadNumber"),
    ("a count with a sign", {3: "counts 0 +1 0"}, "3 BadLine"),
    ("the greatest count", {3: "counts 0 1000000000 0"}, "No counts 2 1000000000 1"),
    ("a count above it", {3: "counts 0 1000000001 0"}, "3 BadNumber"),
    ("a count above 32 bits", {3: "counts 0 4294967297 0"}, "3 BadNumber"),
    ("a count of 40 digits", {3: "counts 0 %s 0" % ("1" * 40)}, "3 BadNumber"),
    ("another first count", {3: "counts 1 1 0"}, "No counts 1 1 0"),
    ("another count", {3: "counts 0 0 0"}, "No counts 2 0 1"),
    ("another last count", {3: "counts 0 1 1"}, "No counts 3 1 0"),
    ("two other counts", {3: "counts 0 2 2"}, "No counts 2 2 1"),
    ("an example of another form", {4: "example empty"}, "No example"),
    ("an example with an a that One counts", {4: "example [[ ]]"}, "No counts 1 0 1"),
    ("an example over the input tier", {4: "example [ ]"}, "4 BadLine"),
    # the stages
    ("a stage with another number", {5: "stage 1 6"}, "5 BadNumber"),
    ("a stage with a zero in front", {5: "stage 0 06"}, "5 BadNumber"),
    ("a stage of no nodes", {5: "stage 0 0"}, "6 BadLine"),
    ("a stage of a node too many", {5: "stage 0 7"}, "12 BadLine"),
    ("a stage of a node too few", {5: "stage 0 5"}, "11 BadLine"),
    ("a stage of more than 65,536 nodes", {5: "stage 0 65537"}, "5 BadNumber"),
    ("a potential with a zero in front", {6: "node 0/-/ 00"}, "6 BadNumber"),
    ("a potential above the greatest", {11: "node 2/+/ 1000000001"}, "11 BadNumber"),
    ("a node without its potential", {8: "node 1/-/"}, "8 BadLine"),
    ("a node with a phase at stage 0", {6: "node 0/-/. 0"}, "6 BadLine"),
    ("a node without the phase of stage 2", {20: "node 0/-/ 1"}, "20 BadLine"),
    ("a node with a byte too many for its tiers", {8: "node 1/--/ 0"}, "8 BadLine"),
    ("a node with a byte that is not a mark", {8: "node 1/x/ 0"}, "8 BadLine"),
    ("a node with a byte above 127", {8: "node 1/\u00b7/ 0"}, "8 BadLine"),
    ("a place with a zero in front", {8: "node 01/-/ 0"}, "8 BadNumber"),
    ("a place behind the form", {10: "node 3/-/ 0"}, "10 BadNumber"),
    ("two nodes exchanged", {6: "node 0/+/ 0", 7: "node 0/-/ 0"}, "7 BadOrder"),
    ("a node twice", {9: "node 1/-/ 0"}, "9 BadOrder"),
    ("the last node out of order", {25: "node 0/-/.. 0"}, "25 BadOrder"),
    ("a node out of order, with a bad number", {7: "node 0/-/ 00"}, "7 BadNumber"),
    ("a potential at stage 0", {10: "node 2/-/ 1"}, "No final-potential 0 4 1"),
    ("a potential that is too high at stage 0", {7: "node 0/+/ 1"}, "No potential 0 1 1 0"),
    ("a potential that is too high", {14: "node 0/+/ 2"}, "No potential 1 1 2 1"),
    ("a final node with a potential", {17: "node 2/-/ 1"}, "No final-potential 1 4 1"),
    ("a potential that is too low at the start", {20: "node 0/-/. 0"}, "No start-potential 2 0 1"),
    ("a phase that is not due", {21: "node 1/-/. 1"}, "No node 2 1"),
    ("a phase that is due, at a shut tier", {20: "node 0/-/u 1"}, "No node 2 0"),
    ("a kind without its cut before", {5: "stage 0 5", 9: None, 12: "stage 1 6"}, "No closed 0 0 1/+/"),
    ("a kind is missing at stage 0", {5: "stage 0 5", 11: None}, "No closed 0 2 2/+/"),
    ("the start is missing at stage 0", {5: "stage 0 5", 6: None}, "No start 0"),
    ("the start is missing at stage 3", {23: "stage 3 2", 24: None}, "26 BadNumber"),
    ("a kind is missing at stage 3", {23: "stage 3 2", 25: None}, "26 BadNumber"),
    ("no last stage", {23: None, 24: None, 25: None, 26: None}, "No stages 3 4"),
    ("a stage too many", {26: "node 2/-/.. 0\nstage 4 1\nnode 0/-/.. 0"}, "27 BadNumber"),
    # the automaton
    ("a state too few", {27: "automaton 2"}, "32 BadLine"),
    ("more states than nodes", {27: "automaton 4"}, "27 BadNumber"),
    ("no automaton", {27: None}, "27 BadLine"),
    ("a state too many", {32: "state 2 final\nstate 2"}, "33 BadLine"),
    ("a state with a zero in front", {28: "state 00"}, "28 BadNumber"),
    ("the mark twice", {32: "state 2 final final"}, "32 BadLine"),
    ("a space behind a state", {32: "state 2 "}, "32 BadLine"),
    ("a state twice", {32: "state 1 final"}, "32 BadOrder"),
    ("the last state is missing", {27: "automaton 2", 32: None}, "No state 1 2"),
    ("the start is missing", {27: "automaton 2", 28: None, 29: None}, "No state 0 0"),
    ("a mark is missing", {32: "state 2"}, "No final 2 0"),
    ("a mark too many", {30: "state 1 final"}, "No final 1 1"),
    ("a mark at the start", {28: "state 0 final"}, "No final 0 1"),
    ("a target that is not a node", {29: "arc 3 [-"}, "29 BadNumber"),
    ("a byte that is not a symbol", {29: "arc 1 [x"}, "29 BadClass"),
    ("an empty set", {29: "arc 1 [{}"}, "29 BadClass"),
    ("a set of one symbol", {29: "arc 1 [{-}"}, "29 BadClass"),
    ("a set out of order", {29: "arc 1 [{+-}"}, "29 BadClass"),
    ("a set with a space", {29: "arc 1 [{- +}"}, "29 BadClass"),
    ("a set that is not closed", {29: "arc 1 [{-+"}, "29 BadClass"),
    ("a set in a set", {29: "arc 1 [{{-+}}"}, "29 BadClass"),
    ("a class of the wrong width", {29: "arc 1 [--"}, "29 BadClass"),
    ("a class with a byte above 127", {29: "arc 1 [\u00b7"}, "29 BadClass"),
    ("a bad class and a bad target", {29: "arc 9 [x"}, "29 BadNumber"),
    ("an arc before the states", {28: "arc 1 [-"}, "28 BadLine"),
    ("an arc twice", {29: "arc 1 [-\narc 1 [-"}, "30 BadOrder"),
    ("arcs out of order", {29: "arc 2 ]-\narc 1 [-"}, "30 BadOrder"),
    ("a column in two arcs", {29: "arc 1 [-\narc 2 [-"}, "No twice 0 [-"),
    ("another target", {29: "arc 2 [-"}, "No arcs 0 [- 2 1"),
    ("an arc is missing", {31: None}, "No arcs 1 ]- none 2"),
    ("an arc too many", {32: "state 2 final\narc 2 -["}, "No arcs 2 -[ 2 none"),
    ("an arc with all columns", {29: "arc 1 {-+[]|}{-+[]|}"}, "No arcs 0 -- 1 none"),
    ("an arc with an edge too many", {29: "arc 1 {[|}-"}, "No arcs 0 |- 1 none"),
    # the end
    ("no end", {33: None}, "33 CutShort"),
    ("the end in capitals", {33: "End"}, "33 BadLine"),
    ("a line behind the end", {33: "end\n"}, "34 ExtraBytes"),
    ("a word behind the end", {33: "end\nend"}, "34 ExtraBytes"),
]


def with_lines(text, changes):
    """A text in which some lines, counted from 1, have another text or are taken out."""
    lines = [changes.get(number, line) for number, line in enumerate(text.splitlines(), 1)]
    return "".join(line + "\n" for line in lines if line is not None)


def due_of(verdict):
    """Status, standard output and standard error for a verdict or a refusal."""
    if verdict == "Yes":
        return 0, "Yes\n", ""
    if verdict.startswith("No"):
        return 1, verdict + "\n", "no\n"
    line, cause = verdict.split(" ")
    return 6, "", "answer word 2 line %s: %s\n" % (line, cause)


def checked(grammar, path, text):
    """What `check` says of a text."""
    data = text if isinstance(text, bytes) else text.encode()
    with open(path, "wb") as file:
        file.write(data)
    done = answers.subprocess.run([answers.PROGRAM, "check", grammar, path], capture_output=True, check=False)
    return done.returncode, done.stdout.decode(), done.stderr.decode()


def try_worked(folder):
    """The table, each cut, and bytes that are not text."""
    grammar, path = os.path.join(TOP, "examples/least_overt.otp"), os.path.join(folder, "worked")
    judge("the worked answer", run("generate", grammar, "[ ]"), (WORKED, 0))
    for name, changes, verdict in ALTERED:
        judge(name, checked(grammar, path, with_lines(WORKED, changes)), due_of(verdict))
    for size in range(len(WORKED)):
        line = WORKED[:size].count("\n") + 1
        judge("cut to %d bytes" % size, checked(grammar, path, WORKED[:size]), due_of("%d CutShort" % line))
    judge("a byte more", checked(grammar, path, WORKED + "x"), due_of("34 ExtraBytes"))
    judge("a null byte", checked(grammar, path, WORKED.replace("[-\n", "[\0\n", 1)), due_of("29 BadClass"))
    judge("the byte 255", checked(grammar, path, WORKED.encode().replace(b"counts 0", b"counts \xff")),
          due_of("3 BadLine"))
    faithful = os.path.join(TOP, "examples/faithful.otp")
    text, _status = run("generate", faithful, "[ ]")
    judge("an example that is not the first", checked(faithful, path,
          re.sub("(?m)^example .*", "example -[ [+ ]]", text)), due_of("Yes"))


# --- the table of faults, one column at a time ---

def kind_of(text):
    """A kind from its text."""
    place, opened, phases = text.split("/")
    return int(place), tuple(byte == "+" for byte in opened), tuple(phases)


class Checker:
    """Goes through the faults of one answer."""

    def __init__(self, grammar, text):
        self.grammar, self.answer = grammar, read.answer(text)
        self.moves, self.rank = Moves(grammar, self.answer.form), len(grammar.constraints)
        self.stages = [[(kind_of(kind), potential) for kind, potential in stage]
                       for stage in self.answer.stages]
        self.potentials = [dict(stage) for stage in self.stages]

    def verdict(self):
        """The first fault, or Yes."""
        return next(self.faults(), "Yes")

    def faults(self):
        """All faults, in order."""
        yield from self.head_faults()
        for stage, nodes in enumerate(self.stages):
            yield from self.node_faults(stage, nodes)
            if not nodes or nodes[0][0] != self.moves.start(stage):
                yield "No start %d" % stage
            for number, (kind, potential) in enumerate(nodes):
                yield from self.move_faults(stage, number, kind, potential)
            due = 0 if stage == 0 else self.answer.counts[stage - 1]
            if nodes[0][1] != due:
                yield "No start-potential %d %d %d" % (stage, nodes[0][1], due)
        if 0 not in self.answer.arcs:
            yield "No state 0 0"
        for state in self.answer.arcs:
            yield from self.state_faults(state)

    def head_faults(self):
        answer, grammar = self.answer, self.grammar
        if len(answer.stages) != self.rank + 1:
            yield "No stages %d %d" % (len(answer.stages), self.rank + 1)
        inputs = ["".join(column[tier] for tier in self.moves.inputs) for column in answer.example]
        if [part for part in inputs if EDGES & set(part)] != answer.form:
            yield "No example"
        words = {tier: "".join(column[number] for column in answer.example)
                 for number, tier in enumerate(grammar.tiers)}
        for number, constraint in enumerate(grammar.constraints, 1):
            counted = answers.count(constraint, words)
            if answer.counts[number - 1] != counted:
                yield "No counts %d %d %d" % (number, answer.counts[number - 1], counted)

    def node_faults(self, stage, nodes):
        """NodeWrong over all nodes of a stage."""
        stretches = [constraint for constraint in self.grammar.constraints[:stage]
                     if self.moves.is_stretch(constraint)]
        for number, (kind, _potential) in enumerate(nodes):
            wrong = kind[0] > len(self.answer.form)
            if not wrong:
                before = self.moves.open_before(kind)
                due = [all(before[self.moves.number[event.tier]] for event in stretch.left)
                       for stretch in stretches]
                wrong = due != [phase != "." for phase in kind[2]]
            if number and not answers.order_of(nodes[number - 1][0]) < answers.order_of(kind):
                wrong = True
            if stage and self.moves.cut(kind, stage - 1) not in self.potentials[stage - 1]:
                wrong = True
            if wrong:
                yield "No node %d %d" % (stage, number)

    def move_faults(self, stage, number, kind, potential):
        """FinalPotential, NotClosed and Potential at one node."""
        if self.moves.is_final(kind) and potential:
            yield "No final-potential %d %d %d" % (stage, number, potential)
        for _column, target, costs in self.moves.of(kind, stage):
            if not answers.is_kept(self.moves, self.potentials, stage, kind, target, costs):
                continue
            if target not in self.potentials[stage]:
                yield "No closed %d %d %s" % (stage, number, answers.kind_text(target))
                continue
            allowed = self.potentials[stage][target] + (costs[stage - 1] if stage else 0)
            if potential > allowed:
                yield "No potential %d %d %d %d" % (stage, number, potential, allowed)

    def state_faults(self, state):
        """StateMissing, FinalsDiffer, ArcsTwice and ArcsDiffer at one state."""
        answer, nodes = self.answer, self.stages[self.rank]
        for _label, target in answer.arcs[state]:
            if target not in answer.arcs:
                yield "No state %d %d" % (state, target)
        kind = nodes[state][0]
        if answer.final[state] != self.moves.is_final(kind):
            yield "No final %d %d" % (state, answer.final[state])
        listed = {}
        for label, target in answer.arcs[state]:
            for column in read.columns_of(label):
                listed.setdefault(column, []).append(target)
        by_column = lambda column: [SYMBOLS.index(symbol) for symbol in column]  # noqa: E731
        for column in sorted((each for each in listed if len(listed[each]) > 1), key=by_column):
            yield "No twice %d %s" % (state, column)
        number = {each: place for place, (each, _potential) in enumerate(nodes)}
        kept = {column: number[target] for column, target, costs in self.moves.of(kind, self.rank)
                if answers.is_kept(self.moves, self.potentials, self.rank + 1, kind, target, costs)}
        for column in sorted(set(listed) | set(kept), key=by_column):
            one, other = listed.get(column, ["none"])[0], kept.get(column, "none")
            if one != other:
                yield "No arcs %d %s %s %s" % (state, column, one, other)


# --- answers that are altered by chance ---

def other_set(draw, label):
    """A class with another set on one tier."""
    sets = re.findall(r"\{[^}]*\}|.", label)
    place = draw.randrange(len(sets))
    symbols = set(sets[place].strip("{}")) ^ {draw.choice(SYMBOLS)}
    text = "".join(symbol for symbol in SYMBOLS if symbol in symbols)
    sets[place] = "{%s}" % text if len(text) > 1 else text or draw.choice(SYMBOLS)
    return "".join(sets)


def other_line(draw, line):
    """A line that may stand in the place of another."""
    words = line.split(" ")
    if words[0] == "node" and draw.random() < 0.3:
        place, opened, phases = words[1].split("/")
        if phases and draw.random() < 0.7:
            cut = draw.randrange(len(phases))
            phases = phases[:cut] + draw.choice(".um") + phases[cut + 1:]
        else:
            cut = draw.randrange(len(opened))
            opened = opened[:cut] + draw.choice("-+") + opened[cut + 1:]
        words[1] = "/".join((place, opened, phases))
    elif words[0] == "node":
        words[2] = str(max(0, int(words[2]) + draw.choice([-1, 1])))
    elif words[0] == "state":
        return line[:-len(" final")] if line.endswith(" final") else line + " final"
    elif words[0] == "arc" and draw.random() < 0.4:
        words[1] = str(max(0, int(words[1]) + draw.choice([-1, 1])))
    elif words[0] == "arc":
        words[2] = other_set(draw, words[2])
    elif words[0] == "counts" and len(words) > 1:
        place = draw.randrange(1, len(words))
        words[place] = str(max(0, int(words[place]) + draw.choice([-1, 1])))
    return " ".join(words)


def altered(draw, text):
    """A text with one line altered, or with a node, a state or an arc taken out."""
    lines = text.splitlines()
    place = draw.choice([number for number, line in enumerate(lines)
                         if line.startswith(("node", "node", "state", "arc", "counts"))])
    if draw.random() < 0.65:
        lines[place] = other_line(draw, lines[place])
        return "\n".join(lines) + "\n"
    end = place + 1
    if lines[place].startswith("state"):
        while lines[end].startswith("arc"):
            end += 1
    word = {"node": "stage", "state": "automaton"}.get(lines[place].split(" ")[0])
    del lines[place:end]
    for number in range(place - 1, -1, -1):
        words = lines[number].split(" ")
        if words[0] == word:
            lines[number] = " ".join(words[:-1] + [str(int(words[-1]) - 1)])
            break
    return "\n".join(lines) + "\n"


def try_altered(folder, wanted):
    """Altered answers, as many as are wanted that can be read."""
    draw, compared = random.Random(1994), 0
    grammar_path, path = os.path.join(folder, "g.otp"), os.path.join(folder, "altered")
    for number in itertools.count():
        text = answers.grammar_text(draw)
        grammar = read.grammar(text)
        with open(grammar_path, "w", encoding="ascii") as file:
            file.write(text)
        made, status = run("generate", grammar_path, read.text_of(answers.form_of(draw, grammar)))
        judge("grammar %d, status" % number, status, 0)
        judge("grammar %d, unaltered" % number, checked(grammar_path, path, made), due_of("Yes"))
        for time in range(8):
            changed = altered(draw, made)
            if time % 4 == 3:
                changed = altered(draw, changed)
            found = checked(grammar_path, path, changed)
            if found[0] == 6:
                continue
            verdict = Checker(grammar, changed).verdict()
            judge("grammar %d, altered %d" % (number, time), found, due_of(verdict))
            compared += 1
        if compared >= wanted:
            return


def main():
    with tempfile.TemporaryDirectory() as folder:
        try_worked(folder)
        try_altered(folder, int(sys.argv[1]) if len(sys.argv) > 1 else 400)
    print("%d passed, %d failed" % (answers.passed, answers.failed))
    return answers.failed != 0


if __name__ == "__main__":
    sys.exit(main())
