#!/usr/bin/env python3
"""Tests the tools on the examples, beside the program itself.

    tests/tools.py           the last line is `N passed, M failed`

The program is the one that ./otp runs, or the file in the environment variable OTP_PROGRAM.
"""
import glob
import os
import random
import re
import shutil
import subprocess
import sys
import tempfile
import xml.etree.ElementTree

TOP = os.path.dirname(os.path.dirname(os.path.abspath(__file__)))
sys.path.insert(0, os.path.join(TOP, "tools"))
sys.dont_write_bytecode = True
import otp_lint as lint  # noqa: E402
import otp_man as man  # noqa: E402
import otp_read as read  # noqa: E402
import otp_view as view  # noqa: E402

BASE = "otp 1\ntier A input\ntier a overt\n"
PAIR = "otp 1\ntier A input\ntier a overt\ntier b overt\n"
FORMS = ["=t", "=ta", "=a", "=tat", "=taa", "=tta", "=o", "=Oo", "=oO", "=mat", "=dad", "=tatq", "empty"]
passed, failed = 0, 0


def judge(what, found, wanted):
    """Counts one comparison, and tells a difference."""
    global passed, failed
    if found == wanted:
        passed += 1
    else:
        failed += 1
        print("FAILED %s: %s, wanted %s" % (what, found, wanted))


def otp(*words):
    """What the program writes."""
    return subprocess.run([os.path.join(TOP, "otp"), *words], capture_output=True, text=True).stdout


def lint_of(data, letters=8):
    """What the linter says of a grammar's bytes, but for the size, and its status."""
    with tempfile.NamedTemporaryFile("wb", suffix=".otp") as file:
        file.write(data if isinstance(data, bytes) else data.encode("utf-8"))
        file.flush()
        done = subprocess.run([sys.executable, os.path.join(TOP, "tools", "otp_lint.py"), file.name, str(letters)],
                              capture_output=True, text=True)
    return [line for line in done.stdout.splitlines() if not line.startswith("a form of")], done.returncode


def tool(name, *words, given=""):
    """What a tool says on standard error of these words, and its status."""
    done = subprocess.run([sys.executable, os.path.join("tools", name), *words], cwd=TOP, input=given,
                          capture_output=True, text=True)
    return done.stderr, done.returncode


def printed(name, *words, given=""):
    """What a tool prints of these words, and its status."""
    done = subprocess.run([sys.executable, os.path.join("tools", name), *words], cwd=TOP, input=given,
                          capture_output=True, text=True)
    return done.stdout, done.returncode


def test_wrong_words():
    """The tools say in a line what is wrong with their words and files."""
    ranked, syllables = "examples/ranked.otp", "examples/syllables.otp"
    judge("no file", tool("otp_view.py", "missing"), ("otp_view: missing: No such file or directory\n", 1))
    judge("no file", tool("otp_lint.py", "missing"), ("otp_lint: missing: No such file or directory\n", 1))
    judge("no grammar", tool("otp_view.py", "README.md", "[["),
          ("otp_view: README.md is not a grammar: `otp canon README.md` says where\n", 1))
    judge("a spelled form", tool("otp_view.py", ranked, "=tat"),
          ("otp_view: the timeline: =tat is not a column; the symbols are - + [ ] |\n", 1))
    judge("narrow columns", tool("otp_view.py", ranked, "[ ]"), (
        "otp_view: the timeline: column 0 is [, and there is to be a symbol for each of the tiers A a\n", 1))
    judge("wide columns", tool("otp_view.py", ranked, "[[- ]]-"), (
        "otp_view: the timeline: column 0 is [[-, and there is to be a symbol for each of the tiers A a\n", 1))
    judge("another grammar", tool("otp_view.py", ranked, given=otp("show", syllables, "=t")), (
        "otp_view: there are 13 counts, and the grammar has 3 constraints: was it made for another one?\n", 1))
    judge("another text", tool("otp_view.py", ranked, given="Yes\n"),
          ("otp_view: this is not what otp writes for a form or a timeline\n", 1))


def test_answers():
    """Optima and surfaces of each example, beside the counts that the program gives to each."""
    for path in sorted(glob.glob(os.path.join(TOP, "examples", "**", "*.otp"), recursive=True)):
        grammar = read.grammar(open(path, encoding="utf-8").read())
        name = os.path.relpath(path, TOP)
        for form in FORMS if grammar.letters else ["empty", "[ ]", "[ | ]"]:
            text = otp("generate", path, form)
            if not text:
                continue
            answer = read.answer(text)
            optima = read.timelines(answer, 40)
            judge(name + " example", answer.example, optima[0])
            judge(name + " form", read.project(grammar, answer.example, "input"), answer.form)
            for columns in optima[:6]:
                judge(name + " counts", otp("score", path, read.text_of(columns)).split()[1:],
                      [str(count) for count in answer.counts])
            surfaces = read.surfaces(grammar, answer)
            if read.how_many(answer) is not None and read.how_many(answer) <= 40:
                heard = {read.text_of(read.project(grammar, columns)) for columns in optima}
                judge(name + " optima", read.how_many(answer), len(optima))
                judge(name + " surfaces", {read.text_of(one) for one in read.timelines(surfaces, 99)}, heard)
                judge(name + " number of surfaces", read.how_many(surfaces), len(heard))


def test_gallery():
    """The surfaces that each grammar of the gallery lists are those of all its optimal candidates."""
    for path in sorted(glob.glob(os.path.join(TOP, "examples", "gallery", "*.otp"))):
        with open(path, encoding="utf-8") as file:
            text = file.read()
        grammar = read.grammar(text)
        listed = re.findall(r'(?m)^;     "([^"]*)" +(.*)$', text)
        judge(os.path.basename(path) + " lists forms", bool(listed), True)
        for form, wanted in listed:
            surfaces = read.surfaces(grammar, read.answer(otp("generate", path, form)))
            many, words = read.how_many(surfaces), wanted.split()
            judge("%s %s, infinitely many" % (path, form), many is None, words[-1] == "..")
            if many is None:
                words.pop()
            first = read.timelines(surfaces, many or len(words))
            judge("%s %s" % (path, form), [read.spelled(grammar, surface) for surface in first], words)


def test_readers():
    """Small texts."""
    ranked = os.path.join(TOP, "examples", "ranked.otp")
    faithful = os.path.join(TOP, "examples", "faithful.otp")
    judge("nine", read.how_many(read.answer(otp("generate", ranked, "[ ]"))), 9)
    judge("infinitely many", read.how_many(read.answer(otp("generate", faithful, "[ ]"))), None)
    judge("class", read.columns_of("{-+}["), ["-[", "+["])
    judge("two sets", read.columns_of("{-[}-{+]|}"), ["--+", "--]", "--|", "[-+", "[-]", "[-|"])
    text = "  [ ]      Max Dep One\n> [[ ]]      0   0   1\n  [- ]-     1!   0   0\n  -[ [| ]]   0  1!   2\n"
    form, names, rows = read.tableau(text)
    judge("tableau", (form, names), (["[", "]"], ["Max", "Dep", "One"]))
    judge("rows", [(row.optimal, read.text_of(row.timeline), row.counts, row.worse) for row in rows], [
        (True, "[[ ]]", [0, 0, 1], None), (False, "[- ]-", [1, 0, 0], "Max"),
        (False, "-[ [| ]]", [0, 1, 2], "Dep")])
    form, names, rows = read.tableau("  empty\n> empty\n")
    judge("tableau of nothing", (form, names, rows[0].timeline, rows[0].counts), ([], [], [], []))


def test_pictures():
    """A picture as text and as SVG."""
    names, columns = ["A", "a"], ["-[", "[|", "+]", "]-"]
    judge("picture", view.draw(names, columns).split("\n"), [
        "  time  0   1   2   3", "  A         [_______]", "  a     [___|___]"])
    root = xml.etree.ElementTree.fromstring(view.draw_svg(names, columns))
    judge("bars", len([one for one in root if one.tag.endswith("rect")]), 3)


def test_steps():
    """The linter's steps add up to what `score` counts, on timelines made at random (fixed seed)."""
    dice = random.Random(7)
    tiers = ["A", "a", "b"]
    for _ in range(8):
        lines = []
        for number in range(24):
            sides = [[dice.choice(["", "[", "]"]) + dice.choice(tiers) for _ in range(dice.randint(1, 2))]
                     for _ in range(2)]
            family = dice.choice(["->", "#"])
            lines.append("constraint K%d %s %s %s" % (number, " and ".join(sides[0]), family,
                                                      (" or " if family == "->" else " and ").join(sides[1])))
        text = PAIR + "\n".join(lines) + "\n"
        grammar = read.grammar(text)
        with tempfile.NamedTemporaryFile("w", suffix=".otp") as file:
            file.write(text)
            file.flush()
            for _ in range(12):
                columns, inside = [], [False] * 3
                while len(columns) < 7 or any(inside):
                    column = "".join(dice.choice("+]|" if is_open and len(columns) < 7 else "]" if is_open else
                                                 "-[" if len(columns) < 7 else "-") for is_open in inside)
                    if read.EDGES & set(column):
                        columns.append(column)
                        inside = [symbol in "[+|" for symbol in column]
                found = []
                for constraint in grammar.constraints:
                    total, phase, before = 0, "closed", set()
                    for column in columns:
                        symbols = dict(zip(tiers, column))
                        cost, phase = lint.step(constraint, before, phase, symbols)
                        before = {tier for tier in tiers if symbols[tier] in "[+|"}
                        total += cost
                    found.append(total)
                text = read.text_of(columns)
                judge("steps on " + text, found, read.counts(otp("score", file.name, text)))


def test_lint():
    """What is found, and what is not."""
    dead = PAIR + "constraint FMax [a and a # b\n"
    judge("an edge and its interior", lint_of(dead)[0][0], "line 5: FMax never counts: no timeline violates it")
    judge("status", lint_of(dead)[1], 1)
    judge("left and right", lint_of(PAIR + "constraint K a -> a or b\n")[0][0],
          "line 5: K never counts: no timeline violates it")
    judge("alike", lint_of(PAIR + "constraint K a and b -> A\nconstraint L b and a -> A\n")[0][0],
          "line 6: L counts the same as K on line 5")
    judge("not quite alike", lint_of(PAIR + "constraint K a -> b or A\nconstraint L a and b # A\n"),
          (["nothing to mend"], 0))
    judge("alike by what they count", lint_of(PAIR + "constraint K ]a # b\nconstraint L ]a and b # b\n")[0][0],
          "line 6: L counts the same as K on line 5")
    judge("input alone", lint_of(PAIR + "constraint K A # A\nconstraint L a # b\n")[0][0],
          "line 5: K names input tiers alone: it counts the same on all candidates")
    judge("each one", lint_of(BASE + "constraint One a # a\n"),
          (["nothing to mend", "note: line 4: One counts each a, and not pairs of them",
            "note: no constraint names the tier A"], 0))
    judge("overlap", lint_of(PAIR + "constraint K A -> a\nconstraint L A -> b\n")[0][1],
          "note: no constraint names both a and b: they may overlap as they like")
    edges = "constraint End ]A -> ]a\nconstraint Max [A -> [a\n"
    judge("lost twice", lint_of(BASE + edges)[0],
          ["nothing to mend", "note: line 4: End is above Max on line 5: a A that is lost counts there already"])
    judge("lost once", lint_of(BASE + "\n".join(reversed(edges.split("\n"))))[0], ["nothing to mend"])
    for sign, line in [("\u2192", "U+2192 RIGHTWARDS ARROW"), ("\u00a0", "U+00A0 NO-BREAK SPACE"),
                       ("*", "U+002A ASTERISK"), ("\u2013", "U+2013 EN DASH"), ("\f", "U+000C control")]:
        found, status = lint_of(BASE + "constraint K A %s a\n" % sign)
        judge("byte " + line, (line in found[0], found[0].startswith("line 4 byte 16: "), status), (True, True, 1))
    judge("byte order mark", lint_of(b"\xef\xbb\xbf" + BASE.encode())[0][0][:32], "line 1 byte 1: a byte order mark")
    judge("UTF-16", lint_of(BASE.encode("utf-16"))[0][0][:21], "line 1 byte 1: UTF-16")
    judge("Windows line ends", lint_of(BASE.replace("\n", "\r\n") + "constraint K A -> a\r\n"),
          (["nothing to mend"], 0))
    for free, wanted in [(1, 19), (2, 113), (3, 601), (8, 1952357)]:
        text = "otp 1\ntier A input\n" + "".join("tier t%d overt\n" % number for number in range(free))
        judge("moves", lint.size(read.grammar(text), 1).split(" moves")[0].split()[-1], str(wanted))


def test_typology():
    """Each outcome with what its rankings have in common, and words that are wrong."""
    stop = "examples/gallery/nasal_stop.otp"
    judge("three constraints", printed("otp_typology.py", stop, "=anta", "=ana", "rank", "DepX", "MaxN", "MaxC"), (
        "6 rankings, 3 outcomes\nanda; ana\n  2 rankings: MaxC MaxN >> DepX\natta; ana\n  2 rankings:"
        " MaxC DepX >> MaxN\nana; ana\n  2 rankings: MaxN DepX >> MaxC\n", 0))
    judge("one outcome", printed("otp_typology.py", stop, "=ana", "rank", "MaxN", "MaxC"),
          ("2 rankings, 1 outcome\nana\n  2 rankings: no order in common\n", 0))
    judge("infinitely many", printed("otp_typology.py", "examples/ranked.otp", "[ ]", "rank", "Max", "Dep"),
          ("2 rankings, 1 outcome\n[ ]\n  2 rankings: no order in common\n", 0))
    for words, wanted in [((stop, "=anta", "rank", "MaxC"), "2 to 6 constraints are ranked, each named once"),
                          ((stop, "rank", "MaxC", "MaxN"), "say of which forms: G FORM .. rank NAME NAME .."),
                          ((stop, "=anta"), "say which constraints are ranked: G FORM .. rank NAME NAME ..")]:
        judge("wrong words", tool("otp_typology.py", *words), ("otp_typology: %s\n" % wanted, 1))


def test_argue():
    """Arguments and strata of tableaux, what follows from others, and what no ranking agrees with."""
    ranked = os.path.join(TOP, "examples", "ranked")
    judge("arguments", printed("otp_argue.py", given=otp("tableau", ranked + ".otp", "[ ]", ranked + ".rows")), (
        "[ ]: [[ ]] wins\n  Max Dep One\n  W       L    [- ]-\n      W   W    -[ [| ]]\n"
        "arguments:\n  Max >> One\nstrata: Max Dep >> One\n", 0))
    row = "  empty A B C\n> empty 0 %s 1\n  empty 1 %s 0\n"
    turned = "  empty A B C\n> empty 1 0 0\n  empty 0! 0 1\n"
    judge("none", printed("otp_argue.py", given="  empty A\n> empty 0\n  empty 1!\n"),
          ("empty: empty wins\n  A\n  W  empty\narguments: none\nstrata: A\n", 0))
    judge("one or the other", printed("otp_argue.py", given=row % (0, 2))[0].split("\n", 4)[4],
          "  A or B >> C\nstrata: A B >> C\n")
    judge("both of them", printed("otp_argue.py", given=row % (0, 0) + row % (3, 2))[0].split("arguments:\n")[1],
          "  A >> B C\nstrata: A >> B C\n")
    chain = "  empty A B C\n> empty 1 1 1\n  empty 2 0 1\n  empty 1 2 0\n  empty 2 1 0\n"
    judge("a chain", printed("otp_argue.py", given=chain)[0].split("arguments:\n")[1],
          "  A >> B\n  B >> C\nstrata: A >> B >> C\n")
    judge("no ranking", tool("otp_argue.py", given=row % (0, 0) + turned), (
        "otp_argue: no ranking lets all of these win\n", 1))
    judge("other constraints", tool("otp_argue.py", given=row % (0, 0) + "  empty D\n> empty 0\n")[1], 1)
    for text, wanted in [("", "nothing to read; what otp wrote to standard error says why"),
                         ("counts 1\n", "this is no line of a tableau: counts 1"),
                         ("> empty 0\n", "a tableau begins with the form and the names of the constraints")]:
        judge("no tableau", tool("otp_argue.py", given=text), ("otp_argue: %s\n" % wanted, 1))


def test_pages():
    """The man page is made from FORMATS.md, and the completions know each command of it."""
    with open(os.path.join(TOP, "docs", "FORMATS.md"), encoding="utf-8") as file:
        text = file.read()
    with open(os.path.join(TOP, "tools", "otp.1"), encoding="utf-8") as file:
        judge("tools/otp.1 is what tools/otp_man.py writes", file.read() == man.page(text), True)
    for name in ("otp.bash", "_otp"):
        with open(os.path.join(TOP, "tools", "completion", name), encoding="utf-8") as file:
            completion = file.read()
        for words, _ in man.commands(text):
            judge("%s in %s" % (words, name), words.split()[1] in completion, True)


R_LINES = """
source("tools/otp_read.R")
ranked <- "examples/ranked.otp"
grammar <- otp_grammar(ranked)
call <- function(file) otp_answer(system2("./otp", c("generate", file, shQuote("[ ]")), stdout = TRUE))
answer <- call(ranked)
cat(names(otp_counts(grammar, answer)), otp_counts(grammar, answer), otp_how_many(answer),
    otp_how_many(call("examples/faithful.otp")), nrow(answer$arcs), otp_columns("{-+}["), sep = " ")
"""


def test_r():
    """The readers in R, if R is there."""
    if shutil.which("Rscript") is None:
        print("tools/otp_read.R: not tried, since Rscript is missing")
        return
    done = subprocess.run(["Rscript", "-e", R_LINES], cwd=TOP, capture_output=True, text=True)
    arcs = otp("generate", os.path.join(TOP, "examples", "ranked.otp"), "[ ]").count("\narc ")
    judge("R", done.stdout, "One Max Dep 1 0 0 9 Inf %d -[ +[" % arcs)


def main():
    """All tests."""
    test_typology()
    test_argue()
    test_pages()
    test_r()
    test_wrong_words()
    test_answers()
    test_gallery()
    test_readers()
    test_pictures()
    test_steps()
    test_lint()
    print("%d passed, %d failed" % (passed, failed))
    return 1 if failed else 0


if __name__ == "__main__":
    sys.exit(main())
