#!/bin/sh
# Tries the real program: its exit status, what it writes to standard output and to standard error,
# and what it does when standard output cannot take the answer. It runs from any folder, by hand and
# in `.ci/run`, and its last line is `N passed, M failed`. It says what fails, and with the word
# `all` also what passes.
top=$(cd "$(dirname "$0")/.." && pwd) || exit 1
place=$(mktemp -d) || exit 1
trap 'rm -rf "$place"' EXIT
cp "$top"/examples/*.otp "$top"/examples/*.rows "$top"/examples/*.toml "$place" && cd "$place" || exit 1
printf 'otp 1\ntier A input\ntier a hidden\n' > no_overt.otp
printf 'otp 1\ntier A input\ntier  a overt ; surface\n\nconstraint Max A->a' > loose.otp
printf 'otp 1\ntier A input\ntier a overt\nconstraint Max A -> a\n' > strict.otp
{ cat base.otp; echo 'tier a hidden'; } > twice.otp
{ cat base.otp; echo 'constraint X b -> a'; } > unknown.otp
head -c 65537 /dev/zero > long.otp
tr '\0' 'x' < /dev/zero | head -c 65536 > full.otp
{ cat base.otp; echo 'constraint Dep a -> A'; } > added.otp
printf 'x = \n' > broken.toml
printf "[[entry]]\nname = 'one'\n" > formless.toml
printf "[[entry]]\nname = 'one'\nform = 'empty'\n[[entry]]\nname = 'one'\nform = 'empty'\n" > twice.toml
printf "[[entry]]\nname = 'one'\nform = '['\n" > open.toml
seq 1000 | sed "s/.*/[[entry]]\nname = '&'\nform = 'empty'/" > many.toml
head -c 4194305 /dev/zero > long.rows
printf '\n[- ]-\n  \n[ ]\n' > narrow.rows
printf '[- ]-\r\n\r\n[[ ]]' > optimal.rows
yes '[- ]-' | head -n 33 > many.rows
passed=0
failed=0
verbose=$1

# has_passed NAME, has_failed WORD..: counts a case
has_passed() {
    passed=$((passed + 1))
    [ "$verbose" != all ] || echo "passed $1"
}

has_failed() {
    failed=$((failed + 1))
    echo "FAILED $*"
}

# has_text FILE FILE NAME: two files are the same
has_text() {
    if cmp -s "$1" "$2"; then
        has_passed "$3"
    else
        has_failed "$3: it wrote $(cat "$1")"
    fi
}

# try NAME STATUS LINE WORD..: the status, the line on standard error, and no text but for status 0 or 1
try() {
    name=$1 status=$2 line=$3
    shift 3
    "$top/otp" "$@" > out 2> err
    found=$?
    printf '%s' "$line" > line
    [ -z "$line" ] || echo >> line
    if [ "$found" != "$status" ] || ! cmp -s err line; then
        has_failed "$name: status $found, $(cat err)"
    elif [ "$status" -gt 1 ] && [ -s out ]; then
        has_failed "$name: it wrote to standard output"
    else
        has_passed "$name"
    fi
}

# wrote LINE..: the lines that the last command wrote
wrote() {
    printf '%s\n' "$@" > lines
    has_text out lines "$name, text"
}

"$top/otp" > /dev/null 2>&1 # builds it where need be

# what each command writes
try "empty form" 0 "" generate base.otp empty
has_text out "$top/crates/otp/stdout" "empty form, text"
try "one constituent" 0 "" generate base.otp "[ ]"
try "spelled empty form" 0 "" generate base.otp =
try "counts and example" 0 "" show base.otp "[ | ]"
wrote "counts" "example [- |- ]-"
try "letters" 0 "" show letters.otp =na
wrote "counts" "example [-[- ][]- -]--"
try "largest budget" 0 "" show base.otp "[ ]" 65536
try "as many kinds as the budget" 0 "" show base.otp "[ ]" 6
wrote "counts" "example [- ]-"
try "canonical text of a canonical text" 0 "" canon syllables.otp
has_text out syllables.otp "canonical text of a canonical text, text"
try "canonical text of a loose text" 0 "" canon loose.otp
has_text out strict.otp "canonical text of a loose text, text"
try "three counts" 0 "" score ranked.otp "-[ [| ]]"
wrote "counts 0 1 2"
try "no counts" 0 "" score base.otp "[- ]-"
wrote "counts"
try "two open syllables" 0 "" score syllables.otp "[-[-[ ][][+ [][]| ][][+ -]-]]"
wrote "counts 0 0 0 0 0 0 0 0 0 0 0 0 0"
try "a coda" 0 "" score syllables.otp "[-[-[ ][][+ [][]| ]-]-]"
wrote "counts 0 0 0 0 0 0 0 0 0 0 0 1 0"

# what rankings leave
try "Max, Dep, One" 0 "" show ranked.otp "[ ]"
wrote "counts 0 0 1" "example [[ ]]"
try "One, Max, Dep" 0 "" show least_overt.otp "[ ]"
wrote "counts 0 1 0" "example [- ]-"
try "Max, Dep" 0 "" show faithful.otp "[ ]"
wrote "counts 0 0" "example [[ ]]"
try "nothing is put in" 0 "" show ranked.otp empty
wrote "counts 0 0 0" "example empty"
try "two constituents" 0 "" show ranked.otp "[ | ]"
wrote "counts 0 0 1" "example [[ |+ ]]"
try "stages of an answer" 0 "" generate least_overt.otp "[ ]"
wrote "answer 1" "form [ ]" "counts 0 1 0" "example [- ]-" \
    "stage 0 6" "node 0/-/ 0" "node 0/+/ 0" "node 1/-/ 0" "node 1/+/ 0" "node 2/-/ 0" "node 2/+/ 0" \
    "stage 1 6" "node 0/-/ 0" "node 0/+/ 1" "node 1/-/ 0" "node 1/+/ 1" "node 2/-/ 0" "node 2/+/ 1" \
    "stage 2 3" "node 0/-/. 1" "node 1/-/u 1" "node 2/-/. 0" \
    "stage 3 3" "node 0/-/.. 0" "node 1/-/u. 0" "node 2/-/.. 0" \
    "automaton 3" "state 0" "arc 1 [-" "state 1" "arc 2 ]-" "state 2 final" "end"
try "nine optimal timelines" 0 "" generate ranked.otp "[ ]"
sed -n '/^automaton/,$p' out > automaton && mv automaton out
wrote "automaton 7" "state 0" "arc 1 -[" "arc 2 [-" "arc 4 [[" "state 1" "arc 4 [+" "state 2" "arc 4 +[" \
    "state 3" "arc 5 ]-" "state 4" "arc 3 +]" "arc 5 ]]" "arc 6 ]+" "state 5 final" "state 6" "arc 5 -]" "end"
try "two syllables" 0 "" show syllables.otp =tata
wrote "counts 0 0 0 0 0 0 0 0 0 0 0 0 0" "example [-[-[ ][][+ [][]| ][][+ -]-]]"
try "a coda is least" 0 "" show syllables.otp =tat
wrote "counts 0 0 0 0 0 0 0 0 0 0 0 1 0" "example [-[-[ ][][+ [][]| ]-]-]"
try "no coda at any price" 0 "" show open_syllables.otp =tat
wrote "counts 0 0 0 0 0 0 0 0 0 1 0 0 0" "example [-[-[ ][][+ [][]] ]-]--"
try "as many kinds as every stage has" 0 "" show faithful.otp "[ ]" 8
wrote "counts 0 0" "example [[ ]]"

# tableaux
try "two rows" 0 "" tableau ranked.otp "[ ]" ranked.rows
wrote "  [ ]      Max Dep One" "> [[ ]]      0   0   1" "  [- ]-     1!   0   0" "  -[ [| ]]   0  1!   2"
try "an optimal row" 0 "" tableau ranked.otp "[ ]" optimal.rows 20000
wrote "  [ ]   Max Dep One" "> [[ ]]   0   0   1" "  [- ]-  1!   0   0" "> [[ ]]   0   0   1"
try "no rows" 0 "" tableau ranked.otp "[ ]" /dev/null
wrote "  [ ]   Max Dep One" "> [[ ]]   0   0   1"

# a single pass
try "kinds of all candidates" 0 "" once least_overt.otp "[ ]" 8
wrote "once 1" "form [ ]" "counts 0 1 0" "example [- ]-" \
    "nodes 8" "node 0/-/.. 0 1 0" "node 0/+/.u 1 0 0" "node 1/-/u. 0 1 0" "node 1/-/m. 0 0 0" \
    "node 1/+/mm 1 0 0" "node 2/-/.. 0 0 0" "node 2/+/.u 1 0 1" "node 2/+/.m 1 0 0" \
    "automaton 3" "state 0" "arc 2 [-" "state 2" "arc 5 ]-" "state 5 final" "end"
try "single pass without constraints" 0 "" once base.otp =
wrote "once 1" "form empty" "counts" "example empty" "nodes 2" "node 0/-/" "node 0/+/" \
    "automaton 2" "state 0 final" "arc 1 -[" "state 1" "arc 0 -]" "arc 1 -|" "end"
for form in empty "[ ]" "[ | ]" "[ ] [ ]"; do
    "$top/otp" once ranked.otp "$form" | sed -n '3,4p' > single
    "$top/otp" show ranked.otp "$form" > staged
    has_text single staged "both ways agree on $form"
done

# comprehension
try "first optimal candidates that are silent" 0 "" comprehend added.otp ranked.toml "[ ]"
wrote "hits 2" "entry one" "example [[ ]]" "entry two" "example [- |[ ]]"
try "silence" 0 "" comprehend added.otp ranked.toml empty
wrote "hits 3" "entry none" "example empty" "entry one" "example [- ]-" "entry two" "example [- |- ]-"
try "unknown surface" 0 "" comprehend ranked.otp ranked.toml "[ | ]" 20000
wrote "hits 0"
try "no entries" 0 "" comprehend added.otp /dev/null "[ ]"
wrote "hits 0"
try "a thousand entries" 0 "" comprehend added.otp many.toml empty
[ "$(head -n 1 out)" = "hits 1000" ] && [ "$(wc -l < out)" = 2001 ] && has_passed "a thousand hits" \
    || has_failed "a thousand hits"

# verdicts on an answer, and on its text with one alteration
"$top/otp" generate base.otp empty > base.answer
"$top/otp" generate least_overt.otp "[ ]" > right.answer
# verdict TEXT LINE FILE GRAMMAR: what `check` writes, with status 0 for Yes and 1 for No
verdict() {
    status=1 line=no
    [ "$2" != Yes ] || { status=0; line=; }
    try "$1" "$status" "$line" check "$4" "$3"
    wrote "$2"
}
verdict "an answer of generate" "Yes" right.answer least_overt.otp
awk '/^stage/ { stage = $2; node = -1 } /^node/ && ++node == 1 && stage == 1 { sub(/ 1$/, " 2") } { print }' \
    right.answer > altered.answer
verdict "a higher potential" "No potential 1 1 2 1" altered.answer least_overt.otp
awk '/^stage 0 / { $0 = "stage 0 5" } /^stage/ { stage = $2 } stage == 0 && /^node 2\/\+\// { next } { print }' \
    right.answer > altered.answer
verdict "a kind is missing" "No closed 0 2 2/+/" altered.answer least_overt.otp
sed '/^arc 2 ]-$/d' right.answer > altered.answer
verdict "an arc is missing" "No arcs 1 ]- none 2" altered.answer least_overt.otp
sed 's/^counts .*/counts 0 0 0/' right.answer > altered.answer
verdict "another count" "No counts 2 0 1" altered.answer least_overt.otp
head -c -1 right.answer > cut.answer
try "the last byte is cut" 6 "answer word 2 line 33: CutShort" check least_overt.otp cut.answer
{ cat right.answer; echo; } > longer.answer
try "a line too many" 6 "answer word 2 line 34: ExtraBytes" check least_overt.otp longer.answer
for form in empty "[ ]" "[ | ]" "[ ] [ ]"; do
    for grammar in base added least_overt ranked; do
        "$top/otp" generate $grammar.otp "$form" > made.answer
        verdict "generated and checked, $grammar, $form" "Yes" made.answer $grammar.otp
    done
done

# samples
try "a sample of one letter" 0 "" sample 1
printf 'form =t\ncounts 0 0 0 0 0 0 0 0 0 0 0 1 0\nexample [-[-[ ]-]-]\nstates 5\npairs 6\ncheck Yes\n' > sample.text
has_text out sample.text "its text"
try "a sample of 63 letters" 0 "" sample 63
[ "$(tail -n 1 out)" = "check Yes" ] && has_passed "it is checked" || has_failed "it is checked"
grep '^form' out | cut -d ' ' -f 2 > sample.form
grep -v '^form\|^states\|^pairs\|^check' out > sample.shown
"$top/otp" show syllables.otp "$(cat sample.form)" > shown
has_text shown sample.shown "it is what show writes"
for number in 0 64 01 +1 x; do try "no sample of $number letters" 2 "usage" sample $number; done
try "a sample and a word more" 2 "usage" sample 1 1

# the largest grammar: 12 tiers, 24 constraints with 8 events on each side, and names of 32 bytes
name=abcdefghijklmnopqrstuvwxyzA
{
    echo "otp 1"
    for number in $(seq -w 1 6); do echo "tier ${name}_i00$number input"; done
    for number in $(seq -w 1 6); do echo "tier ${name}_o00$number overt"; done
    for number in $(seq -w 1 24); do
        printf 'constraint %s_c0%s' "$name" "$number"
        for event in 1 2 3 4 5 6 1 2; do printf ' [%s_i00%s and' "$name" "$event"; done | sed 's/ and$/ ->/'
        for event in 1 2 3 4 5 6 1 2; do printf ' %s_o00%s or' "$name" "$event"; done | sed 's/ or$//'
        echo
    done
} > largest.otp
try "the largest grammar" 0 "" canon largest.otp
has_text out largest.otp "the largest grammar is its canonical text"

# the longest words
bars() { yes '|' | head -n "$1" | tr '\n' ' '; }
try "form of 64 columns" 0 "" show base.otp "[ $(bars 62)]"
[ "$(tail -n 1 out | wc -w)" = 65 ] && has_passed "64 columns" || has_failed "64 columns: $(cat out)"
try "form of 65 columns" 4 "form word 2: TooLong" show base.otp "[ $(bars 63)]"
try "timeline of 4,096 columns" 0 "" score added.otp "[- $(bars 4094 | sed 's/|/|-/g')]-"
wrote "counts 0"
try "timeline of 4,097 columns" 4 "form word 2: TooLong" score added.otp "[- $(bars 4095 | sed 's/|/|-/g')]-"
printf 'otp 1\ntier A input\ntier B input\ntier a overt\nletter x = B A\n' > swapped.otp
try "tiers of a letter in their order" 0 "" canon swapped.otp
wrote "otp 1" "tier A input" "tier B input" "tier a overt" "letter x = A B"

# each refusal
try "unknown command" 2 "usage" foo base.otp empty
try "two words" 2 "usage" generate base.otp
try "a word too many" 2 "usage" canon base.otp empty
try "no timeline" 2 "usage" score base.otp
try "budget of zero" 2 "usage" show base.otp empty 0
try "leading zero" 2 "usage" show base.otp empty 08
try "budget above the greatest" 2 "usage" show base.otp empty 65537
try "budget of score" 2 "usage" score base.otp empty 8
try "missing file" 8 "read fault word 1" generate missing.otp empty
try "folder" 8 "read fault word 1" generate . empty
try "long file" 12 "too long word 1" generate long.otp empty
try "longest file" 3 "grammar word 1 line 1: BadHeader" canon full.otp
try "empty file" 3 "grammar word 1 line 1: BadHeader" canon /dev/null
try "no overt tier" 3 "grammar word 1 line 0: NoOvert" generate no_overt.otp empty
try "tier twice" 3 "grammar word 1 line 4: TwiceNamed" show twice.otp empty
try "unknown tier" 3 "grammar word 1 line 4: UnknownTier" score unknown.otp empty
try "grammar before form" 3 "grammar word 1 line 4: UnknownTier" generate unknown.otp "] ["
try "not well formed" 4 "form word 2: NotWellFormed 0" generate base.otp "] ["
try "not reduced" 4 "form word 2: NotReduced 1" generate base.otp "[ + ]"
try "no letter" 4 "form word 2: UnknownLetter 1" generate base.otp =t
try "another letter" 4 "form word 2: UnknownLetter 2" show letters.otp =tx
try "empty word" 4 "form word 2: WrongWidth 0" generate base.otp ""
try "timeline of one tier" 4 "form word 2: WrongWidth 0" score ranked.otp "[ ]"
try "timeline that is spelled" 4 "form word 2: BadSymbol 0" score letters.otp =t
try "timeline that never ends" 4 "form word 2: NotWellFormed 1" score ranked.otp "[[ ]+"
try "form before budget" 4 "form word 2: NotWellFormed 0" show base.otp "] [" 1
try "fewer kinds than there are" 7 "budget entry 0 stage 0" show base.otp "[ ]" 5
try "budget of the first constraint" 7 "budget entry 0 stage 1" generate faithful.otp "[ ]" 6
try "budget of the second constraint" 7 "budget entry 0 stage 2" show faithful.otp "[ ]" 7
try "budget before any constraint" 7 "budget entry 0 stage 0" show faithful.otp "[ ]" 5
try "form before stages" 4 "form word 2: NotWellFormed 0" show ranked.otp "] ["
try "budget of generate" 7 "budget entry 0 stage 0" generate hidden.otp empty 3
try "no rows file" 2 "usage" tableau ranked.otp "[ ]"
try "tableau, a word too many" 2 "usage" tableau ranked.otp "[ ]" ranked.rows 8 8
try "tableau, budget of zero" 2 "usage" tableau ranked.otp "[ ]" ranked.rows 0
try "rows of another form" 11 "rows word 3 row 1: NotCandidate" tableau ranked.otp "[ | ]" ranked.rows
try "grammar for rows" 11 "rows word 3 row 1: BadSymbol 0" tableau ranked.otp "[ ]" ranked.otp
try "row of one tier" 11 "rows word 3 row 4: WrongWidth 0" tableau ranked.otp "[ ]" narrow.rows
try "one row too many" 11 "rows word 3 row 33: TooMany" tableau ranked.otp "[ ]" many.rows
try "missing rows file" 8 "read fault word 3" tableau ranked.otp "[ ]" missing.rows
try "long rows file" 12 "too long word 3" tableau ranked.otp "[ ]" long.rows
try "form before rows" 4 "form word 2: NotWellFormed 0" tableau ranked.otp "] [" missing.rows
try "grammar before rows" 8 "read fault word 1" tableau missing.otp "[ ]" missing.rows
try "rows before budget" 11 "rows word 3 row 1: NotCandidate" tableau ranked.otp "[ | ]" ranked.rows 1
try "budget of a tableau" 7 "budget entry 0 stage 0" tableau ranked.otp "[ ]" ranked.rows 5
try "single pass, two words" 2 "usage" once least_overt.otp
try "single pass, form" 4 "form word 2: NotWellFormed 0" once least_overt.otp "] [" 1
try "single pass, fewer kinds than there are" 7 "budget entry 0 stage 3" once least_overt.otp "[ ]" 7
try "single pass, budget of no kinds" 7 "budget entry 0 stage 3" once least_overt.otp "[ ]" 1
try "as many kinds as its stages have" 0 "" generate least_overt.otp "[ ]" 6
try "no surface" 2 "usage" comprehend added.otp ranked.toml
try "comprehend, a word too many" 2 "usage" comprehend added.otp ranked.toml "[ ]" 1 1
try "comprehend, budget of the first entry" 7 "budget entry 0 stage 0" comprehend added.otp ranked.toml empty 1
try "comprehend, budget of the second entry" 7 "budget entry 1 stage 0" comprehend added.otp ranked.toml empty 5
try "surface of two tiers" 4 "form word 3: WrongWidth 0" comprehend added.otp ranked.toml "[[ ]]"
try "surface that is spelled" 4 "form word 3: BadSymbol 0" comprehend letters.otp ranked.toml =na
try "surface that never ends" 4 "form word 3: NotWellFormed 0" comprehend added.otp ranked.toml "["
try "surface before lexicon" 4 "form word 3: NotWellFormed 0" comprehend added.otp missing.toml "["
try "missing lexicon" 8 "read fault word 2" comprehend added.otp missing.toml "[ ]"
try "grammar before lexicon" 8 "read fault word 1" comprehend missing.otp missing.toml "[ ]"
try "long lexicon" 12 "too long word 2" comprehend added.otp long.rows "[ ]"
try "lexicon that is no TOML" 5 "lexicon word 2: NotToml" comprehend added.otp broken.toml "[ ]" 1
try "entry without form" 5 "lexicon word 2: BadEntry 0" comprehend added.otp formless.toml "[ ]"
try "two entries of one name" 5 "lexicon word 2: TwiceNamed 1" comprehend added.otp twice.toml "[ ]"
try "entry with a bad form" 5 "lexicon word 2: BadForm 0 NotWellFormed 0" comprehend added.otp open.toml "[ ]"
try "no answer file" 2 "usage" check base.otp
try "check, a word too many" 2 "usage" check base.otp right.answer 1
try "missing answer" 8 "read fault word 2" check base.otp missing.answer
try "grammar before answer" 8 "read fault word 1" check missing.otp missing.answer
try "refused grammar before answer" 3 "grammar word 1 line 4: UnknownTier" check unknown.otp missing.answer
try "grammar for an answer" 6 "answer word 2 line 1: BadHeader" check base.otp base.otp
try "empty answer" 6 "answer word 2 line 1: CutShort" check base.otp /dev/null
try "answer of another grammar" 6 "answer word 2 line 3: BadLine" check base.otp right.answer
head -c 268435457 /dev/zero > long.answer
try "long answer" 12 "too long word 2" check base.otp long.answer
rm -f long.answer
try "word that is not text" 15 "" generate base.otp "$(printf '\377')"

# the slips of docs/TROUBLE.md: slip NAME CAUSE TEXT, a file of that text that is refused so
slip() {
    printf "$3" > slip.otp
    try "$1" 3 "grammar word 1 $2" canon slip.otp
}
begin='otp 1\ntier A input\ntier a overt\n'
slip "byte order mark" "line 1: BadByte" "\357\273\277$begin"
slip "UTF-16" "line 1: BadByte" '\377\376o\000t\000p\000 \0001\000\n\000'
slip "carriage returns alone" "line 1: BadByte" 'otp 1\rtier A input\rtier a overt\r'
slip "no-break space" "line 4: BadByte" "${begin}constraint X A\302\240-> a\n"
slip "arrow sign" "line 4: BadByte" "${begin}constraint X A \342\206\222 a\n"
slip "double arrow" "line 4: BadByte" "${begin}constraint X A => a\n"
slip "star in a name" "line 4: BadByte" "${begin}constraint *X A -> a\n"
slip "hyphen in a name" "line 4: BadByte" "${begin}constraint No-X A -> a\n"
slip "comment by slashes" "line 4: BadByte" "${begin}// a comment\n"
slip "comment by # at the top" "line 1: BadHeader" "# a comment\n$begin"
slip "header without space" "line 1: BadHeader" 'otp1\n'
slip "header in capitals" "line 1: BadHeader" 'OTP 1\n'
slip "next version" "line 1: BadHeader" 'otp 2\n'
slip "comment by # after a line" "line 4: BadLine" "${begin}tier b overt # a comment\n"
slip "unknown kind of tier" "line 4: BadLine" "${begin}tier b given\n"
slip "two tiers on a line" "line 4: BadLine" "${begin}tier b c input\n"
slip "no name" "line 4: BadLine" "${begin}constraint A -> a\n"
slip "or on the left" "line 4: BadLine" "${begin}constraint X A or a -> a\n"
slip "or in a clash" "line 4: BadLine" "${begin}constraint X A # a or A\n"
slip "and on the right" "line 4: BadLine" "${begin}constraint X A -> a and a\n"
slip "bracket after the tier" "line 4: BadLine" "${begin}constraint X A[ -> a\n"
slip "another case" "line 4: UnknownTier" "${begin}constraint X B -> a\n"
slip "letter of two signs" "line 4: BadName" "${begin}letter ta = A\n"
printf 'otp 1\r\ntier A input\r\ntier a overt\r\n' > slip.otp
try "Windows line ends" 0 "" canon slip.otp
try "tab in a form" 4 "form word 2: BadSymbol 1" show base.otp "$(printf '[\t]')"
try "line end in a form" 4 "form word 2: BadSymbol 3" show base.otp "[ ]
"
try "budget for a form" 4 "form word 2: BadSymbol 0" show base.otp 30
try "form before the grammar" 8 "read fault word 1" show "[ ]" base.otp

# status_is NAME WANTED FOUND
status_is() {
    if [ "$2" = "$3" ]; then
        has_passed "$1"
    else
        has_failed "$1: status $3"
    fi
}

"$top/otp" > out 2> err
status_is "no words" 2 $?
status_is "no words, line" "usage" "$(head -n 1 err)"
"$top/otp" generate base.otp empty > /dev/full 2> err
status_is "full disk" 9 $?
status_is "full disk, line" "write fault" "$(cat err)"
for words in "canon base.otp" "score base.otp empty" "show base.otp empty" \
    "tableau base.otp empty /dev/null" "once base.otp empty" "comprehend base.otp /dev/null empty" \
    "check base.otp base.answer"; do
    "$top/otp" $words > /dev/full 2> err
    status_is "full disk, $words" 9 $?
done
"$top/otp" generate base.otp empty >&- 2> err
status_is "closed standard output" 9 $?
# A reader that is gone, where the signal of a broken pipe is ignored.
mkfifo pipe
(trap '' PIPE; sleep 1; "$top/otp" generate base.otp empty; echo $? > pipe_status) > pipe 2> err &
: < pipe
wait
status_is "broken pipe" 9 "$(cat pipe_status)"
echo "$passed passed, $failed failed"
[ $failed = 0 ]
