#!/bin/sh
# Tries the launcher `otp` with a stand-in for rt, in a small tree of its own: it builds nothing
# real. Its last line is `N passed, M failed`.
unset OTP_PROGRAM
top=$(cd "$(dirname "$0")/.." && pwd) || exit 1
place=$(mktemp -d) || exit 1
trap 'rm -rf "$place"' EXIT
tree="$place/a tree"
mkdir -p "$tree/crates/low/src/tests" "$tree/crates/low/proofs" "$tree/crates/other/src" \
    "$tree/crates/otp/src" "$place/bin" "$place/none"
cp "$top/otp" "$tree/otp"
printf '# the lowest\nlow: std\nother: low\notp: low\n' > "$tree/crates.txt"
for file in low/src/lib.rt low/src/tests.rt low/src/tests/more.rt low/proofs/Lib.antt other/src/lib.rt \
    otp/src/main.rt; do
    echo "// $file" > "$tree/crates/$file"
done
# The stand-in tells crates as rt does, and its program says with which words it was called.
cat > "$place/bin/rt" << 'STAND_IN'
#!/bin/sh
echo run >> "$COUNT"
echo "rt: low: begins with what a check kept in some folder"
sleep 2
echo "rt: chose --jobs 4 for otp"
[ -z "$REFUSE" ] || { echo "it is not proved"; exit 1; }
sleep 2
mkdir -p out
printf '#!/bin/sh\necho "ran $*"\n[ $# != 0 ] || exit 2\n' > out/otp
chmod +x out/otp
STAND_IN
chmod +x "$place/bin/rt"
export COUNT="$place/count"
with_rt="$place/bin:/usr/bin:/bin"
without="$place/none:/usr/bin:/bin"
passed=0
failed=0

# is NAME FOUND WANTED
is() {
    if [ "$2" = "$3" ]; then
        passed=$((passed + 1))
    else
        failed=$((failed + 1))
        echo "FAILED $1: $2, wanted $3"
    fi
}

# says NAME TEXT: the launcher's own words have this text
says() {
    if grep -qF -- "$2" "$place/err"; then
        passed=$((passed + 1))
    else
        failed=$((failed + 1))
        echo "FAILED $1: it says $(cat "$place/err")"
    fi
}

builds() {
    cat "$COUNT" 2> /dev/null | wc -l | tr -d ' '
}

# call PATH FILE WORD..: runs the launcher; leaves its text, its words and its status
call() {
    path=$1 file=$2
    shift 2
    PATH=$path "$file" "$@" > "$place/out" 2> "$place/err"
    status=$?
}

if ! PATH=$without command -v rt > /dev/null; then
    call "$without" "$tree/otp" show g f
    is "no rt, status" $status 125
    says "no rt" "the command rt is missing"
    says "no rt, the kit" "rattle-kit-13f"
fi
REFUSE=1
export REFUSE
call "$with_rt" "$tree/otp" show g f
is "refused, status" $status 125
is "refused, text" "$(cat "$place/out")" ""
says "refused, whole path of the log" "$(cd "$tree" && pwd -P)/crates/otp/build.log"
says "refused, end of the log" "it is not proved"
unset REFUSE
rm -f "$COUNT"
ln -s "$tree/otp" "$place/link"
ln -s ../link "$place/bin/otp"
(cd / && PATH=$with_rt otp first call > "$place/out1" 2> "$place/err1") &
sleep 1
call "$with_rt" "$tree/otp" second call
wait
is "by links, from another folder" "$(cat "$place/out1")" "ran first call"
is "at once" "$(cat "$place/out")" "ran second call"
if command -v flock > /dev/null; then
    is "built once" "$(builds)" 1
    says "the second one waits" "waits for it"
fi
rm -f "$COUNT"
cp "$place/err1" "$place/err"
says "progress" "crate 1 of 2, low"
says "further progress" "crate 2 of 2, otp"

sleep 1
for file in low/src/tests.rt low/src/tests/more.rt low/proofs/Lib.antt other/src/lib.rt; do
    echo "// changed" >> "$tree/crates/$file"
done
touch "$tree/crates/low/src/lib.rt" "$tree/crates.txt"
call "$with_rt" "$tree/otp" a b
is "tests, proofs, dates, other crates" "$(builds), $(cat "$place/out")" "0, ran a b"
is "nothing is said" "$(cat "$place/err")" ""
call "$with_rt" "$tree/otp"
is "no words, status" $status 2
says "no words" "the table of commands"
OTP_PROGRAM="$tree/crates/otp/out/otp" call "$without" "$tree/otp" given
is "a program that is given" "$(cat "$place/out")" "ran given"
OTP_PROGRAM="$tree/nothing" call "$without" "$tree/otp" given
is "a program that is not there" $status 125
echo "// changed" >> "$tree/crates/low/src/lib.rt"
if ! PATH=$without command -v rt > /dev/null; then
    call "$without" "$tree/otp" c d
    is "code changed, no rt" "$(builds), $(cat "$place/out")" "0, ran c d"
    says "code changed, no rt" "it runs as it was built"
fi
call "$with_rt" "$tree/otp" e f
is "code changed" "$(builds), $(cat "$place/out")" "1, ran e f"
chmod 755 "$place"
if [ "$(id -u)" = 0 ] && setpriv --reuid=65534 --clear-groups test -x "$tree/otp" 2> /dev/null; then
    echo "// changed again" >> "$tree/crates/low/src/lib.rt"
    PATH=$with_rt setpriv --reuid=65534 --clear-groups "$tree/otp" g h > "$place/out" 2> "$place/err"
    is "a tree that cannot be written" "$(builds), $(cat "$place/out")" "1, ran g h"
    says "a tree that cannot be written" "cannot be written"
fi
echo "$passed passed, $failed failed"
[ $failed = 0 ]
