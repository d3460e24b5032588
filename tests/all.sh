#!/bin/bash
# The repository's own checks, after `rt ci` has built the program: the launcher, the names that the
# documents cite, the real program, whole answers, verdicts and hits beside slow programs, what the
# documents show, and the tools. The last line is `N passed, M failed`, over all of them. A check
# whose tool is missing is skipped with a word.
cd "$(dirname "$0")/.." || exit 2
log=$(mktemp) || exit 2
trap 'rm -f "$log"' EXIT
passed=0 failed=0

# check TOOL SCRIPT: runs a script of tests/ and adds up what its last line says
check() {
    if ! command -v "$1" > /dev/null; then
        echo "tests/$2: skipped, since $1 is missing"
        return
    fi
    echo "tests/$2:"
    "tests/$2" | tee "$log"
    if [[ $(tail -n 1 "$log") =~ ^([0-9]+)\ passed,\ ([0-9]+)\ failed$ ]]; then
        passed=$((passed + BASH_REMATCH[1])) failed=$((failed + BASH_REMATCH[2]))
    else
        failed=$((failed + 1))
    fi
}

export OTP_PROGRAM=${OTP_PROGRAM:-$PWD/crates/otp/out/otp}
check sh launcher.sh
check python3 names.py
if [ -x "$OTP_PROGRAM" ]; then
    check sh otp.sh
    check python3 answers.py
    check python3 check.py
    check python3 comprehend.py
    check python3 docs.py
    check python3 tools.py
else
    echo "tests/otp.sh and the scripts after it: skipped, since $OTP_PROGRAM is missing"
fi
echo "$passed passed, $failed failed"
[ "$failed" = 0 ]
