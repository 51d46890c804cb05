#!/bin/sh
# The instructions of one more scan, where valgrind is at hand: a number of ten digits, a dimension, and glue with both parts. Each figure has
# what the bench itself needs to make the scan and its tokens. It is no test.
here=$(dirname "$(readlink -f "$0")")
program=$here/../crates/lb_tests_scan/out/lb_tests_scan
[ -x "$program" ] || (cd "$here/../crates/lb_tests_scan" && rt run <stdin >/dev/null 2>&1)
command -v valgrind >/dev/null || exit 0
instructions() {
    printf '%s\n' "$1" | valgrind --tool=callgrind --callgrind-out-file=/dev/null "$program" 2>&1 >/dev/null | sed -n 's/.*Collected : //p'
}
told() {
    hex=$(printf '%s' "$3" | od -An -tx1 | tr -d ' \n')
    echo "$1: $((($(instructions "scans 20000 $2 $hex") - $(instructions "scans 10000 $2 $hex")) / 10000)) instructions"
}
told "a number of ten digits and a space" number "1234567890 "
told "12.5cm and a space" dimen "12.5cm "
told "1pt plus 2fil minus 3pt and a space" glue "1pt plus 2fil minus 3pt "
