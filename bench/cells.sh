#!/bin/sh
# Looks at ten million categories of codes, and reads the tokens of ten megabytes of lines, and tells the times, and where valgrind is at
# hand the instructions. It is no test:
# times depend on the machine.
here=$(dirname "$(readlink -f "$0")")
program=$here/../crates/lb_tests_text/out/lb_tests_text
[ -x "$program" ] || (cd "$here/../crates/lb_tests_text" && rt run <stdin >/dev/null 2>&1)
told() {
    start=$(date +%s%N)
    printf '%s\n' "$2" | "$program" || exit $?
    end=$(date +%s%N)
    awk -v ns=$((end - start)) -v what="$1" 'BEGIN { printf "%s: %.3f s\n", what, ns / 1e9 }'
}
told "ten million categories" "gets 10000000"
line=$(printf 'Some \\words of a line{}, with spaces and \\emph{more} words of eight letters.\r' | od -An -tx1 | tr -d ' \n')
told "ten megabytes of lines of 76 characters" "reads 131579 $line"
told "twice as many" "reads 263158 $line"

# the instructions of one more look, and of one more byte
command -v valgrind >/dev/null || exit 0
instructions() {
    printf '%s\n' "$1" | valgrind --tool=callgrind --callgrind-out-file=/dev/null "$program" 2>&1 >/dev/null | sed -n 's/.*Collected : //p'
}
echo "a category: $((($(instructions 'gets 200000') - $(instructions 'gets 100000')) / 100000)) instructions"
echo "a byte of a line: $((($(instructions "reads 3000 $line") - $(instructions "reads 1000 $line")) / 2000 / (${#line} / 2))) instructions"
