#!/bin/sh
# Draws, posts and takes a million chapters of a board on one thread, and then twice as many, and tells the times, and where valgrind is at
# hand the instructions of one more chapter. It is no test: times depend on the machine.
here=$(dirname "$(readlink -f "$0")")
program=$here/../crates/lb_tests_board/out/lb_tests_board
[ -x "$program" ] || (cd "$here/../crates/lb_tests_board" && rt run <stdin >/dev/null 2>&1)
for millions in 1 2; do
    start=$(date +%s%N)
    echo "many $((millions * 1000000))" | "$program" || exit $?
    end=$(date +%s%N)
    awk -v ns=$((end - start)) -v count="$millions" 'BEGIN { printf "%d million chapters: %.3f s, %.1f ns each\n", count, ns / 1e9, ns / count / 1e6 }'
done

command -v valgrind >/dev/null || exit 0
instructions() {
    printf '%s\n' "$1" | valgrind --tool=callgrind --callgrind-out-file=/dev/null "$program" 2>&1 >/dev/null | sed -n 's/.*Collected : //p'
}
echo "a chapter drawn, posted and taken: $((($(instructions 'many 200000') - $(instructions 'many 100000')) / 100000)) instructions"
