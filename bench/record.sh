#!/bin/sh
# Asks a recorder ten million categories, and beside it the cells of a state, and tells the times, and where valgrind is at hand the
# instructions of one more. It is no test: times depend on the machine.
here=$(dirname "$(readlink -f "$0")")
program=$here/../crates/lb_tests_record/out/lb_tests_record
[ -x "$program" ] || (cd "$here/../crates/lb_tests_record" && rt run <stdin >/dev/null 2>&1)
told() {
    start=$(date +%s%N)
    printf '%s\n' "$2" | "$program" >/dev/null || exit $?
    end=$(date +%s%N)
    awk -v ns=$((end - start)) -v what="$1" 'BEGIN { printf "%s: %.3f s\n", what, ns / 1e9 }'
}
told "ten million categories through a recorder" "record 10000000"
told "the same through a state" "direct 10000000"

command -v valgrind >/dev/null || exit 0
instructions() {
    printf '%s\n' "$1" | valgrind --tool=callgrind --callgrind-out-file=/dev/null "$program" 2>&1 >/dev/null | sed -n 's/.*Collected : //p'
}
for kind in record direct; do
    echo "$kind, a category: $((($(instructions "$kind 200000") - $(instructions "$kind 100000")) / 100000)) instructions"
done
