#!/bin/sh
# Reads 1 MB and 10 MB of plain text with expansion, and tells the times, and where valgrind is at hand the instructions of one more byte of
# it, of a call of a macro without parameters, and of a call of one with an argument; a call has with it what its name, its argument and its
# body of one letter need to be read. It is no test: times depend on the machine.
here=$(dirname "$(readlink -f "$0")")
program=$here/../crates/lb_tests_expand/out/lb_tests_expand
[ -x "$program" ] || (cd "$here/../crates/lb_tests_expand" && rt run <stdin >/dev/null 2>&1)
hexed() {
    printf "$1" | od -An -tx1 | tr -d ' \n'
}
plain='Letters and spaces of a line that is fifty bytes.\n'
told() {
    start=$(date +%s%N)
    printf 'run %s steps=1000000000 text=%s\n' "$2" "$(hexed "$plain")" | "$program" >/dev/null || exit $?
    end=$(date +%s%N)
    awk -v ns=$((end - start)) -v what="$1" 'BEGIN { printf "%s: %.3f s\n", what, ns / 1e9 }'
}
told "1 MB of text" 20000
told "10 MB of text" 200000

command -v valgrind >/dev/null || exit 0
instructions() {
    printf 'run %s steps=1000000000 set=word.62:macro=-;_;78 set=word.6d:macro=-;2331;2331 text=%s\n' "$1" "$2" |
        valgrind --tool=callgrind --callgrind-out-file=/dev/null "$program" 2>&1 >/dev/null | sed -n 's/.*Collected : //p'
}
more() {
    echo "$1: $((($(instructions 2000 "$3") - $(instructions 1000 "$3")) / (1000 * $2))) instructions"
}
more "a byte of text" 50 "$(hexed "$plain")"
more "a call without parameters" 1 "$(hexed '\\b ')"
more "a call with an argument" 1 "$(hexed '\\m a')"
