#!/bin/sh
# Counts the instructions that a character of a page takes: for the marks of a page of 3,000 characters in 50 lines of ten words
# each, and for its bytes. It is no test. It wants valgrind, and is skipped where that is missing.
here=$(dirname "$(readlink -f "$0")")
program=$here/../crates/lb_tests_paper/out/lb_tests_paper
command -v valgrind >/dev/null || { echo "valgrind is missing"; exit 0; }
[ -x "$program" ] || (cd "$here/../crates/lb_tests_paper" && rt run <stdin >/dev/null 2>&1)
page() {
    awk 'BEGIN {
        for (line = 0; line < 50; line++) {
            for (word = 0; word < 10; word++) {
                for (letter = 0; letter < 6; letter++) print "char 72 327680 491520 163840"
                print "glue 196608 65536 0 65536 0"
            }
            print "hpack 70 to 22609920"
            print "glue 131072 65536 0 0 0"
        }
        print "vpack 100 natural 0"
    }'
}
count() {
    { page; yes "$1" | head -n "$2"; } | valgrind --tool=callgrind --callgrind-out-file=/dev/null "$program" 2>&1 >/dev/null |
        awk '/Collected/ { print $4 }'
}
told() {
    awk -v what="$1" -v few="$2" -v many="$3" 'BEGIN { printf "%s: %.0f instructions a character\n", what, (many - few) / 20 / 3000 }'
}
told "marks" "$(count "code 1" 1)" "$(count "code 1" 21)"
told "bytes, with the marks once" "$(count "pages 1 1" 1)" "$(count "pages 1 21" 1)"
