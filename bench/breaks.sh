#!/bin/sh
# Breaks paragraphs: one of 64,002 items, of which each break can end a line of up to twenty boxes, and
# prose of 80, 1,000 and 10,000 words. Tells the times of the breaking alone, and where valgrind is at
# hand the instructions an item. It is no test: times depend on the machine.
here=$(dirname "$(readlink -f "$0")")
program=$here/../crates/lb_tests_pages/out/lb_tests_pages
[ -x "$program" ] || (cd "$here/../crates/lb_tests_pages" && rt run <stdin >/dev/null 2>&1)
work=$(mktemp -d) || exit 1
trap 'rm -rf "$work"' EXIT

end='penalty 10000\nglue 0 65536 1 0 0\npenalty -10000\n'

boxes() {
    printf 'shape 13107200 0 0 0 0 0 0 65536 1 0 0\n'
    awk -v n="$1" 'BEGIN { for (i = 1; i <= n; i++) { print "rule 655360 491520 163840"; if (i < n) print "glue 0 0 0 0 0" } }'
    printf "$end"
}

prose() {
    printf 'shape 22609920 0 0 0 0 0 0 0 0 0 0\n'
    awk -v n="$1" 'BEGIN { srand(7); for (i = 1; i <= n; i++) { k = 1 + int(rand() * 9); for (j = 0; j < k; j++) print "char 120 327680 491520 163840"; if (i < n) print "glue 218453 109226 0 72818 0" } }'
    printf "$end"
}

# The time of a file of commands, in nanoseconds: the least of three runs.
time_of() {
    least=
    for run in 1 2 3; do
        start=$(date +%s%N)
        "$program" <"$1" >"$work/out" || exit $?
        taken=$(($(date +%s%N) - start))
        if [ -z "$least" ] || [ "$taken" -lt "$least" ]; then least=$taken; fi
    done
    echo "$least"
}

# Tells the time of `break` beside that of making the list.
tell() {
    cp "$work/list" "$work/break"
    echo break >>"$work/break"
    made=$(time_of "$work/list")
    all=$(time_of "$work/break")
    items=$(grep -c '^\(rule\|glue\|char\|penalty\)' "$work/list")
    awk -v name="$1" -v ns=$((all - made)) -v items="$items" -v ends="$(tail -n 1 "$work/out" | wc -w)" \
        'BEGIN { printf "%s, %d items: %.4f s, %.0f ns an item, %d ends\n", name, items, ns / 1e9, ns / items, ends - 3 }'
}

instructions() {
    command -v valgrind >/dev/null || return 0
    cp "$work/list" "$work/break"
    echo break >>"$work/break"
    for file in list break; do
        valgrind --tool=callgrind --callgrind-out-file="$work/$file.out" "$program" <"$work/$file" >/dev/null 2>"$work/$file.log" || return 0
    done
    items=$(grep -c '^\(rule\|glue\|char\|penalty\)' "$work/list")
    all=$(awk '/Collected/ { print $NF }' "$work/break.log")
    made=$(awk '/Collected/ { print $NF }' "$work/list.log")
    awk -v name="$1" -v n=$((all - made)) -v items="$items" 'BEGIN { printf "%s: %.0f instructions an item\n", name, n / items }'
}

boxes 32000 >"$work/list"
tell 'boxes, 32,000'
for words in 80 1000 10000; do
    prose $words >"$work/list"
    tell "prose, $words words"
    instructions "prose, $words words"
done
