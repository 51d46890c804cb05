#!/bin/sh
# Fills a page with so many items, asks after each whether the page ends, and tells the times, which grow
# as the pages do: each item costs the same, whatever stands on the page. It is no test: times depend on
# the machine.
here=$(dirname "$(readlink -f "$0")")
program=$here/../crates/lb_tests_pages/out/lb_tests_pages
[ -x "$program" ] || (cd "$here/../crates/lb_tests_pages" && rt run <stdin >/dev/null 2>&1)
for count in 1000 10000 100000 1000000; do
    for item in 'rule 1 1 1' 'glue 1 1 1 1 2' 'penalty 0'; do
        start=$(date +%s%N)
        printf 'pagerules 1000000000 0 0 0 0 0 0\nrule 1 1 0\n%s\nmany %d\npage %d\n' "$item" $((count - 2)) "$count" | "$program" >/dev/null || exit $?
        end=$(date +%s%N)
        awk -v ns=$((end - start)) -v count="$count" -v item="$item" 'BEGIN { printf "%d items (%s): %.4f s, %.0f ns an item\n", count, item, ns / 1e9, ns / count }'
    done
done
