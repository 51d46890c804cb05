#!/bin/sh
# Packs lists of one, two and four million nodes, and tells the times, which grow as the lists do. It
# is no test: times depend on the machine.
here=$(dirname "$(readlink -f "$0")")
program=$here/../crates/lb_tests_paper/out/lb_tests_paper
[ -x "$program" ] || (cd "$here/../crates/lb_tests_paper" && rt run <stdin >/dev/null 2>&1)
for count in 1000000 2000000 4000000; do
    start=$(date +%s%N)
    printf 'glue 1 1 0 1 0\nmany %d\nhpack %d spread %d\n' $((count - 1)) "$count" $((count / 2)) | "$program" || exit $?
    end=$(date +%s%N)
    awk -v ns=$((end - start)) -v count="$count" 'BEGIN { printf "%d nodes: %.3f s, %.0f ns a node\n", count, ns / 1e9, ns / count }'
done
