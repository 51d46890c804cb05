#!/bin/sh
# Sets a megabyte of words in a font with ligatures and kerns, and then twice as much, and tells the
# times. It is no test: times depend on the machine.
here=$(dirname "$(readlink -f "$0")")
program=$here/../crates/lb_tests_paper/out/lb_tests_paper
[ -x "$program" ] || (cd "$here/../crates/lb_tests_paper" && rt run <stdin >/dev/null 2>&1)
cd "$here/../crates/lb_tests_paper/data" || exit 1
for megabytes in 1 2; do
    start=$(date +%s%N)
    printf 'open kinds.tfm\nread 655360\nwords %d 65 66 67 72 45 68 73 74\n' $((megabytes * 131072)) | "$program" || exit $?
    end=$(date +%s%N)
    awk -v ns=$((end - start)) -v count="$megabytes" 'BEGIN { printf "%d MiB of words: %.3f s, %.1f MB/s\n", count, ns / 1e9, count * 1048576 / ns * 1000 }'
done
