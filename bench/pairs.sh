#!/bin/sh
# Reads fonts of 256 characters and looks each pair of sides up, with 1 and with 16 steps behind each
# character, and tells the times. A look-up goes through the steps behind its left character, and not
# through the whole table, which has up to 4096 of them. Computer Modern is measured where it is at
# hand. It is no test: times depend on the machine.
here=$(dirname "$(readlink -f "$0")")
program=$here/../crates/lb_tests_paper/out/lb_tests_paper
[ -x "$program" ] || (cd "$here/../crates/lb_tests_paper" && rt run <stdin >/dev/null 2>&1)
folder=$(mktemp -d) || exit 1
trap 'rm -rf "$folder"' EXIT
cd "$folder" || exit 1
steps() { awk -v n="$1" 'BEGIN { printf "make 256 200"; for (left = 0; left < 256; left++) for (k = 0; k < n; k++) printf " %d %d 0 %d", left, (left + 16 * k) % 256, k; print "" }'; }
steps 1 >one
steps 16 >sixteen
real=$(kpsewhich cmr10.tfm 2>/dev/null)
if [ -n "$real" ]; then
    cp "$real" real.tfm
    echo "open real.tfm" >computer_modern
else
    echo "Computer Modern is not at hand, and is left out"
fi
for font in one sixteen computer_modern; do
    [ -f "$font" ] || continue
    { cat "$font"; yes 'read 655360' | head -n 50; } >commands
    start=$(date +%s%N)
    "$program" <commands >answers || exit $?
    end=$(date +%s%N)
    characters=$(awk '/characters/ { for (i = 1; i < NF; i++) if ($i == "characters") print $(i + 1); exit }' answers)
    awk -v ns=$((end - start)) -v font="$font" -v n="$characters" 'BEGIN { pairs = (n + 1) * (n + 1); printf "%s: %.2f ms a reading with all %d pairs, %.0f ns a pair\n", font, ns / 50e6, pairs, ns / 50 / pairs }'
done
