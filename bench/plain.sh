#!/bin/sh
# Sets a book of 1000 chapters of 40 full lines, and tells the time and the bytes in a second. It is
# no test: times depend on the machine.
here=$(dirname "$(readlink -f "$0")")
folder=$(mktemp -d) || exit 1
trap 'rm -rf "$folder"' EXIT
cp "$here/../examples/plain/cmr10.tfm" "$folder/"
awk 'BEGIN { for (i = 0; i < 40; i++) printf "%s\n\n", "Sixty letters stand in each line of this chapter and no more" }' >"$folder/line.txt"
{
    printf '\\documentclass{book}\n\\begin{document}\n'
    seq -f '\include{c%g}' 1 1000
    printf '\\end{document}\n'
} >"$folder/main.tex"
for k in $(seq 1 1000); do cp "$folder/line.txt" "$folder/c$k.tex"; done
"$here/../speclatex" 2>/dev/null
cd "$folder" || exit 1
start=$(date +%s%N)
"$here/../speclatex" set main || exit $?
end=$(date +%s%N)
bytes=$(cat ./*.dvi ./*.aux ./*.log | wc -c)
awk -v ns=$((end - start)) -v bytes="$bytes" 'BEGIN { printf "%.3f s, %d bytes written, %.1f MB/s\n", ns / 1e9, bytes, bytes / ns * 1000 }'
