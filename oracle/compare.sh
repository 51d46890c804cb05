#!/bin/sh
# Makes the fonts, the commands and the answers of the test programs anew, and compares them with those that are stored. With --store
# it stores them.
here=$(dirname "$(readlink -f "$0")")
folder=$(mktemp -d) || exit 1
trap 'rm -rf "$folder"' EXIT
export PYTHONDONTWRITEBYTECODE=1
paper=$folder/lb_tests_paper
pages=$folder/lb_tests_pages
text=$folder/lb_tests_text
scan=$folder/lb_tests_scan
board=$folder/lb_tests_board
record=$folder/lb_tests_record
aux=$folder/lb_tests_aux
expand=$folder/lb_tests_expand
mkdir -p "$paper/data" "$pages" "$text/data" "$scan" "$board" "$record" "$aux" "$expand"

# The commands of a crate are given on standard input; its answers come from a script.
answer() {
    cat >"$1/stdin"
    python3 "$here/$2" "$1/data" <"$1/stdin" >"$1/stdout" || exit 1
}

cp "$here/../examples/plain/cmr10.tfm" "$paper/data/"
python3 "$here/paper_fonts.py" "$paper/data" || exit 1
python3 "$here/text_fonts.py" "$text/data" || exit 1
{ python3 "$here/paper_cases.py" "$paper/data" && echo clear && python3 "$here/marks_cases.py"; } | answer "$paper" paper.py
{ python3 "$here/page_cases.py" && echo clear && python3 "$here/paragraph_cases.py"; } | answer "$pages" pages.py
python3 "$here/text_cases.py" "$text/data" | answer "$text" text.py
python3 "$here/scan_cases.py" | answer "$scan" scan.py
python3 "$here/board_cases.py" | answer "$board" board.py
python3 "$here/record_cases.py" | answer "$record" record.py
python3 "$here/aux_cases.py" | answer "$aux" aux.py
python3 "$here/expand_cases.py" | answer "$expand" expand.py
for crate in lb_tests_paper lb_tests_pages lb_tests_text lb_tests_scan lb_tests_board lb_tests_record lb_tests_aux lb_tests_expand; do
    stored=$here/../crates/$crate
    if [ "$1" = --store ]; then
        if [ -d "$folder/$crate/data" ]; then
            mkdir -p "$stored/data"
            cp "$folder/$crate"/data/* "$stored/data/"
        fi
        cp "$folder/$crate/stdin" "$folder/$crate/stdout" "$stored/"
    fi
    for part in "$folder/$crate"/*; do
        diff -r "$part" "$stored/$(basename "$part")" || exit 1
    done
done
echo "the fonts, the commands and the answers are those that are stored"
