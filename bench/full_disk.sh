#!/bin/sh
# Runs the example with an output file that is a link to the device that is always full, and with one that is a pipe
# which nobody reads. The status has to be 4 then, and never 0.
here=$(dirname "$(readlink -f "$0")")
for file in book.dvi book.log book.aux storm.aux; do
    folder=$(mktemp -d) || exit 1
    cp "$here"/../examples/plain/*.tex "$here"/../examples/plain/*.tfm "$folder/"
    ln -s /dev/full "$folder/$file"
    (cd "$folder" && "$here/../speclatex" set book 2>/dev/null)
    status=$?
    rm -rf "$folder"
    if [ "$status" -ne 4 ]; then
        echo "a full disk at $file: status $status"
        exit 1
    fi
done
folder=$(mktemp -d) || exit 1
cp "$here"/../examples/plain/*.tex "$here"/../examples/plain/*.tfm "$folder/"
mkfifo "$folder/book.dvi"
(cd "$folder" && timeout 10 "$here/../speclatex" set book 2>/dev/null)
status=$?
rm -rf "$folder"
if [ "$status" -ne 4 ]; then
    echo "a pipe: status $status"
    exit 1
fi
echo "a full disk gives status 4 at each file, and so does a pipe"
