#!/bin/sh
# judge_folder.sh PROGRAM [FOLDER]: the line of every .rec file in the folder, this one if none is named.
# Ends with 1 where a record got no answer, with 2 where it is called wrongly.
if [ $# -lt 1 ] || [ $# -gt 2 ] || ! command -v "$1" > /dev/null; then
    echo "usage: judge_folder.sh PROGRAM [FOLDER]" >&2
    exit 2
fi
folder=${2:-$(dirname "$0")}
found=0
missed=0
for f in "$folder"/*.rec; do
    [ -e "$f" ] || continue
    found=$((found + 1))
    line=$("$1" < "$f")
    if [ -n "$line" ]; then
        printf '%s: %s\n' "$(basename "$f" .rec)" "$line"
    else
        printf '%s: no answer\n' "$(basename "$f" .rec)" >&2
        missed=$((missed + 1))
    fi
done
if [ "$found" -eq 0 ]; then
    echo "$folder: no .rec file" >&2
fi
[ "$missed" -eq 0 ]
