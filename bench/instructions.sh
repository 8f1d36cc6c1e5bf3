#!/bin/bash
# instructions.sh [BOOK ..]: how many instructions the program takes for each book, in millions, beside the number that
# bench/instructions.txt keeps and the ratio of the two. Valgrind's callgrind counts them, so the numbers are the same on
# a busy machine and an idle one; the launcher isn't counted. ACL2P=PROGRAM takes another program than the one that the
# launcher builds, and KEEP=yes writes the new numbers into bench/instructions.txt. Books:
#   refl append reverse hints logic theories     sample books of books/, and those of bench/books by their names; one that
#                                                includes others, as alists, bits, machine, sets and sorting, is run with them
#   demo-200 demo-1000 wide-16 wide-64 exclusive-10 equal-400 equal-800 append-300 length-390 two-sums by-places
#                                                those that generated.py writes and explains
# Without words it takes all but the last two, which take minutes.
here=$(cd "$(dirname "$0")/.." && pwd)
program=${ACL2P:-$here/out/acl2p}
[ -x "$program" ] || { echo "instructions.sh: no program at $program; build it by ../acl2p" >&2; exit 1; }
command -v valgrind >/dev/null || { echo "instructions.sh: it needs valgrind" >&2; exit 1; }
program=$(readlink -f -- "$program")
kept=$here/bench/instructions.txt
folder=$(mktemp -d)
trap 'rm -rf "$folder"' EXIT
"$here/bench/generated.py" "$folder"
cp "$here"/books/*.lisp "$folder"
cp "$here"/bench/books/*.lisp "$folder"
words=("$@")
[ $# -gt 0 ] || words=(refl append reverse hints logic theories arithmetic compiler formulas insertion lists merge trees
    alists bits machine sets sorting demo-200 demo-1000 wide-16 wide-64 exclusive-10 equal-400 equal-800 append-300 length-390)

millions() { # millions BOOK: one worker's instructions, in millions
    local options=() books book
    [ -f "$folder/$1.options" ] && read -ra options <"$folder/$1.options"
    books=$(cd "$folder" && "$here/tools/order.py" "$1") && mkdir "$folder/$1.run" || return
    for book in $books; do cp "$folder/$book.lisp" "$folder/$1.run"; done
    cd "$folder/$1.run" || return
    valgrind --tool=callgrind --callgrind-out-file=/dev/null "$program" --workers 1 "${options[@]}" $books 2>&1 >/dev/null |
        awk '/Collected|refs:/ { gsub(",", "", $NF); printf "%.2f", $NF / 1e6; exit }' >"$folder/$1.count"
}
for name in "${words[@]}"; do
    [ -f "$folder/$name.lisp" ] || { echo "instructions.sh: no book $name" >&2; exit 2; }
    while [ "$(jobs -rp | wc -l)" -ge "$(nproc)" ]; do wait -n; done
    millions "$name" &
done
wait
printf '%-14s %10s %10s %7s\n' book millions kept ratio
for name in "${words[@]}"; do
    now=$(cat "$folder/$name.count")
    before=$(awk -v name="$name" '$1 == name { print $2 }' "$kept" 2>/dev/null)
    printf '%-14s %10s %10s %7s\n' "$name" "$now" "${before:--}" \
        "$(awk -v a="$now" -v b="$before" 'BEGIN { if (b > 0) printf "%.3f", a / b; else print "-" }')"
    if [ "$KEEP" = yes ]; then
        awk -v name="$name" '$1 != name' "$kept" >"$folder/rest" 2>/dev/null
        { cat "$folder/rest"; echo "$name $now"; } >"$kept"
    fi
done
