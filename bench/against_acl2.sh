#!/bin/bash
# against_acl2.sh [PROGRAM]: the books of bench/books and some that generated.py writes (demo-200, demo-1000, wide-16, wide-64,
# two-sums, by-places), certified by acl2p (PROGRAM, or the one that the launcher builds) and, where it is installed, by ACL2 on
# the same machine in the same run (Debian's package acl2; it wants the folder /usr/share/acl2-8.5dfsg/books to exist). A table:
# each book that no other includes, with the events of it and of those that it includes, the processor time of each, user and
# system, the median of five runs (RUNS=N takes another number), their ratio, the greatest peak memory, and which of them
# certify it. Where a book includes others, acl2p certifies them all on one line, and ACL2 each by a run of its own, lowest
# first. ACL2 certifies without compiling, and the time in which it starts and certifies a book without events is taken off each
# of its runs; acl2p's times are whole. A run that takes over 120 seconds by the clock a book (LIMIT=N: over N) is ended, told
# as that, and not repeated. Below the table the sums over the books that both certify, and how many of these take more than
# half of ACL2's time. Then the clock's time with 1, 2 and 4 workers of those that acl2p certifies, the median of five, in ratio
# to one worker: that is worth something on a machine that does nothing else, and CLOCK=no leaves it out. BOOKS="NAME .." takes
# these books alone.
here=$(cd "$(dirname "$0")/.." && pwd)
if [ -n "$1" ]; then
    program=$(readlink -f -- "$1")
else
    "$here/acl2p" none >/dev/null 2>&1
    program=$here/out/acl2p
fi
[ -x "$program" ] || { echo "against_acl2.sh: there is no program $program" >&2; exit 1; }
folder=$(mktemp -d)
trap 'rm -rf "$folder"' EXIT
"$here/bench/generated.py" "$folder"
cp "$here"/bench/books/*.lisp "$folder"
echo '(in-package "ACL2")' >"$folder/empty.lisp"

needed() { (cd "$folder" && "$here/tools/order.py" "$1"); } # what a book includes, lowest first, and itself

runs() { # runs BOOKS INPUT OUTPUT WORD..: medians of processor and clock milliseconds, peak MiB of one more run, its status;
    # of a run of so many books that takes too long, the limit in seconds with > before it, and dashes
    local seconds=$((${LIMIT:-120} * $1)) input=$2 output=$3 peak=- status times
    shift 3
    times=$(cd "$folder" && python3 - "$seconds" "$input" "$output" "$@" <<'PYTHON'
import os, signal, statistics, sys, time
limit, source, target, *words = sys.argv[1:]
processor, clock = [], []
files = [(os.POSIX_SPAWN_OPEN, 0, source, os.O_RDONLY, 0),
         (os.POSIX_SPAWN_OPEN, 1, target, os.O_WRONLY | os.O_CREAT | os.O_TRUNC, 0o644),
         (os.POSIX_SPAWN_DUP2, 1, 2)]

def end(number, _):
    os.killpg(child, signal.SIGKILL)
    if number == signal.SIGALRM:
        print(f">{limit} -")
        sys.exit()
    signal.signal(number, signal.SIG_DFL)
    os.kill(os.getpid(), number)

for number in (signal.SIGALRM, signal.SIGINT, signal.SIGTERM):
    signal.signal(number, end)
for _ in range(int(os.environ.get("RUNS", "5"))):
    start = time.monotonic()
    child = os.posix_spawnp(words[0], words, os.environ, file_actions=files, setpgroup=0)
    signal.alarm(int(limit))
    used = os.wait4(child, 0)[2]
    signal.alarm(0)
    clock.append(time.monotonic() - start)
    processor.append(used.ru_utime + used.ru_stime)
print(*(f"{statistics.median(times) * 1000:.1f}" for times in (processor, clock)))
PYTHON
    )
    case $times in
    ">"*)
        echo "$times - -"
        return
        ;;
    esac
    if [ -x /usr/bin/time ]; then
        (cd "$folder" && timeout "$seconds" /usr/bin/time -q -o peak -f %M "$@" <"$input" >"$output" 2>&1)
        status=$?
        peak=$(awk '{ printf "%.1f", $1 / 1024 }' "$folder/peak")
    else
        (cd "$folder" && timeout "$seconds" "$@" <"$input" >"$output" 2>&1)
        status=$?
    fi
    echo "$times $peak $status"
}
by_acl2() {
    local book script="rm -f *.cert"
    for book in $(needed "$1"); do
        echo "(certify-book \"$book\" 0 nil)" >"$folder/$book.input"
        script="$script; acl2 <$book.input"
    done
    runs "$(needed "$1" | wc -w)" /dev/null "$folder/$1.acl2" bash -c "$script"
}
by_acl2p() { # by_acl2p BOOK OPTION..
    local book=$1
    shift
    (
        eval "$(grep '^export GLIBC_TUNABLES' "$here/acl2p")" # what the launcher gives the program
        runs "$(needed "$book" | wc -w)" /dev/null "$folder/$book.text" \
            "$program" "$@" $(cat "$folder/$book.options" 2>/dev/null) $(needed "$book")
    )
}
both() { # of two words, yes or no: who certifies
    case $1$2 in
    yesyes) echo both ;;
    yesno) echo "acl2p alone" ;;
    noyes) echo "ACL2 alone" ;;
    *) echo neither ;;
    esac
}
shown() { # a time of `runs` as the table has it
    case $1 in
    ">"*) echo "over ${1#>} s" ;;
    *) echo "$1" ;;
    esac
}
books=$BOOKS
if [ -z "$books" ]; then
    all=$(cd "$here/bench/books" && ls *.lisp | sed 's/\.lisp$//' && printf '%s\n' demo-200 demo-1000 wide-16 wide-64 two-sums by-places)
    below=$(for book in $all; do needed "$book" | sed 's/[^ ]*$//'; done)
    books=$(comm -23 <(sort <<<"$all") <(tr ' ' '\n' <<<"$below" | sort -u))
fi

echo "$(date -u '+%Y-%m-%d %H:%M'), $(nproc) processors, $(sed -n 's/^model name.*: //p' /proc/cpuinfo | head -1), load $(cut -d' ' -f1-3 /proc/loadavg)"
if command -v acl2 >/dev/null; then
    read -r start _ <<<"$(by_acl2 empty)"
    echo "ACL2 starts and certifies a book without events in $start ms, which is taken off for each book"
    echo
    echo "| book | events | acl2p ms | ACL2 ms | ratio | acl2p MiB | ACL2 MiB | certified by |"
    echo "|---|---|---|---|---|---|---|---|"
else
    echo "ACL2 isn't here"
    echo
    echo "| book | events | acl2p ms | acl2p MiB | certified |"
    echo "|---|---|---|---|---|"
fi
certified=
for book in $books; do
    [ -f "$folder/$book.lisp" ] || { echo "against_acl2.sh: no book $book" >&2; exit 2; }
    events=0
    for part in $(needed "$book"); do
        events=$((events + $(grep -c '^(' "$folder/$part.lisp") - $(grep -c '^(in-package\|^(include-book' "$folder/$part.lisp")))
    done
    read -r ours _ room status <<<"$(by_acl2p "$book")"
    fine=no
    [ "$status" = 0 ] && fine=yes && certified="$certified $book"
    if ! command -v acl2 >/dev/null; then
        echo "| $book | $events | $(shown "$ours") | $room | $fine |"
        continue
    fi
    read -r theirs _ their_room _ <<<"$(by_acl2 "$book")"
    their=no
    [ -e "$folder/$book.cert" ] && their=yes
    case $theirs in
    ">"*) ;;
    *) theirs=$(awk "BEGIN { printf \"%.1f\", $theirs - $start * $(needed "$book" | wc -w) }") ;;
    esac
    ratio=$(awk -v a="$ours" -v b="$theirs" 'BEGIN { if (a !~ />/ && b !~ />/ && b > 0) printf "%.3f", a / b; else printf "-" }')
    echo "| $book | $events | $(shown "$ours") | $(shown "$theirs") | $ratio | $room | $their_room | $(both $fine $their) |"
    [ $fine$their = yesyes ] && echo "$book $ours $theirs" >>"$folder/sums"
done
[ -s "$folder/sums" ] && awk '{ ours += $2; theirs += $3; n++; if ($2 > $3 / 2) { half++; names = names " " $1 } }
    END { printf "\nThe %d that both certify: %.1f ms of %.1f, a ratio of %.3f; %d take more than half:%s\n", n, ours, theirs, ours / theirs, half, names }' "$folder/sums"
[ "$CLOCK" = no ] && exit

echo
read -r _ _ _ status <<<"$(by_acl2p lists --workers 1)"
if [ "$status" = 2 ]; then
    echo "the program has no --workers"
    exit
fi
echo "| book | 1 worker, ms by the clock | 2 workers | ratio | 4 workers | ratio |"
echo "|---|---|---|---|---|---|"
for book in $certified; do
    read -r _ one _ <<<"$(by_acl2p "$book" --workers 1)"
    line="| $book | $one |"
    for workers in 2 4; do
        read -r _ more _ <<<"$(by_acl2p "$book" --workers "$workers")"
        line="$line $more | $(awk "BEGIN { printf \"%.2f\", $one / $more }") |"
    done
    echo "$line"
done
