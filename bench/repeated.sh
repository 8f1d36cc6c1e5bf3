#!/bin/bash
# repeated.sh [BOOK ..]: how many steps of rewriting meet a term that was rewritten before, for the same literal, under the same
# facts, mode, closed functions and number of hypotheses around it; and how many times the types of a term are asked that were
# asked before under the same facts. So it tells what a program that remembers could leave out. The books are those of
# instructions.sh; without words those of bench/README's table but two-sums and by-places, which have millions. ACL2P=PROGRAM
# takes another program than the one that the launcher builds.
#
# gdb stops the program, one worker, at each call of the two functions and reads the terms off its memory: some ten thousand
# calls a second. The layout of terms, of facts and of the two calls' arguments is what the compiler made of today's types: it
# stands in the Python below and is tried on `refl` first, whose first term has to be read as (EQUAL X X).
here=$(cd "$(dirname "$0")/.." && pwd)
program=${ACL2P:-$here/out/acl2p}
[ -x "$program" ] || { echo "repeated.sh: no program at $program; build it by ../acl2p" >&2; exit 1; }
command -v gdb >/dev/null || { echo "repeated.sh: it needs gdb" >&2; exit 1; }
program=$(readlink -f -- "$program")
folder=$(mktemp -d)
trap 'rm -rf "$folder"' EXIT
"$here/bench/generated.py" "$folder"
cp "$here"/books/*.lisp "$folder"
cp "$here"/bench/books/*.lisp "$folder"
words=("$@")
[ $# -gt 0 ] || words=(alists bits machine sets sorting arithmetic compiler formulas insertion lists merge trees demo-200 wide-16
    wide-64)

place() { # place NAME: where a function begins in the program
    nm "$program" | awk -v name="$1" 'index($3, name) == 1 { print "0x" $1; exit }'
}
REWRITE=$(place ap_rewrite::rewriting::rewrite_levels) TYPES=$(place ap_types::typing::types_at) PROGRAM=$program
export REWRITE TYPES PROGRAM
cat >"$folder/counting.py" <<'PYTHON'
import collections, os, struct, gdb

for setting in ("pagination off", "confirm off", "startup-with-shell off", "print thread-events off"):
    gdb.execute(f"set {setting}")
gdb.execute("starti", to_string=True)
process = gdb.selected_inferior().pid
with open(f"/proc/{process}/maps") as maps:
    base = next(int(line.split("-")[0], 16) for line in maps if line.rstrip().endswith(os.environ["PROGRAM"]))
memory = os.open(f"/proc/{process}/mem", os.O_RDONLY)
TERM, FACT, SYMBOL = 64, 80, 32 # bytes

def read(at, size):
    return os.pread(memory, size, at)

def words(at, count):
    return struct.unpack(f"<{count}Q", read(at, 8 * count))

def text(held): # 24 bytes: a number, up to 15 bytes with their length, or where a shared list is
    if held[0] == 2:
        _, at, size = words(struct.unpack_from("<Q", held, 8)[0], 3)
        return read(at, size)
    return held[:2] if held[0] == 0 else held[:17]

def value(at):
    held = read(at, 48)
    if held[0] == 0:
        return 0, held[16:32]
    if held[0] == 1:
        return 1, held[1:2]
    if held[0] == 4:
        return 4, value(struct.unpack_from("<Q", held, 8)[0] + 16), value(struct.unpack_from("<Q", held, 16)[0] + 16)
    return (2, text(held[8:32])) if held[0] == 2 else (3, held[8], text(held[16:40]))

def term(at, held=None): # a variable, a constant, or a call: its arguments are a shared list
    held = held or read(at, TERM)
    if held[0] == 1:
        return 1, value(at + 16)
    head = held[0], held[8], text(held[16:40])
    if held[0] == 0:
        return head
    _, there, count = words(struct.unpack_from("<Q", held, 40)[0], 3)
    each = read(there, TERM * count)
    return head + tuple(term(there + TERM * i, each[TERM * i:TERM * (i + 1)]) for i in range(count))

def deep(at, count):
    return tuple((term(at + FACT * i), read(at + FACT * i + TERM, 1)) for i in range(count))

def facts(at, count): # those of the literal live as long as it is rewritten, so their bytes tell them; the others are read
    begun = min(count, literal[0])
    return read(at, FACT * begun), deep(at + FACT * begun, count - begun)

def shared(context):
    return words(words(context, 1)[0] + 8, 2)

def register(name):
    return int(gdb.selected_frame().read_register(name)) & 0xFFFFFFFFFFFFFFFF

count, rewritten, asked, literal = collections.Counter(), set(), set(), [0]

def meet(kind, met, key):
    count[kind] += 1
    count[kind + " again"] += key in met
    met.add(key)

class Rewriting(gdb.Breakpoint): # rsi the rewriter, rdx steps, rcx levels, r8 mode, r9 the place; on the stack the term
    def stop(self):
        here = term(words(register("rsp") + 8, 1)[0])
        context, closed, closed_count, chain = words(register("r9"), 4)
        if register("rcx") & 0xFFFFFFFF == 200: # a literal begins
            rewritten.clear()
            asked.clear()
            literal[0] = shared(context)[1]
        names = tuple((each[0], text(each[8:])) for each in (read(closed + SYMBOL * i, SYMBOL) for i in range(closed_count)))
        meet("steps", rewritten, hash((register("r8") & 1, facts(*shared(context)), names, chain & 0xFFFFFFFF, here)))
        count["refl"] |= len(here) == 5 and here[3] == here[4] and here[3][0] == 0 and here[3][2][1:2] == b"X"
        return False

class Asking(gdb.Breakpoint): # rdi the setting: the world, its facts, the function that is being added; rsi contexts, rdx the term
    def stop(self):
        _, at, size, own = words(register("rdi"), 4)
        contexts = words(*words(register("rsi"), 2)) if words(register("rsi"), 2)[1] else ()
        within = tuple(deep(*words(each + 8, 2)) for each in contexts)
        meet("types", asked, hash((facts(at, size), own, within, term(register("rdx")))))
        return False

Rewriting(f"*{base + int(os.environ['REWRITE'], 16)}")
Asking(f"*{base + int(os.environ['TYPES'], 16)}")
gdb.execute("continue", to_string=True)
if gdb.selected_inferior().pid == 0: # it came to its end
    print("COUNT", *(count[each] for each in ("steps", "steps again", "types", "types again", "refl")))
gdb.execute("quit")
PYTHON

counted() { # counted BOOK: steps, those again, types, those again, and 1 where a term was (EQUAL X X)
    local options=() books book
    [ -f "$folder/$1.options" ] && read -ra options <"$folder/$1.options"
    books=$(cd "$folder" && "$here/tools/order.py" "$1") && mkdir "$folder/$1.run" || return
    for book in $books; do cp "$folder/$book.lisp" "$folder/$1.run"; done
    cd "$folder/$1.run" || return
    gdb -q -batch -nx -x "$folder/counting.py" --args "$program" --workers 1 "${options[@]}" $books 2>"$folder/gdb.errors" |
        sed -n 's/^COUNT //p'
}
[[ $(counted refl) == "3 "*" 1" ]] || { echo "repeated.sh: the program's layout is another than the one that this script reads" >&2; exit 1; }
echo "| book | steps | of a hundred repeated | types asked | of a hundred repeated |"
echo "|---|---|---|---|---|"
for name in "${words[@]}"; do
    [ -f "$folder/$name.lisp" ] || { echo "repeated.sh: no book $name" >&2; exit 2; }
    read -r steps again types types_again _ <<<"$(counted "$name")"
    [ -n "$types_again" ] || { echo "repeated.sh: $name wasn't counted" >&2; cat "$folder/gdb.errors" >&2; exit 1; }
    awk -v n="$name" -v s="$steps" -v a="$again" -v t="$types" -v b="$types_again" \
        'BEGIN { printf "| %s | %d | %.0f | %d | %.0f |\n", n, s, s ? 100 * a / s : 0, t, t ? 100 * b / t : 0 }'
done
