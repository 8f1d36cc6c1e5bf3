#!/bin/bash
# profile.sh [BOOK ..]: where the program's instructions go, by valgrind's callgrind with one worker, book by book, as two tables
# for bench/README. ACL2P=PROGRAM takes another program than the one that the launcher builds. The books are those of
# instructions.sh; without words those that README tells. One after another, some ten seconds for each thousand million, so half
# an hour in all, of which two-sums takes the half. ACCOUNTS=FOLDER keeps callgrind's accounts there, BOOK.account, for
# callgrind_annotate; one that is there already is read again and not made anew.
#
# The first table: millions of instructions, and of a hundred of them what each part takes. A part is told by the names of its
# functions (`part` below), and what is written into a function by the compiler counts as that function's. Copying, freeing,
# comparing and looking up belong to whoever calls for it, so that five parts make up the whole:
#   types        what types a term can have under facts
#   linear       polynomials and certificates, without the types that they ask for
#   rewriting    matching, rules, definitions, the equations that come of it, and running on constants
#   clauses      literals put in their places, clauses split and tidied
#   rest         start, reading, printing, the walk, inductions, rules made of theorems, certificates
# and beside them, each counted in the five already: memory (taking, copying and freeing it) and equality (whether two terms or
# names are the same, and which comes first).
#
# The second table: how often what is counted was called. Steps are those of rewriting; types are asked of a term and, within
# that, of each of its parts; a term is compared with each fact; polynomials are the literals that are turned into some, once
# for each time that arithmetic is asked; splits are the steps of splitting. Where ACL2 is installed, the last column has its
# own "prover steps", for the same books.
here=$(cd "$(dirname "$0")/.." && pwd)
program=${ACL2P:-$here/out/acl2p}
[ -x "$program" ] || { echo "profile.sh: no program at $program; build it by ../acl2p" >&2; exit 1; }
command -v valgrind >/dev/null || { echo "profile.sh: it needs valgrind" >&2; exit 1; }
program=$(readlink -f -- "$program")
folder=$(mktemp -d)
trap 'rm -rf "$folder"' EXIT
"$here/bench/generated.py" "$folder"
cp "$here"/books/*.lisp "$folder"
cp "$here"/bench/books/*.lisp "$folder"
words=("$@")
[ $# -gt 0 ] || words=(alists bits machine sets sorting arithmetic compiler formulas insertion lists merge trees demo-200 wide-16
    wide-64 two-sums by-places)

accounts=$(readlink -f -- "${ACCOUNTS:-$folder}") && mkdir -p "$accounts" || exit 1

profile() { # profile BOOK: callgrind's account of one worker's run, in $accounts/BOOK.account
    local options=() books book
    [ -f "$folder/$1.options" ] && read -ra options <"$folder/$1.options"
    books=$(cd "$folder" && "$here/tools/order.py" "$1") && mkdir "$folder/$1.run" || return
    for book in $books; do cp "$folder/$book.lisp" "$folder/$1.run"; done
    [ -s "$accounts/$1.account" ] || (cd "$folder/$1.run" && valgrind --tool=callgrind --callgrind-out-file="$accounts/$1.account" \
        "$program" --workers 1 "${options[@]}" $books >/dev/null 2>&1)
}
prover_steps() { # prover_steps BOOK: what ACL2 counts for it and for what it includes; a dash where it isn't there or takes too long
    command -v acl2 >/dev/null || { echo -; return; }
    local book
    for book in $(cd "$folder" && "$here/tools/order.py" "$1"); do
        (cd "$folder/$1.run" && timeout 120 acl2 <<<"(certify-book \"$book\" 0 nil)" || echo failed) 2>&1
    done | awk '/Form: *\( *CERTIFY-BOOK/ { of_book = 1 }
        /Prover steps counted/ && of_book { gsub(/[^0-9]/, "", $NF); n += $NF; of_book = 0 }
        /^failed/ { n = 0; exit } END { print n ? n : "-" }'
}
cat >"$folder/account.awk" <<'AWK'
function plain(text,   id, rest) { # a name as the account has it, without the kind that it is for and the depth of its calls
    match(text, /^\([0-9]+\)/)
    id = substr(text, 1, RLENGTH)
    rest = substr(text, RLENGTH + 2)
    if (rest != "") {
        sub(/\047[0-9]+$/, "", rest)
        sub(/::<.*/, "", rest)
        name[id] = rest
    }
    return name[id]
}
function part(f) {
    if (f ~ /^(malloc|free|realloc|calloc|cfree|_int_|sysmalloc|systrim|unlink_chunk|tcache_|alloc_|rattle_(alloc|dealloc|realloc)|__?mem(cpy|move|set))/ ||
        f ~ /^(std_alloc::|ap_list::|indexmap::|core::slice::edits|ap_kernel::lists::|ap_kernel::objects::Equiv::from_copy)/ ||
        f ~ /^ap_(term|value)::(terms|tree|arguments|kept|hashes|value)::(copy|Term::|Arguments::|kept|mixed|symbol_hash|value_hash|Value::cons)/ || f ~ /::drop$/) return "memory"
    if (f ~ /^(ap_term::terms::same|ap_term::(compare|starts|counts|atoms)::|ap_value::symbol::(same|Symbol)|ap_value::value::same)/ ||
        f ~ /^(core::cmp::|__memcmp|bcmp|ap_poly::parts::is_before)/) return "equality"
    if (f ~ /^(ap_world::(shapes|primitive|runes|entries|theory)::|ap_term::terms::(size|walked_size)|ap_value::|ap_translate::names::is_named)/) return "lookup"
    if (f ~ /^(ap_types::|ap_kernel::types::|ap_world::recognisers::)/) return "types"
    if (f ~ /^(ap_poly::|ap_linear::|ap_kernel::linear::|ap_rules::shapes::first_atoms|__u(div|mod)ti3)/ ||
        f ~ /^ap_rewrite::(arithmetic|bounding|refuting|linear_rules)::/) return "linear"
    if (f ~ /^(ap_clausify::|ap_kernel::(tidying|splits|literals|parts|solving|swapping|reductions)::|ap_rewrite::simplifying::)/) return "clauses"
    if (f ~ /^(ap_rewrite|ap_kernel|ap_term|ap_eval)::/) return "rewriting"
    return "rest"
}
function is_lent(p) { return p == "memory" || p == "equality" || p == "lookup" } # whoever calls for it pays
/^fn=/ { from = plain(substr($0, 4)); next }
/^cfn=/ { to = plain(substr($0, 5)); next }
/^calls=/ {
    split(substr($0, 7), words, " ")
    calls[to] += words[1]
    getline
    if (is_lent(part(to)) && !is_lent(part(from))) of[part(from)] += $2
    next
}
/^[0-9+*-]/ {
    all += $2
    of[part(from)] += $2
}
END {
    printf "| %s | %.1f |", book, all / 1e6 >shares
    split("types linear rewriting clauses rest memory equality", parts, " ")
    for (i = 1; i <= 7; i++) printf " %.0f |", 100 * of[parts[i]] / all >shares
    print "" >shares
    steps = calls["ap_rewrite::rewriting::rewrite_levels"]
    printf "| %s | %d | %.0f | %d | %d | %d | %d | %d | %d | %d | %s |\n", book, steps, steps ? all / steps : 0,
        calls["ap_types::typing::types_at"], calls["ap_term::terms::same_term"], calls["ap_rewrite::arithmetic::refuted"],
        calls["ap_poly::literal::of_literal"], calls["ap_clausify::splitting::go_on"], calls["ap_term::terms::copy_term"],
        calls["rattle_alloc"], theirs >counts
}
AWK
for name in "${words[@]}"; do
    [ -f "$folder/$name.lisp" ] || { echo "profile.sh: no book $name" >&2; exit 2; }
    profile "$name"
    [ -s "$accounts/$name.account" ] || { echo "profile.sh: no account of $name" >&2; exit 1; }
    awk -v book="$name" -v theirs="$(prover_steps "$name")" -v shares="$folder/shares" -v counts="$folder/counts" \
        -f "$folder/account.awk" "$accounts/$name.account"
    cat "$folder/shares" >>"$folder/all_shares"
    cat "$folder/counts" >>"$folder/all_counts"
done
echo "| book | million instructions | types | linear | rewriting | clauses | rest | memory | equality |"
echo "|---|---|---|---|---|---|---|---|---|"
cat "$folder/all_shares"
echo
echo "| book | steps | instructions a step | types asked | comparisons of terms | refutations tried | polynomials | splits | copies of terms | requests for memory | ACL2's steps |"
echo "|---|---|---|---|---|---|---|---|---|---|---|"
cat "$folder/all_counts"
