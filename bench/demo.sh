#!/bin/bash
# demo.sh [PROGRAM]: the demo beside ACL2, in one run. Processor time, user and system, and peak memory, the least of three
# runs, of `acl2p --demo N` for 250, 500 and 1,000 functions, and of books with the demo's text and 2,500 and 5,000 functions,
# so 5,000 and 10,000 events, which a command's number doesn't reach; of ACL2 on the book of 1,000 functions with its full
# output, once certified without being compiled (`certify-book`: both read the book, work it, and work it again), once only
# loaded; and how long a run that prints the usage text takes by the clock. The ratios are whole against whole, and to ACL2
# without the time in which it starts (and certifies a book without events). acl2p is given what the launcher gives it
# (GLIBC_TUNABLES), and runs besides without.
here=$(cd "$(dirname "$0")/.." && pwd)
if [ -n "$1" ]; then
    program=$(readlink -f -- "$1")
else
    "$here/acl2p" none >/dev/null 2>&1
    program=$here/out/acl2p
fi
[ -x "$program" ] || { echo "demo.sh: there is no program $program" >&2; exit 1; }
folder=$(mktemp -d)
trap 'rm -rf "$folder"' EXIT
cd "$folder" || exit 1
eval "$(grep '^export GLIBC_TUNABLES' "$here/acl2p")" # what the launcher gives the program
python3 - "$program" "$(command -v acl2)" <<'END'
import os, sys, time
program, acl2 = sys.argv[1:3]

def text(functions):
    lines = ['(in-package "ACL2")']
    for i in range(1, functions + 1):
        lines.append(f"(defun d-{i} (x) (if (consp x) (cons (car x) (d-{i} (cdr x))) nil))")
        lines.append(f"(defthm d-{i}-same (implies (true-listp x) (equal (d-{i} x) x)))")
    return "\n".join(lines) + "\n"

def run(words, given="/dev/null", shown="out"):
    """Processor milliseconds, milliseconds by the clock and peak MiB, each the least of three runs, and the last status."""
    least = None
    for _ in range(3):
        files = [(os.POSIX_SPAWN_OPEN, 0, given, os.O_RDONLY, 0),
                 (os.POSIX_SPAWN_OPEN, 1, shown, os.O_WRONLY | os.O_CREAT | os.O_TRUNC, 0o644), (os.POSIX_SPAWN_DUP2, 1, 2)]
        began = time.perf_counter()
        child = os.posix_spawnp(words[0], words, os.environ, file_actions=files)
        _, status, used = os.wait4(child, 0)
        now = ((used.ru_utime + used.ru_stime) * 1000, (time.perf_counter() - began) * 1000, used.ru_maxrss / 1024)
        least = now if least is None else tuple(map(min, least, now))
    return (*least, os.waitstatus_to_exitcode(status))

def show(what, times):
    print(f"{what}: {times[0]:.0f} ms, {times[2]:.1f} MiB, status {times[3]}")

_, clock, _, _ = run([program])
print(f"the usage text: {clock:.1f} ms by the clock")
for functions in (250, 500, 1000):
    ours = run([program, "--demo", str(functions)])
    show(f"acl2p --demo {functions} ({open('out').read().strip()})", ours)
for functions in (2500, 5000):
    with open("more.lisp", "w") as out:
        out.write(text(functions))
    show(f"a book of {2 * functions} demo events", run([program, "more"]))
os.environ.pop("GLIBC_TUNABLES", None)
show("acl2p --demo 1000 without GLIBC_TUNABLES", run([program, "--demo", "1000"]))
if acl2:
    for name, events in (("demo", text(1000)), ("empty", text(0))):
        with open(name + ".lisp", "w") as out:
            out.write(events)
    for what, words in (("certifies", '(certify-book "{}" ? nil)'), ("loads", '(ld "{}.lisp")')):
        for name in ("empty", "demo"):
            with open(name + ".given", "w") as out:
                out.write(words.format(name) + "\n(good-bye)\n")
        started, theirs = run([acl2], "empty.given", "said"), run([acl2], "demo.given", "said")
        proved = open("said").read().count("\nQ.E.D.")
        print(f"ACL2 {what} the book of 1000 functions: {theirs[0]:.0f} ms, {started[0]:.0f} ms of them for a book without events, {theirs[2]:.1f} MiB, {proved} times Q.E.D.;"
              f" ratio {ours[0] / theirs[0]:.3f}, {ours[0] / (theirs[0] - started[0]):.3f} without its start")
END
