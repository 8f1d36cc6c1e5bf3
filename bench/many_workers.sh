#!/bin/bash
# many_workers.sh [RUNS]: wall time of acl2p with 1, 2 and 4 workers, the medians of so many runs (default 5), on books
# whose one theorem, an exclusive or of eight variables in two groupings, is split by a hint into 16 and into 64 cases of
# equal work, beside the one in which none holds, which is nothing; and on a book of 1,000 small theorems. Prints a line
# for each book: the times in milliseconds, and the ratios to one worker. Where processors are threads of one core, or the
# host lends them to others, one that is alone is faster than each of four that are busy, so that no program's four workers
# are four times as fast as one alone. So of the wide books it tells besides how long one worker takes beside one and beside
# three others of its kind (the mean of the runs that begin at once), the ratios to that, in which the processors are as
# busy as with the workers, and how many runs alone the runs side by side count as. It says how much of the processors' time
# the host took away meanwhile (steal, in /proc/stat), and from how many to how many milliseconds one worker alone took:
# where its slowest run isn't within 5 of a hundred of its fastest, the processors' speed changed by as much as the series
# is to tell, so that it decides nothing, whatever its ratios. VARIABLES=N has N variables (2 to 8) in place of eight: with
# each more a case takes about four times as long. BOOKS="wide16 small" takes these alone, and SIDE=no leaves out the runs
# beside others, so that those with 1, 2 and 4 workers stand in turn. Run it on a machine that does nothing else, with four
# processors.
here=$(cd "$(dirname "$0")/.." && pwd)
acl2p=${ACL2P:-$here/out/acl2p}
[ -x "$acl2p" ] || { echo "many_workers: no program at $acl2p; build it by ../acl2p" >&2; exit 1; }
eval "$(grep '^export GLIBC_TUNABLES' "$here/acl2p")" # what the launcher gives the program
folder=$(mktemp -d)
trap 'rm -rf "$folder"' EXIT
cd "$folder" || exit 1
python3 - "${VARIABLES:-8}" <<'END'
import sys
XOR = '(defun xo (p q) (if p (if q nil t) (if q t nil)))'
names = list("abcdefgh")[:int(sys.argv[1])]

def right(vs):
    return vs[0] if len(vs) == 1 else f"(xo {vs[0]} {right(vs[1:])})"

def left(vs):
    return vs[0] if len(vs) == 1 else f"(xo {left(vs[:-1])} {vs[-1]})"

def wide(file, split):
    cases = " ".join(f"(equal k {i})" for i in range(split))
    with open(file, "w") as out:
        out.write('(in-package "ACL2")\n' + XOR + "\n")
        out.write(f'(defthm wide (implies (or {cases}) (iff {right(names)} {left(names)}))'
                  f' :hints (("Goal" :cases ({cases}))) :rule-classes nil)\n')

wide("wide16.lisp", 16)
wide("wide64.lisp", 64)
with open("small.lisp", "w") as out:
    out.write('(in-package "ACL2")\n(defun app (x y) (if (consp x) (cons (car x) (app (cdr x) y)) y))\n')
    for i in range(1000):
        out.write(f"(defthm s{i} (equal (car (cons x y{i})) x) :rule-classes nil)\n")
END
runs=${1:-5}
python3 - "$acl2p" "$runs" <<'END'
import concurrent.futures, os, statistics, subprocess, sys, time
program, runs = sys.argv[1], int(sys.argv[2])

def processors():
    with open("/proc/stat") as lines:
        return [int(it) for it in lines.readline().split()[1:9]]

def timed(what):
    began = time.perf_counter()
    answer = what()
    return (time.perf_counter() - began) * 1000, answer

def one(workers, book):
    done = subprocess.run([program, "--workers", str(workers), book], capture_output=True)
    return done.returncode, done.stdout

def beside(many, book):
    with concurrent.futures.ThreadPoolExecutor(many) as at_once:
        each = list(at_once.map(lambda _: timed(lambda: one(1, book))[0], range(many)))
    return statistics.mean(each)

for book in os.environ.get("BOOKS", "wide16 wide64 small").split():
    alone = book == "small" or os.environ.get("SIDE") == "no"
    times, side, texts = {1: [], 2: [], 4: []}, {} if alone else {2: [], 4: []}, set()
    before = processors()
    for _ in range(runs):
        for workers in times:
            took, text = timed(lambda: one(workers, book))
            times[workers].append(took)
            texts.add(text)
        for many in side:
            side[many].append(beside(many, book))
    spent = [now - then for now, then in zip(processors(), before)]
    assert len(texts) == 1, f"{book}: the bytes differ"
    status = next(iter(texts))[0]
    middle = {w: statistics.median(t) for w, t in times.items()}
    print(f"{book}: status {status}; " + ", ".join(f"{w} workers {m:.0f} ms" for w, m in middle.items())
          + f"; ratios {middle[1] / middle[2]:.2f} with 2, {middle[1] / middle[4]:.2f} with 4"
          + f"; 1 worker took {min(times[1]):.0f} to {max(times[1]):.0f} ms, {100 * (max(times[1]) / min(times[1]) - 1):.0f} of a hundred apart"
          + "".join(f"; {many} runs side by side take {(busy := statistics.median(t)):.0f} ms each, so count as {many * middle[1] / busy:.2f},"
                    f" and {many} workers are {busy / middle[many]:.2f} times as fast as one of them" for many, t in side.items())
          + f"; the host took away {100 * spent[7] / max(1, sum(spent)):.1f} of a hundred")
END
