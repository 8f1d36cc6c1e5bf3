#!/bin/bash
# deep_books.sh [PROGRAM] [KIND[=N] ..]: makes books that are deep or wide, and runs PROGRAM (or the one that the launcher
# builds) on each with 1 and with 4 workers, on stacks of 8 MiB (STACK=KIB others): terms as deep and as wide as reader and
# translation let through, clauses with thousands of literals, goals 250 deep, names of 60,000 bytes, lists, quotes, comments
# and events of a hundred thousand parts. Without a KIND it takes all; N is the size of one, in place of what the table below
# gives it. For each run it prints how it ended, the most that a stack held, in KiB, of the main thread and of the others, and
# the last line, cut. A run that ends by a fault of the machine is searched for the least N that does so too. Status 1 where
# one ended by another status than 0, 1 or 5, which is want of memory: for a goal of more than 65,536 calls within each
# other. It wants cc and python3. SECONDS_OF=S is the processor time that a run may take (120).
here=$(cd "$(dirname "$0")/.." && pwd)
program=$here/out/acl2p
if [ -x "$1" ] && [ ! -d "$1" ]; then program=$1 && shift; fi
[ -x "$program" ] || { echo "deep_books.sh: no program at $program; build it by ../acl2p" >&2; exit 2; }
program=$(readlink -f -- "$program")
folder=$(mktemp -d)
trap 'rm -rf "$folder"' EXIT
cd "$folder" || exit 2

cat >stack.c <<'C'
/* how much of its stack each thread touched, as pages that are there: told when the program ends */
#define _GNU_SOURCE
#include <dlfcn.h>
#include <fcntl.h>
#include <pthread.h>
#include <stdatomic.h>
#include <stdio.h>
#include <stdlib.h>
#include <sys/mman.h>
#include <unistd.h>

static atomic_long most;
struct begun { void *(*f)(void *); void *x; };

static void look(void) {
    pthread_attr_t attr;
    void *low;
    size_t size, page = 4096, i = 0;
    unsigned char there;
    if (pthread_getattr_np(pthread_self(), &attr)) return;
    pthread_attr_getstack(&attr, &low, &size);
    pthread_attr_destroy(&attr);
    while (i < size && (mincore((char *)low + i, page, &there) || !(there & 1))) i += page;
    long used = (size - i) / 1024;
    for (long seen = most; used > seen && !atomic_compare_exchange_weak(&most, &seen, used);) ;
}

static void *runs(void *given) {
    struct begun begun = *(struct begun *)given;
    free(given);
    void *answer = begun.f(begun.x);
    look();
    return answer;
}

typedef int starts(pthread_t *, const pthread_attr_t *, void *(*)(void *), void *);
int pthread_create(pthread_t *t, const pthread_attr_t *attr, void *(*f)(void *), void *x) {
    struct begun *given = malloc(sizeof *given);
    *given = (struct begun){f, x};
    return ((starts *)dlsym(RTLD_NEXT, "pthread_create"))(t, attr, runs, given);
}

void _exit(int status) {
    char line[200];
    int note = open(getenv("STACK_NOTE"), O_CREAT | O_TRUNC | O_WRONLY, 0600);
    FILE *own = fopen("/proc/self/status", "r");
    long main_thread = 0;
    while (own && fgets(line, sizeof line, own)) sscanf(line, "VmStk: %ld", &main_thread);
    dprintf(note, "%ld %ld", main_thread, (long)most);
    ((void (*)(int))dlsym(RTLD_NEXT, "_exit"))(status);
    __builtin_unreachable();
}
C
cc -O1 -shared -fPIC -o stack.so stack.c -ldl || { echo "deep_books.sh: it wants cc" >&2; exit 2; }

cat >books.py <<'PYTHON'
import os, resource, subprocess, sys, time

PROGRAM, KINDS = sys.argv[1], sys.argv[2:]
STACK = int(os.environ.get("STACK", "8192")) * 1024
SECONDS = int(os.environ.get("SECONDS_OF", "120"))


def theorem(term, rest=" :rule-classes nil"):
    return f"(defthm wanted {term}{rest})"


def chain(call, n, start="x"):
    """A term in which `call` stands n times within itself, V for its variable. A hundred are written within each other, so
    that the steps of the `let*` are few."""
    before, after = call.split("V")
    steps = []
    for done in range(0, n, 100):
        more = min(100, n - done)
        steps.append(f"(v{len(steps) + 1} {before * more}{f'v{len(steps)}' if steps else start}{after * more})")
    return "(let* (" + " ".join(steps) + f") v{len(steps)})"


def about(call, n):
    return theorem(f"(equal {chain(call, n)} y)")


def many(text, n, between=" "):
    return between.join(text.replace("I", str(i)) for i in range(n))


CLOSED = "(defund p (x) (consp x)) (defund q (x y) (equal x y)) (in-theory (disable (:type-prescription p) (:type-prescription q)))\n"


def equalities(n):
    """n equalities of a variable with 4,000 calls on the next one, each made by opening a definition: put for each other
    they make a term 4,000 n deep."""
    head = f"(defund link (y x) (equal y {chain('(p V)', 4000)}))\n"
    return CLOSED + head + theorem(f"(implies (and {' '.join(f'(link w{i} w{i + 1})' for i in range(n))}) (q w0 z))",
                                   ' :rule-classes nil :hints (("Goal" :in-theory (enable link)))')


def instances(n):
    """An instance of a theorem with n calls within each other, on a term with n calls within each other."""
    return CLOSED + f"(defthm lemma (or (equal y y) {chain('(p V)', n)}) :rule-classes nil)\n" + theorem("(q x z)", f' :rule-classes nil :hints (("Goal" :use ((:instance lemma (x {chain("(p V)", n)})))))')


def literals(n):
    """A clause of n literals, 400 of each definition that is opened."""
    heads, calls = [], []
    for first in range(0, n, 400):
        tests = " ".join(f"(q x {i})" for i in range(first, min(first + 400, n)))
        heads.append(f"(defund part-{first} (x) (and {tests}))\n")
        calls.append(f"(part-{first} x)")
    names = " ".join(call.split()[0][1:] for call in calls)
    return CLOSED + "".join(heads) + theorem(f"(implies (and {' '.join(calls)}) (p x))",
                                             f' :rule-classes nil :hints (("Goal" :in-theory (enable {names})))')


def nested(head, n, inner, end=""):
    return (head + " ") * n + inner + f"{end})" * n


def induction(n):
    """An induction whose clause has n calls within each other on its variable."""
    return CLOSED + theorem(f"(implies (true-listp x) {chain('(p V)', n, '(len x)')})")


def long_name(n, text):
    return text.replace("NAME", "a" * n)


# each kind with its size and its events
BOOKS = {
    "cdrs": (4090, lambda n: about("(cdr V)", n)),
    "nots": (4090, lambda n: about("(not V)", n)),
    "closed calls": (4090, lambda n: CLOSED + about("(p V)", n)),
    "open calls": (4000, lambda n: "(defun r (x) (cons x x))" + theorem(f"(equal {chain('(car V)', n, '(r x)')} z)")),
    "conses to the left": (2040, lambda n: about("(cons V y)", n)),
    "conses to the right": (2040, lambda n: about("(cons y V)", n)),
    "sums to the left": (2040, lambda n: about("(+ V y)", n)),
    "sum": (2040, lambda n: theorem(f"(equal (+ {many('x', n)}) y)")),
    "product": (2040, lambda n: theorem(f"(equal (* {many('x', n)}) y)")),
    "appended": (2040, lambda n: theorem(f"(equal (append {many('x', n)}) y)")),
    "equalities of equalities": (2040, lambda n: about("(equal V y)", n)),
    "tests of tests": (1000, lambda n: theorem(chain("(if V y z)", n))),
    "ifs in the second branch": (1000, lambda n: theorem(chain("(if y z V)", n))),
    "cases": (1300, lambda n: theorem(f"(cond {many('(xI y)', n)})")),
    "or": (1300, lambda n: theorem(f"(or {many('xI', n)})")),
    "hypotheses": (1300, lambda n: theorem(f"(implies (and {many('xI', n)}) y)")),
    "implications": (1300, lambda n: theorem(chain("(implies y V)", n))),
    "inequalities": (800, lambda n: theorem(f"(implies (and {many('(< xI yI)', n)}) (< x z))")),
    "sums of inequalities": (300, lambda n: theorem(f"(implies (and {many('(< (+ xI yI) z)', n)}) (< x z))")),
    "equal variables": (250, lambda n: theorem(f"(implies (and {many('(equal xI yI)', n)}) z)")),
    "equalities": (16, equalities),
    "equalities for which the stack has no room": (17, equalities),
    "instances": (4000, instances),
    "literals": (2000, literals),
    "induction": (4000, induction),
    "expansion": (4000, lambda n: CLOSED + theorem(f"(q {chain('(p V)', n)} z)", f' :rule-classes nil :hints (("Goal" :expand ((p {chain("(p V)", n)}))))')),
    "case hint": (2000, lambda n: CLOSED + theorem("(p x)", f' :rule-classes nil :hints (("Goal" :cases ({many("(q x I)", n)})))')),
    "deep body": (4000, lambda n: CLOSED + f"(defun f (x) {chain('(p V)', n)}) (defthm g (f x))"),
    "deep rule": (2000, lambda n: CLOSED + f"(defund f (x) {chain('(p V)', n)})\n(defthm rule (equal (f x) {chain('(p V)', n)}) :hints ((\"Goal\" :in-theory (enable f))))" + theorem(f"(q (f (f (f x))) y)")),
    "deep recursion": (1000, lambda n: f"(defun f (x) (if (consp x) (f {chain('(cdr V)', n)}) x))"),
    "many recursions": (600, lambda n: f"(defun f (x) (if (consp x) (list {many('(f (cdr x))', n)}) x))"),
    "recursion in cases": (300, lambda n: "(defun f (x) (cond ((atom x) x) " + many("((equal (car x) I) (f (cdr x)))", n) + "))"),
    "quoted list": (2040, lambda n: theorem(f"(equal x '({many('I', n)}))")),
    "quoted lists in lists": (390, lambda n: theorem("(equal x '" + "(" * n + ")" * n + ")")),
    "length of a list": (1300, lambda n: theorem(f"(equal (len '({many('I', n)})) {n})")),
    "appended lists": (1300, lambda n: theorem(f"(equal (append '({many('I', n)}) '(1)) x)")),
    "constant": (2040, lambda n: f"(defconst *c* '({many('I', n)}))" + theorem("(equal (len *c*) x)")),
    "string": (4000, lambda n: theorem(f'(equal (coerce (coerce "{"a" * n}" (quote list)) (quote string)) x)')),
    "quotes": (390, lambda n: theorem("(equal x " + "'" * n + "y)")),
    "backquoted": (2000, lambda n: theorem(f"(equal `({many(',xI', n)}) y)")),
    "lets in lets": (190, lambda n: theorem(nested("(let ((x (cons x x)))", n, "x"))),
    "lists in lists": (390, lambda n: theorem(f"(equal {nested('(list', n, 'x')} y)")),
    "events in progns": (390, lambda n: nested("(progn", n, theorem("(equal x x)"))),
    "events in encapsulates": (390, lambda n: nested("(encapsulate ()", n, theorem("(equal x x)"))),
    "events in locals": (390, lambda n: nested("(local", n, theorem("(equal x x)"))),
    "wide progn": (3000, lambda n: f"(progn {many('(defthm tI (equal x x) :rule-classes nil)', n)})"),
    "wide theory": (50000, lambda n: f"(in-theory (disable {many('car-cons', n)}))"),
    "name of a variable": (60000, lambda n: long_name(n, theorem("(implies (consp NAME) (equal NAME y))"))),
    "name of a function": (60000, lambda n: long_name(n, "(defun NAME (x) (if (consp x) (NAME (cdr x)) x)) (defthm wanted (equal (NAME x) y) :rule-classes nil)")),
    "name of a theorem": (60000, lambda n: long_name(n, '(defthm NAME (equal x x) :rule-classes nil) (defthm wanted (equal x y) :rule-classes nil :hints (("Goal" :use (NAME))))')),
    "name of a constant": (60000, lambda n: long_name(n, "(defconst *NAME* 1) (defthm wanted (equal *NAME* x) :rule-classes nil)")),
    "name between bars": (60000, lambda n: long_name(n, theorem("(equal |NAME b| y)"))),
    "long list": (300000, lambda n: theorem(f"(equal x '({many('1', n)}))")),
    "long and": (300000, lambda n: theorem(f"(and {many('x', n)})")),
    "long sum": (300000, lambda n: theorem(f"(+ {many('x', n)})")),
    "long cond": (150000, lambda n: theorem(f"(cond {many('(x y)', n)})")),
    "long let": (150000, lambda n: theorem(f"(let* ({many('(x y)', n)}) x)")),
    "long backquote": (300000, lambda n: theorem(f"`({many('x', n)})")),
    "long formals": (100000, lambda n: f"(defun f ({many('x', n)}) x)"),
    "many formals": (4000, lambda n: f"(defun f ({many('xI', n)}) x1)" + theorem("(f 1)")),
    "forms": (300000, lambda n: many("1", n)),
    "open lists": (300000, lambda n: "(" * n),
    "closed lists": (300000, lambda n: ")" * n),
    "comments in comments": (300000, lambda n: "#|" * n + "|#" * n + theorem("(equal x x)")),
    "long string": (4000000, lambda n: theorem('(equal x "' + "a" * n + '")')),
    "long name": (2000000, lambda n: long_name(n, theorem("(equal NAME 1)"))),
    "long number": (2000000, lambda n: theorem("(equal x " + "1" * n + ")")),
}


def limits():
    resource.setrlimit(resource.RLIMIT_STACK, (STACK, STACK))
    resource.setrlimit(resource.RLIMIT_CPU, (SECONDS, SECONDS + 1))


def run(kind, n, workers):
    """The status of a run, its last line, and what its stacks held. A status below zero is a signal."""
    with open("deep.lisp", "w") as out:
        out.write('(in-package "ACL2")\n' + BOOKS[kind][1](n) + "\n")
    if os.path.exists("note"):
        os.unlink("note")
    words = ["nice", "-n", "19", PROGRAM, "--workers", str(workers), "deep"]
    env = dict(os.environ, LD_PRELOAD=os.path.abspath("stack.so"), STACK_NOTE=os.path.abspath("note"))
    done = subprocess.run(words, preexec_fn=limits, env=env, stdout=subprocess.PIPE, stderr=subprocess.STDOUT, timeout=3600)
    held = open("note").read().split() if os.path.exists("note") else ["?", "?"]
    lines = done.stdout.decode("latin-1").splitlines() or [""]
    told = next((line for line in reversed(lines) if not line.startswith("Book ")), "")
    return done.returncode, told, held


def least(kind, n, workers):
    """The least size at which a run ends by a fault, where n does."""
    low, high = 0, n
    while high - low > max(1, high // 50):
        middle = (low + high) // 2
        low, high = (low, middle) if run(kind, middle, workers)[0] < 0 else (middle, high)
    return high


def main():
    failed, spent, deepest = 0, 0, {1: (0, ""), 4: (0, "")}
    for word in KINDS or BOOKS:
        kind, _, size = word.partition("=")
        n = int(size) if size else BOOKS[kind][0]
        for workers in (1, 4):
            begun = time.time()
            status, told, held = run(kind, n, workers)
            print(f"{kind} {n}, {workers} workers: status {status}, {held[0]} and {held[1]} KiB, {time.time() - begun:.1f} s: {told[:100]}",
                  flush=True)
            spent += status == 5
            if status not in (0, 1, 5):
                failed += 1
                if status == -11:
                    print(f"    a fault of the machine, from {kind}={least(kind, n, workers)} on", flush=True)
            elif held[0] != "?":
                deepest[workers] = max(deepest[workers], (max(map(int, held)), kind))
    for workers, (held, kind) in deepest.items():
        print(f"with {workers} workers the deepest run that ended held {held} KiB of a stack: {kind}")
    print(f"{spent} runs ended by status 5, {failed} otherwise than by status 0, 1 or 5")
    return 1 if failed else 0


sys.exit(main())
PYTHON
python3 books.py "$program" "$@"
