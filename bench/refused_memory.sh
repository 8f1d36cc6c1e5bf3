#!/bin/bash
# refused_memory.sh [PROGRAM]: runs PROGRAM (or the one that the launcher builds) with the Nth request for memory refused, for
# each N from 1 until a run isn't touched: a function and its theorem, a theorem with two pushed goals and `--workers 4`, two
# books of which one includes the other, and `--demo 5` with one worker and with four. Then once more with the Nth request and
# all behind it refused. Requests are the calls of malloc, realloc and their like, and each start of a thread, whose stack is
# one. A library that is loaded before the C library counts them; it stops the program before its `main`, and each run is a
# copy of it that goes on from there. Asserts that each run ends within a minute, by status 5 with its message and a prefix of
# the whole text, or by the whole run's status and text; and that no book has a certificate whose line `Book NAME certified`
# wasn't put. Prints each run that is otherwise, and a line for each kind; status 1 where one was. It wants cc. FROM=K begins
# with K, STEP=K takes each Kth N alone, ROWS=".. .." some of the rows `app cases users demo demo-4`.
here=$(cd "$(dirname "$0")/.." && pwd)
program=${1:-$here/out/acl2p}
[ -x "$program" ] || { echo "refused_memory.sh: no program at $program; build it by ../acl2p" >&2; exit 2; }
program=$(readlink -f -- "$program")
folder=$(mktemp -d)
trap 'rm -rf "$folder"' EXIT
cd "$folder" || exit 2

cat >refuse.c <<'C'
#define _GNU_SOURCE
#include <dlfcn.h>
#include <errno.h>
#include <glob.h>
#include <pthread.h>
#include <stdatomic.h>
#include <stdio.h>
#include <stdlib.h>
#include <string.h>
#include <sys/mman.h>
#include <sys/wait.h>
#include <unistd.h>

extern void *__libc_malloc(size_t), *__libc_calloc(size_t, size_t);
extern void *__libc_realloc(void *, size_t), *__libc_memalign(size_t, size_t);

/* which requests of this process are refused, and how many it made: the count stands where the first process reads it */
static long from, to;
static atomic_long *made;

static int refused(void) {
    long n = made && from ? atomic_fetch_add(made, 1) + 1 : 0;
    if (n < from || n > to || !n) return 0;
    errno = ENOMEM;
    return 1;
}

void *malloc(size_t n) { return refused() ? NULL : __libc_malloc(n); }
void *calloc(size_t k, size_t n) { return refused() ? NULL : __libc_calloc(k, n); }
void *realloc(void *p, size_t n) { return refused() ? NULL : __libc_realloc(p, n); }
void *memalign(size_t a, size_t n) { return refused() ? NULL : __libc_memalign(a, n); }
void *aligned_alloc(size_t a, size_t n) { return refused() ? NULL : __libc_memalign(a, n); }
int posix_memalign(void **p, size_t a, size_t n) {
    if (refused()) return ENOMEM;
    *p = __libc_memalign(a, n);
    return *p ? 0 : ENOMEM;
}
typedef int starts(pthread_t *, const pthread_attr_t *, void *(*)(void *), void *);
int pthread_create(pthread_t *t, const pthread_attr_t *attr, void *(*f)(void *), void *x) {
    if (refused()) return EAGAIN;
    return ((starts *)dlsym(RTLD_NEXT, "pthread_create"))(t, attr, f, x);
}

/* what a run put, on each of its two outputs, and how it ended */
#define MOST (1 << 20)
struct run { char text[MOST], message[200]; long length, made; int status, signal; };
static struct run whole, now;
static const char *kind;
static char words[200];
static long failed;

static long taken(int file, char *into, long most) {
    long n = pread(file, into, most - 1, 0);
    into[n < 0 ? 0 : n] = 0;
    return n;
}

static void wrong(long n, const char *why, const char *name) {
    printf("acl2p%s, request %ld of %ld refused (%s): %s%s; status %d, signal %d, message: %s\n    text: %.*s\n", words, n,
           now.made, kind, why, name, now.status, now.signal, now.message, (int)now.length, now.text);
    failed++;
}

static void judge(long n) {
    glob_t certs;
    if (now.signal) wrong(n, now.signal == 14 ? "it doesn't end" : "a fault of the machine", "");
    else if (now.status == 5) {
        if (strncmp(now.text, whole.text, now.length)) wrong(n, "the text is no prefix", "");
        if (strcmp(now.message, "acl2p: no memory\n")) wrong(n, "another message", "");
    } else if (now.status != whole.status) wrong(n, "another status", "");
    else if (now.length != whole.length || strcmp(now.text, whole.text)) wrong(n, "another text", "");
    if (glob("*.cert", 0, NULL, &certs)) return;
    for (size_t i = 0; i < certs.gl_pathc; i++) {
        char line[100];
        snprintf(line, sizeof line, "\nBook %.*s certified\n", (int)strlen(certs.gl_pathv[i]) - 5, certs.gl_pathv[i]);
        if (!strstr(now.text, line)) wrong(n, "a certificate without its closing line: ", certs.gl_pathv[i]);
        unlink(certs.gl_pathv[i]);
    }
    globfree(&certs);
}

/* a copy of this process goes on to `main`: answers 0 there, and 1 here once it has ended */
static int ran(long first, long last, int text, int message) {
    int how;
    if (ftruncate(text, 0) || ftruncate(message, 0)) exit(2);
    lseek(text, 0, SEEK_SET);
    lseek(message, 0, SEEK_SET);
    atomic_store(made, 0);
    pid_t child = fork();
    if (!child) {
        dup2(text, 1);
        dup2(message, 2);
        alarm(60);
        to = last;
        from = first;
        return 0;
    }
    if (child < 0 || waitpid(child, &how, 0) != child) exit(2);
    now.length = taken(text, now.text, MOST);
    taken(message, now.message, sizeof now.message);
    now.made = atomic_load(made);
    now.status = WIFEXITED(how) ? WEXITSTATUS(how) : -1;
    now.signal = WIFSIGNALED(how) ? WTERMSIG(how) : 0;
    return 1;
}

__attribute__((constructor)) static void begin(int argc, char **argv) {
    int text = memfd_create("text", 0), message = memfd_create("message", 0);
    long step = getenv("STEP") ? atol(getenv("STEP")) : 1, n, none = 0, runs = 0, last = 0;
    const long start = getenv("FROM") ? atol(getenv("FROM")) : 1;
    const long all = 1L << 60;
    kind = getenv("KIND");
    for (int i = 1; i < argc; i++) snprintf(words + strlen(words), sizeof words - strlen(words), " %s", argv[i]);
    made = mmap(NULL, 4096, PROT_READ | PROT_WRITE, MAP_SHARED | MAP_ANONYMOUS, -1, 0);
    if (made == MAP_FAILED || text < 0 || message < 0 || step < 1 || start < 1) _exit(2);
    if (!ran(all, all, text, message)) return;
    whole = now;
    if (whole.status != atoi(getenv("STATUS"))) wrong(0, "the whole run", "");
    judge(0);
    for (n = start; n < all; n += step) {
        if (!ran(n, kind[1] == 'l' ? n : all, text, message)) return;
        judge(n);
        if (now.made < n) break;
        runs++;
        last = n;
        none += now.status == 5;
    }
    printf("acl2p%s: %ld runs with a request refused (%s), the last of them %ld; %ld ended by status 5, %ld as the whole run, of"
           " %ld requests; %ld otherwise than they should\n", words, runs, kind, last, none, runs - none, whole.made, failed);
    fflush(stdout);
    _exit(failed != 0);
}
C
cc -O1 -shared -fPIC -o refuse.so refuse.c -ldl || { echo "refused_memory.sh: it wants cc" >&2; exit 2; }

cat >app.lisp <<'LISP'
(in-package "ACL2")
(defun app (x y) (if (consp x) (cons (car x) (app (cdr x) y)) y))
(defthm app-assoc (equal (app (app x y) z) (app x (app y z))))
LISP
cat >cases.lisp <<'LISP'
(in-package "ACL2")
(defund p (x) x)
(defthm b7 (and (p x) (p y) (p z)) :hints (("Subgoal 3" :cases ((p w)))))
LISP
cat >users.lisp <<'LISP'
(in-package "ACL2")
(include-book "app")
(encapsulate () (local (defthm app-nil (implies (true-listp x) (equal (app x nil) x))))
  (defthm app-nil-nil (implies (true-listp x) (equal (app (app x nil) nil) x))))
LISP

status=0
# tries STATUS WORD ..: both kinds, of a run whose status is this one
tries() {
    local kind
    for kind in alone "and all behind"; do
        STATUS=$1 KIND=$kind LD_PRELOAD=$folder/refuse.so "$program" "${@:2}" || status=1
    done
}

for row in ${ROWS:-app cases users demo demo-4}; do
    case $row in
    app) tries 0 app ;;
    cases) tries 1 --workers 4 cases ;;
    users) tries 0 app users ;;
    demo) tries 0 --demo 5 ;;
    demo-4) tries 0 --workers 4 --demo 5 ;;
    *) echo "refused_memory.sh: no row $row" >&2 && exit 2 ;;
    esac
done
exit $status
