#!/usr/bin/env python3
"""mutated_books.py N SEED [FIRST]: certifies N broken books, made from those of books/ (its folders too) and bench/books:
in each, one to four bytes, tokens or forms are changed, cut or doubled. A book is told by SEED and its number, counted from
FIRST (default 1), whatever N is. Each run has `--steps 5000 --goals 100`, by which also a proof that finds no end is refused. Asserts of each that the program ends, with status 0 or 1; that `--workers 1` and
`--workers 4` print the same bytes and leave the same certificate; that a book has a certificate, with the digest of its bytes,
exactly where it is certified; and that one that is certified is certified again, with the same lines, from its own text: its
tokens alone, one blank between two. Prints each book that is otherwise, with its number, and where it is kept; then how many
were certified, refused, and couldn't be read. Status 1 where one was otherwise. ACL2P=PROGRAM takes another program than the
one that the launcher builds; LIMIT=S is how long a run may take by the clock (300)."""
import glob
import hashlib
import os
import random
import re
import shutil
import subprocess
import sys
import tempfile

HERE = os.path.dirname(os.path.dirname(os.path.abspath(__file__)))
PROGRAM = os.path.abspath(os.environ.get("ACL2P", os.path.join(HERE, "out", "acl2p")))
WORDS = ["--steps", "5000", "--goals", "100"]
LIMIT = float(os.environ.get("LIMIT", "300"))
BLANKS = b"\t\n\x0c\r "
ENDS = BLANKS + b"()'\";`,"
ODD_BYTES = b"()'`,@;\"|\\#.:-+*/ \n\t\x00\x7f\x80\xff0159aAtTxX<="
ODD_TOKENS = [b"(", b")", b"'", b"`", b",", b",@", b".", b"nil", b"t", b":use", b"0", b"-1", b"1/2", b"2.5", b'""', b"#\\a",
              b"#xff", b"|a b|", b"acl2::x", b"other::x", b"..", b"170141183460469231731687303715884105728",
              b"local", b"encapsulate", b"include-book", b"in-package", b"lambda", b"let*", b"cond", b"x", b"y", b"equal"]


def skipped(text, at):
    """The place behind blanks and comments, or None where a comment is open."""
    while at < len(text):
        if text[at] in BLANKS:
            at += 1
        elif text[at] == ord(";"):
            end = text.find(b"\n", at)
            at = len(text) if end < 0 else end
        elif text.startswith(b"#|", at):
            depth, at = 1, at + 2
            while depth:
                mark = re.compile(rb"#\||\|#").search(text, at)
                if not mark:
                    return None
                depth += 1 if mark.group() == b"#|" else -1
                at = mark.end()
        else:
            return at
    return at


def end_of(text, at):
    """The end of the token that begins here, or None where it is open."""
    byte = text[at:at + 1]
    if byte in b"()'`":
        return at + 1
    if byte == b",":
        return at + (2 if text.startswith(b",@", at) else 1)
    if byte == b'"':
        closing = re.compile(rb'"(?:[^"\\]|\\.)*"', re.S).match(text, at)
        return closing.end() if closing else None
    if text.startswith(b"#\\", at):
        if at + 2 >= len(text):
            return None
        at += 3
    while at < len(text) and text[at] not in ENDS:
        if text[at] == ord("|"):
            at = text.find(b"|", at + 1)
            if at < 0:
                return None
        elif text[at] == ord("\\"):
            at += 1
        at += 1
    return at if at <= len(text) else None


def tokens_of(text):
    """The places of the tokens, up to the first that is open, and whether there is such a one."""
    places, at = [], skipped(text, 0)
    while at is not None and at < len(text):
        end = end_of(text, at)
        if end is None:
            return places, True
        places.append((at, end))
        at = skipped(text, end)
    return places, at is None


def forms_of(text):
    """The places of the forms: tokens that are no parenthesis, and lists that are closed."""
    places, open_at = [], []
    for start, end in tokens_of(text)[0]:
        if text[start:end] == b"(":
            open_at.append(start)
        elif text[start:end] == b")":
            if open_at:
                places.append((open_at.pop(), end))
        else:
            places.append((start, end))
    return places


def bytes_of(text):
    return [(at, at + 1) for at in range(len(text))]


def mutated(chance, text, pool):
    """The text with one to four changes, most often one, and what they were."""
    told = []
    for _ in range(chance.choice([1, 1, 1, 2, 2, 3, 4])):
        kind = chance.choice(["byte", "token", "form"])
        places = {"byte": bytes_of, "token": lambda text: tokens_of(text)[0], "form": forms_of}[kind](text)
        if not places:
            continue
        start, end = chance.choice(places)
        how = chance.choice(["changed", "cut", "doubled"])
        part = text[start:end]
        if how == "cut":
            part = b""
        elif how == "doubled":
            part += (b"" if kind == "byte" else b" ") + part
        elif kind == "byte":
            part = bytes([chance.choice(ODD_BYTES) if chance.random() < 0.7 else chance.randrange(256)])
        else:
            other = chance.choice(pool)
            there = chance.choice(tokens_of(other)[0] if kind == "token" else forms_of(other))
            part = chance.choice(ODD_TOKENS) if chance.random() < 0.3 else other[there[0]:there[1]]
        text = text[:start] + part + text[end:]
        told.append(f"{kind} {start} {how}")
    return text, ", ".join(told)


def earlier(folder, text, seen):
    """The books that this one includes, those that they include before them."""
    for name in re.findall(rb'\(include-book "([A-Za-z0-9_-]+)"\)', text):
        name = name.decode()
        file = os.path.join(folder, name + ".lisp")
        if name not in seen and os.path.exists(file):
            with open(file, "rb") as book:
                earlier(folder, book.read(), seen)
            seen.append(name)
    return seen


class Trial:
    """One broken book: its folder, and what is wrong with it."""

    def __init__(self, source, text):
        self.text, self.wrong = text, []
        self.folder = tempfile.mkdtemp(prefix="mutated-")
        with open(source, "rb") as book:
            self.earlier = earlier(os.path.dirname(source), book.read(), [])
        for name in self.earlier:
            shutil.copy(os.path.join(os.path.dirname(source), name + ".lisp"), self.folder)

    def run(self, text, workers, asked=()):
        """Status, text and certificate of a run on this text as the book `b`."""
        with open(os.path.join(self.folder, "b.lisp"), "wb") as book:
            book.write(text)
        cert = os.path.join(self.folder, "b.cert")
        if os.path.exists(cert):
            os.unlink(cert)
        words = [PROGRAM, "--workers", str(workers), *WORDS, *self.earlier, "b"]
        try:
            done = subprocess.run(words, cwd=self.folder, stdout=subprocess.PIPE, stderr=subprocess.STDOUT, timeout=LIMIT)
        except subprocess.TimeoutExpired:
            self.wrong.append(f"--workers {workers} doesn't end within {LIMIT:g} s")
            return None, b"", None
        if done.returncode not in (0, 1):
            self.wrong.append(f"--workers {workers} ends by status {done.returncode}")
        stored = None
        if os.path.exists(cert):
            with open(cert, "rb") as file:
                stored = file.read()
        return done.returncode, done.stdout, stored

    def judge(self):
        """How the book ended."""
        first = self.run(self.text, 1)
        if self.run(self.text, 4) != first:
            self.wrong.append("--workers 4 differs from --workers 1")
        status, text, stored = first
        if status not in (0, 1):
            return "otherwise"
        certified = text.endswith(b"\nBook b certified\n")
        if certified != (stored is not None) or certified != (status == 0):
            self.wrong.append("status, last line and certificate don't agree")
        if not certified:
            return "not read" if b"\nRead error " in text else "refused"
        if b"\nsha256 " + hashlib.sha256(self.text).hexdigest().encode() + b"\n" not in (stored or b""):
            self.wrong.append("the certificate has another digest")
        own = b" ".join(self.text[start:end] for start, end in tokens_of(self.text)[0])
        if self.run(own, 1)[:2] != first[:2]:
            self.wrong.append("what its tokens give differs")
        return "certified"


def main():
    if len(sys.argv) not in (3, 4) or not os.access(PROGRAM, os.X_OK):
        print(f"mutated_books.py N SEED [FIRST]; the program is {PROGRAM}", file=sys.stderr)
        return 2
    count, seed = int(sys.argv[1]), sys.argv[2]
    first = int(sys.argv[3]) if len(sys.argv) == 4 else 1
    sources = sorted(glob.glob(HERE + "/books/*.lisp") + glob.glob(HERE + "/books/*/*.lisp") + glob.glob(HERE + "/bench/books/*.lisp"))
    pool = []
    for source in sources:
        with open(source, "rb") as book:
            pool.append(book.read())
    ended, wrong = {"certified": 0, "refused": 0, "not read": 0, "otherwise": 0}, 0
    for number in range(first, first + count):
        chance = random.Random(f"{seed} {number}")
        source = chance.randrange(len(sources))
        text, told = mutated(chance, pool[source], pool)
        trial = Trial(sources[source], text)
        ended[trial.judge()] += 1
        if trial.wrong:
            wrong += 1
            with open(os.path.join(trial.folder, "b.lisp"), "wb") as book:
                book.write(text)
            print(f"{number}, {os.path.relpath(sources[source], HERE)}, {told}: {'; '.join(trial.wrong)}; kept in {trial.folder}", flush=True)
        else:
            shutil.rmtree(trial.folder)
        if (number - first) % 50 == 49:
            print(f"{number - first + 1} books: {ended}", file=sys.stderr, flush=True)
    print(f"{count} books of seed {seed} from {first} on: {ended['certified']} certified, {ended['refused']} refused,"
          f" {ended['not read']} not read, {ended['otherwise']} ended otherwise; {wrong} wrong")
    return 1 if wrong else 0


if __name__ == "__main__":
    sys.exit(main())
