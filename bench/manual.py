#!/usr/bin/env python3
"""manual.py [PROGRAM]: tries docs/MANUAL.md by PROGRAM (or the one that the launcher builds).

- Of each row of "You write, it says, write instead" the first column has to be refused, or admitted, as the second says,
  and what stands in the third as code, without dots, has to certify.
- The example of each row of the tables of refusals has to be refused so.
- A block of text behind a line `<!-- acl2p WORDS -->` has to stand in what the program prints for these words in a folder
  with all sample books, line by line, where a line `..` stands for any lines.
- A block that begins with events has to print what stands behind its first blank line, or in its column behind "prints",
  by itself, or behind the functions of the last such block. A line `<!-- with OPTIONS -->` before it gives options.

Prints what doesn't hold, and how many were tried; status 1 where one doesn't."""
import glob
import os
import re
import subprocess
import sys
import tempfile

TOP = os.path.dirname(os.path.dirname(os.path.abspath(__file__)))
EVENT = re.compile(r"\((defun|defund|defthm|defthmd|defconst|in-theory|include-book|encapsulate|progn|local)\b")
BEFORE = """(defun f (x) (if (consp x) (f (cdr x)) x))
(defthm fact (equal (f (cons x y)) (f y)) :rule-classes nil)
"""


def program():
    if len(sys.argv) > 1:
        return os.path.abspath(sys.argv[1])
    subprocess.run([os.path.join(TOP, "acl2p"), "none"], capture_output=True, check=False)
    return os.path.join(TOP, "out", "acl2p")


PROGRAM = program()


def run(folder, words):
    told = subprocess.run([PROGRAM, *words], cwd=folder, capture_output=True, text=True, check=False, timeout=600)
    return told.stdout.splitlines()


def run_events(folder, text, before=BEFORE, options=()):
    """What is printed of a book with these events, behind `daily` where it includes that."""
    with open(os.path.join(folder, "tried.lisp"), "w", encoding="utf-8") as book:
        book.write('(in-package "ACL2")\n' + before + text + "\n")
    words = ["daily", "tried"] if '"daily"' in text else ["tried"]
    lines = run(folder, [*options, *words])
    return lines[lines.index("Book tried") :]


def as_events(code, kind):
    """A piece of code of a table as events."""
    if kind == "Terms" and not EVENT.match(code):
        return f"(defun tried (a b n x y) {code})"
    if kind == "Hints" and code.startswith(":"):
        return f'(defthm tried (equal (f x) (f x)) :rule-classes nil :hints (("Goal" {code})))'
    return code


def is_refused(lines, says):
    if says.startswith("Read error"):
        return any(line.startswith(says) for line in lines)
    if says == "admitted":
        return lines[-1] == "Book tried certified"
    return any(line.endswith(f" refused {says}") for line in lines)


def codes(cell):
    return re.findall(r"`([^`]+)`", cell.replace("\\|", "|"))


def rows(text):
    """The rows of the section's tables, each with its kind."""
    section = re.search(r"^## You write, it says, write instead\n(.*?)^## ", text, re.MULTILINE | re.DOTALL).group(1)
    kind = None
    for line in section.splitlines():
        kind = (re.match(r"\*\*(\w+)", line) or [None, kind])[1]
        cells = [it.strip() for it in re.split(r"(?<!\\)\|", line)[1:-1]]
        if len(cells) == 3 and cells[0].startswith("`"):
            yield kind, cells


def try_row(folder, kind, cells):
    """What doesn't hold of a row, or None."""
    (code,), (says,) = codes(cells[0]), codes(cells[1])
    lines = run_events(folder, as_events(code, kind))
    if not is_refused(lines, says):
        return f"{code}: it says {lines[-2:]} in place of {says}"
    pieces = [it for it in codes(cells[2]) if ".." not in it and (EVENT.match(it) or it.startswith("(") or (kind == "Hints" and it.startswith(":") and " " in it))]
    if kind == "Events":
        pieces = [it for it in pieces if EVENT.match(it)]
    events = [it for it in pieces if EVENT.match(it)]
    for piece in [it for it in pieces if it not in events] or ([""] if events else []):
        lines = run_events(folder, "\n".join([*events, as_events(piece, kind) if piece else ""]))
        if lines[-1] != "Book tried certified":
            return f"{code}: instead of it {events} {piece} gives {lines[-3:]}"
    return None


def stands_in(wanted, lines):
    """Whether the lines that are wanted stand behind each other there, `..` for any."""

    def fits(at, rest):
        if not rest:
            return True
        if rest[0] == "..":
            return any(fits(other, rest[1:]) for other in range(at, len(lines) + 1))
        return at < len(lines) and lines[at] == rest[0] and fits(at + 1, rest[1:])

    return any(fits(at, wanted) for at in range(len(lines)))


def example_as_events(code, number, cell):
    """A refusal's example as events."""
    if number.startswith("5") and not code.startswith("(def"):
        classes = "".join(f" :rule-classes {it}" for it in codes(cell) if it.startswith(":"))
        return f"(defthm tried {code}{classes})"
    if code.startswith(":hints"):
        return f"(defthm tried (equal x y) :rule-classes nil {code})"
    if number.startswith("6"):
        return f"(defthm tried (equal x x) :rule-classes nil :hints ({code}))"
    if code == "(lex)":
        return "(defun tried (x) (declare (xargs :measure (lex))) (if (consp x) (tried (cdr x)) x))"
    if number[0] in "48" and not code.startswith("(def"):
        return f"(defthm tried {code} :rule-classes nil)"
    return code


def refusals(text):
    """The rows of the tables of refusals: the number with its word as far as it is given, options, events."""
    for line in text.splitlines():
        cells = [it.strip() for it in re.split(r"(?<!\\)\|", line)[1:-1]]
        start = {3: "`", 4: ""}.get(len(cells))
        found = None if start is None else re.match(start + r"([1-9][0-9]*(?:\.[0-9])?)\b(?: (\w+))?", cells[0])
        given = codes(cells[-1]) if found else []
        if not given or ".." in cells[-1] or "with" in cells[-1].split():
            continue
        number, word = found[1], found[2] or (codes(cells[1]) or [""])[0] if len(cells) == 4 else found[2] or ""
        if " to " in cells[0]:
            number, word = number.split(".")[0] + ".", ""
        options = [it.split() for it in given if it.startswith("--")]
        (code,) = [it for it in given if not it.startswith("--")][:1]
        yield f"{number} {word}".strip(), options[0] if options else [], example_as_events(code, number, cells[-1])


def examples(text):
    """The blocks that begin with events: options, events, what they print."""
    for options, block in re.findall(r"^(?:<!-- with (.*?) -->\n)?```\n(\(.*?)^```", text, re.MULTILINE | re.DOTALL):
        column = block.split("\n")[0].find("  prints  ")
        if column >= 0:
            lines = [it.replace("  prints  ", "          ") for it in block.splitlines()]
            cut = column + len("  prints  ")
            yield options.split(), "\n".join(it[:cut] for it in lines), [it[cut:] for it in lines if it[cut:]]
        elif "\n\n" in block and not block.split("\n\n")[1].startswith("("):
            events, printed = block.split("\n\n", 1)
            yield options.split(), events, printed.rstrip("\n").splitlines()


def try_examples(folder, text):
    """What doesn't hold of each block of events."""
    before = ""
    for options, events, printed in examples(text):
        alone = run_events(folder, events, "", options)
        behind = run_events(folder, events, before, options)
        holds = stands_in(printed, alone) or stands_in(printed, behind)
        yield None if holds else f"{events}: it prints {alone[-4:]} or {behind[-4:]}"
        functions = re.findall(r"^\(defun .*?(?=^\(|\Z)", events + "\n", re.MULTILINE | re.DOTALL)
        before = "".join(functions) or before


def main():
    with open(os.path.join(TOP, "docs", "MANUAL.md"), encoding="utf-8") as file:
        text = file.read()
    tried = []
    with tempfile.TemporaryDirectory() as folder:
        for book in glob.glob(os.path.join(TOP, "books", "**", "*.lisp"), recursive=True):
            os.symlink(book, os.path.join(folder, os.path.basename(book)))
        tried += [try_row(folder, kind, cells) for kind, cells in rows(text)]
        for says, options, events in refusals(text):
            lines = run_events(folder, events, "", options)
            holds = any(f" refused {says}" in line for line in lines)
            tried.append(None if holds else f"{events}: it prints {lines[-2:]} in place of {says}")
        for words, block in re.findall(r"^<!-- acl2p (.*?) -->\n```\n(.*?)^```", text, re.MULTILINE | re.DOTALL):
            wanted = block.rstrip("\n").splitlines()
            tried.append(None if stands_in(wanted, run(folder, words.split())) else f"acl2p {words} doesn't print: {wanted}")
        tried += try_examples(folder, text)
    wrong = [it for it in tried if it]
    for it in wrong:
        print(it)
    print(f"{len(tried)} tried, {len(wrong)} don't hold")
    return 1 if wrong else 0


if __name__ == "__main__":
    sys.exit(main())
