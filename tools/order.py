#!/usr/bin/env python3
"""order.py [--ninja] BOOK ..: the books that these include, directly or by others, and these, in an order for one
command line of acl2p: each book behind those that it includes. A BOOK is a name, as acl2p takes it, or NAME.lisp, in the
current folder. It reads the `include-book` forms of the books' text, in whatever form they stand; a cycle or a missing
file is named, and the exit status is then 1.

With --ninja it prints a build.ninja instead: each book that no other of them includes is certified with what it needs,
in a folder certified/NAME of links, where its certificate and its text NAME.text are left. So `ninja` certifies as many
of them at a time as there are processors, and again only those of which a book changed. ACL2P is the command that it
calls, with its options; the launcher beside this script where it isn't set."""
import os
import re
import sys

LIMIT = 64  # books on one command line
TOKEN = re.compile(
    r"""(?P<skip>[\s]+|;[^\n]*)|(?P<open>\#\|)|(?P<char>\#\\(?:[^\s()"';`,]+|.))|(?P<string>"(?:\\.|[^"\\])*")"""
    r"""|(?P<word>(?:[^\s()"';`,|\\]|\\.|\|(?:\\.|[^|\\])*\|)+)|(?P<mark>.)""",
    re.DOTALL,
)


class Fault(Exception):
    pass


def tokens(text):
    """The words, strings and marks of a book's text, without comments."""
    at = 0
    while at < len(text):
        found = TOKEN.match(text, at)
        at = found.end()
        if found.lastgroup == "open":
            depth = 1
            while depth:
                next_mark = re.compile(r"\#\||\|\#").search(text, at)
                if not next_mark:
                    return
                depth += 1 if next_mark.group() == "#|" else -1
                at = next_mark.end()
        elif found.lastgroup != "skip":
            yield found.lastgroup, found.group()


def included(name):
    """The names that a book's `include-book` forms have, in their order."""
    try:
        with open(f"{name}.lisp", encoding="latin-1") as book:
            found = list(tokens(book.read()))
    except OSError as error:
        raise Fault(f"{name}.lisp can't be read: {error.strerror}") from error
    names = []
    for (_, first), (kind, head), (what, value) in zip(found, found[1:], found[2:]):
        is_include = kind == "word" and head.upper() in ("INCLUDE-BOOK", "ACL2::INCLUDE-BOOK")
        if first == "(" and is_include and what == "string":
            names.append(re.sub(r"\\(.)", r"\1", value[1:-1]))
    return list(dict.fromkeys(names))


def ordered(roots):
    """Each book with what it includes, lowest first."""
    uses, open_books = {}, []

    def visit(name):
        if name in open_books:
            raise Fault("a cycle: " + " includes ".join([*open_books[open_books.index(name) :], name]))
        if name in uses:
            return
        open_books.append(name)
        try:
            names = included(name)
        except Fault as fault:
            by = f", which {open_books[-2]}.lisp includes" if len(open_books) > 1 else ""
            raise Fault(f"{fault}{by}") from fault
        for it in names:
            visit(it)
        open_books.pop()
        uses[name] = names

    for root in roots:
        visit(root)
    return uses


def below(name, uses):
    """What a book needs, lowest first, itself the last."""
    needed = {}
    for it in uses[name]:
        needed.update(dict.fromkeys(below(it, uses)))
    return [*needed, name]


def ninja_of(uses):
    """The text of a build.ninja for these books."""
    here = os.path.dirname(os.path.dirname(os.path.realpath(__file__)))
    command = os.environ.get("ACL2P") or "'" + os.path.join(here, "acl2p").replace("'", "'\\''") + "'"
    lines = [
        "# written by order.py; each top book with what it needs",
        "rule certify",
        "  command = rm -rf certified/$top && mkdir -p certified/$top && ln -s $links certified/$top && cd certified/$top"
        f" && {{ {command.replace('$', '$$')} $books >$top.text || {{ cat $top.text; exit 1; }}; }}",
        "  description = acl2p $books",
    ]
    tops = [it for it in uses if not any(it in others for others in uses.values())]
    for top in tops:
        books = below(top, uses)
        if len(books) > LIMIT:
            raise Fault(f"{top} needs {len(books)} books, and a command line takes {LIMIT}")
        lines += [
            f"build certified/{top}/{top}.cert: certify {' '.join(f'{it}.lisp' for it in books)}",
            f"  top = {top}",
            f"  books = {' '.join(books)}",
            f"  links = {' '.join(f'../../{it}.lisp' for it in books)}",
        ]
    return "\n".join(lines)


def main(words):
    writes_ninja = words[:1] == ["--ninja"]
    names = [it.removesuffix(".lisp") for it in words[writes_ninja:]]
    wrong = [it for it in names if not re.fullmatch(r"[a-zA-Z0-9_][a-zA-Z0-9_-]{0,63}", it)]
    if not names or wrong:
        print(f"order.py: {wrong[0]} is no book's name" if wrong else __doc__, file=sys.stderr)
        return 2
    try:
        uses = ordered(names)
        print(ninja_of(uses) if writes_ninja else " ".join(uses))
        return 0
    except Fault as fault:
        print(f"order.py: {fault}", file=sys.stderr)
        return 1


if __name__ == "__main__":
    sys.exit(main(sys.argv[1:]))
