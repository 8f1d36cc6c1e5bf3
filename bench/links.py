#!/usr/bin/env python3
"""links.py: each link of the repository's documents leads somewhere: to a file or folder that is there, and, where it
has a mark behind `#`, to a heading of that document; a function's name that is linked to a file of code stands there.
Prints each that doesn't, and how many there are; status 1 where one doesn't."""
import os
import re
import subprocess
import sys

TOP = os.path.dirname(os.path.dirname(os.path.abspath(__file__)))


def text_of(path):
    with open(path, encoding="utf-8") as file:
        return re.sub(r"^```.*?^```", "", file.read(), flags=re.MULTILINE | re.DOTALL)


def marks(path):
    """The marks of a document's headings, as GitHub makes them."""
    heads = re.findall(r"^#+ (.*)$", text_of(path), re.MULTILINE)
    return {re.sub(r"[^\w\- ]", "", it.lower()).replace(" ", "-") for it in heads}


def main():
    told = subprocess.run(["git", "ls-files", "*.md"], cwd=TOP, capture_output=True, text=True, check=True)
    count, wrong = 0, 0
    for name in told.stdout.split():
        path = os.path.join(TOP, name)
        for words, target in re.findall(r"\[([^\]\n]+)\]\(([^)\s]+)\)", text_of(path)):
            if re.match(r"\w+:", target):
                continue
            count += 1
            file, _, mark = target.partition("#")
            at = os.path.normpath(os.path.join(os.path.dirname(path), file)) if file else path
            function = re.fullmatch(r"`(\w+)`", words)
            if not os.path.exists(at) or (mark and mark not in marks(at)):
                print(f"{name}: {target} leads nowhere")
                wrong += 1
            elif function and at.endswith(".rt") and not re.search(rf"\bfn {function[1]}\b", text_of(at)):
                print(f"{name}: {target} has no function {function[1]}")
                wrong += 1
    print(f"{count} links, {wrong} lead nowhere")
    return 1 if wrong else 0


sys.exit(main())
