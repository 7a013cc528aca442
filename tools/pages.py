#!/usr/bin/env python3
"""Brings the names in backquotes on the pages, and in the first lines of the edits, to their spelling of today: a name that does not
exist becomes the one that differs from it in spelling alone. `tools/pages.py` at the top; prints what it cannot find."""
import itertools
import pathlib
import re

ROOT = pathlib.Path(__file__).resolve().parent.parent
names = (ROOT / ".ci" / "names").read_text(encoding="utf-8").replace("__file__", repr(str(ROOT / ".ci" / "names")))
space = {}
exec(names[: names.index('promises = read(ROOT / "docs" / "PROMISES.md")')], space)
exists = space["exists"]


def part(word):
    if not word or not word[0].islower():
        return word
    if word == "getD":
        return "get_or"
    return re.sub(r"([a-z0-9])([A-Z]+)", lambda m: m.group(1) + "_" + m.group(2).lower(), word)


def spellings(name):
    snake = re.sub(r"[A-Za-z0-9]+", lambda m: part(m.group(0)), name)
    snake = snake.replace("′", "'")
    yield snake
    pieces = re.split(r"([-_])", snake)
    marks = [i for i in range(1, len(pieces), 2)]
    for choice in itertools.product("_-", repeat=min(len(marks), 6)):
        out = list(pieces)
        for i, mark in zip(marks, choice):
            out[i] = mark
        yield "".join(out)
        yield "".join(out) + "_lem"


def mended(name):
    if exists(name) is not False:
        # of no form that is looked at, or there: a name in camel case is turned all the same
        new = next(spellings(name))
        return new if re.fullmatch(r"[a-z]+(?:[A-Z][a-z0-9]*)+", name) and exists(new) is not False else name
    for new in spellings(name):
        if exists(new):
            return new
    return None


wrong = set()


def turn(text, where):
    def one(m):
        new = mended(m.group(1))
        if new is None:
            wrong.add(f"{where}: `{m.group(1)}`")
            return m.group(0)
        return f"`{new}`"

    return re.sub(r"`([^`\n]+)`", one, text)


for path in sorted(ROOT.glob("crates/*/must-fail/*.edit")):
    text = path.read_text(encoding="utf-8")
    head, _, rest = text.partition("\n")
    new = turn(head, path.relative_to(ROOT)) + "\n" + rest
    if new != text:
        path.write_text(new, encoding="utf-8")
for page in ["README.md", "CONTRIBUTING.md", *sorted(str(p.relative_to(ROOT)) for p in ROOT.glob("docs/*.md"))]:
    if page in ("docs/PORT.md", "docs/EDITS.md"):
        continue
    path = ROOT / page
    text = path.read_text(encoding="utf-8")
    new = turn(text, page)
    if new != text:
        path.write_text(new, encoding="utf-8")
print("\n".join(sorted(wrong)))
