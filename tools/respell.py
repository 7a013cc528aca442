#!/usr/bin/env python3
"""Brings the repository's own definitions, fields and lemmas to the spelling of Rattle's guides: words in snake case, and a dash only
between two names.

usage: tools/respell.py           at the top: rewrites crates/*/{src,specs,proofs,must-fail} in place, once, after port.py
       tools/respell.py --map     prints each name that changes, old and new

A name in camel case becomes snake case wherever it stands. A dash in the name of a lemma or a field becomes an underscore where one of its
sides is a plain word; where the new name stands already for something else, the dash stays. Where two names would fall together, the lemma
gets `_lem`.
"""
import collections
import os
import re
import sys

TOKEN = re.compile(r"(?<![\w'])[A-Za-z_][\w\-'₀-₉²]*")
DECLARED = re.compile(r"^(\s*)(?:unfoldable |abbrev )?(pub )?(?:unfoldable |abbrev )?([a-z][\w\-'₀-₉]*) :(?!:)")
# Lemmas whose names would be those of the definitions that they speak of.
LEMMAS = "by_end goes_on head_in held_by last_row load_rule no_place one_more pairs_of read_at row_from run_ends run_on some_at stored_on".split()
# Words of the library and of the logic that are names: a dash stands between two names.
NAMES = set("""length map take drop cond any all keep tab up_to get_or set replicate zero suc min max true false not ok refuse none some add
sub mul div mod le lt eqb leb ltb compare append nil cons reverse foldr and or pow dvd gcd lcm at""".split())


def part(word):
    if not word or not word[0].islower():
        return word
    if word == "getD":
        return "get_or"
    return re.sub(r"([a-z0-9])([A-Z]+)", lambda m: m.group(1) + "_" + m.group(2).lower(), word)


def snake(word):
    return re.sub(r"[^\-_]+", lambda m: part(m.group(0)), word)


def files(root, ends):
    for folder, dirs, names in os.walk(os.path.join(root, "crates")):
        dirs[:] = sorted(d for d in dirs if d != "out")
        for name in sorted(names):
            if name.endswith(ends):
                yield os.path.join(folder, name)


def read(path):
    with open(path, encoding="utf-8") as f:
        return f.read()


STRING = re.compile(r'"(?:\\.|[^"\\\n])*"')


def bare(text, path):
    if path.endswith(".antt"):
        return re.sub(r"--.*", "", text)
    return re.sub(r"//.*", "", STRING.sub('""', text))


def outside_strings(turn, text, path):
    """The text with each token turned, but for what stands in strings of the source."""
    if path.endswith(".antt"):
        return TOKEN.sub(turn, text)
    strings = [m.span() for m in STRING.finditer(text)]
    return TOKEN.sub(lambda m: m.group(0) if any(a < m.start() < b for a, b in strings) else turn(m), text)


def is_function(path, root):
    parts = os.path.relpath(path, root).split(os.sep)
    return parts[2] == "proofs" and len(parts) > 4


def declared(text):
    """The names that a file declares, and its fields."""
    names, fields, record = set(), set(), None
    for line in text.split("\n"):
        m = re.match(r"^(\s*)pub record ", line)
        if m:
            record = len(m.group(1))
            continue
        m = DECLARED.match(line)
        if m:
            if record is not None and len(m.group(1)) > record:
                fields.add(m.group(3))
            else:
                names.add(m.group(3))
                record = None
        elif line.strip() and record is not None and not line.startswith(" " * (record + 1)):
            record = None
    return names, fields


def uses(text):
    """module, the names taken from it, and its alias."""
    for m in re.finditer(r"^\s*(?:unfoldable )?(?:pub )?(?:ghost )?use ([\w.']+?)(?:\.\{([^}]*)\}| as ([\w\-]+))?;?\s*$", text, re.M):
        yield m.group(1), [n.strip() for n in (m.group(2) or "").split(",") if n.strip()], m.group(3)


def main():
    root = os.getcwd()
    own = set(os.listdir(os.path.join(root, "crates")))
    paths = list(files(root, (".antt", ".rt")))
    texts = {p: read(p) for p in paths}
    codes = {p: bare(t, p) for p, t in texts.items()}

    tokens = collections.Counter(w for c in codes.values() for w in TOKEN.findall(c))
    camel = {w: snake(w) for w in tokens if w[0].islower() and snake(w) != w}

    # What each own module declares: its path by name, as `Rattle.c.specs.M`.
    where = {}
    for p in paths:
        if p.endswith(".antt"):
            names, fields = declared(codes[p])
            parts = os.path.relpath(p, root)[:-5].split(os.sep)
            where[".".join(["Rattle", parts[1]] + parts[2:])] = (names, fields, is_function(p, root), p)
    words, lemmas, fields = set(NAMES), set(), set()
    for module, (names, its, function, p) in where.items():
        if function:
            continue
        fields |= {f for f in its if "-" in f}
        for n in names | its:
            if "-" not in n and (".specs." in module or n in its):
                words.add(camel.get(n, n))
        lemmas |= {n for n in names if "-" in n}

    taken = {camel.get(w, w) for w in tokens}
    dashes = {}
    for n in sorted(lemmas | fields):
        new = snake(n)
        sides = new.split("-")
        out = sides[0]
        for a, b in zip(sides, sides[1:]):
            out += ("-" if a in words and b in words and n not in fields else "_") + b
        if out != new and out not in taken and out not in dashes.values():
            dashes[n] = out
    if "--map" in sys.argv:
        for old, new in sorted({**camel, **dashes}.items()):
            print(old, new)
        return

    # Where a lemma falls together with the definition that it speaks of.
    falls = {}
    for module, (names, _, function, p) in where.items():
        for n in names:
            if n in LEMMAS and ".proofs." in module and not function:
                # only where the definition in camel case stands in the same file
                if any(snake(w) == n and w != n for w in TOKEN.findall(codes[p])):
                    falls.setdefault(n, set()).add(module)

    for p in paths:
        t, own_names, foreign, aliases = texts[p], set(), set(), {}
        parts = os.path.relpath(p, root)
        module = ".".join(["Rattle", parts.split(os.sep)[1]] + parts[:-5].split(os.sep)[2:])
        mine = where.get(module, (set(), set(), False, p))
        if not mine[2]:
            own_names |= mine[0]
        lem = {n for n in falls if module in falls[n]}
        for m, names, alias in uses(codes[p]):
            # a name may stand in a module below the file's
            home = m
            while home and home not in where:
                home = home.rpartition(".")[0]
            ours = bool(home) and not where[home][2]
            taking = {n.split(" as ")[0].strip() for n in names}
            if ours:
                own_names |= taking
                lem |= {n for n in taking if n in falls and home in falls[n]}
                if alias:
                    aliases[alias] = home
                else:
                    aliases[m.split(".")[-1]] = home
            else:
                foreign |= taking

        def turn(m):
            w = m.group(0)
            before = t[m.start() - 1] if m.start() else ""
            if before == ".":
                head = re.search(r"([A-Za-z_][\w\-']*)\.$", t[: m.start()])
                head = head.group(1) if head else ""
                if w in dashes and (head in aliases or w in fields):
                    return dashes[w]
                if w in lem and head in aliases:
                    return w + "_lem"
                return camel.get(w, w)
            if w in lem:
                return w + "_lem"
            if w in dashes and w not in foreign and (w in own_names or w in fields):
                return dashes[w]
            return camel.get(w, w)

        new = outside_strings(turn, t, p)
        if new != t:
            with open(p, "w", encoding="utf-8") as f:
                f.write(new)
    for p in files(root, (".edit",)):
        t = read(p)
        new = "\n".join(TOKEN.sub(lambda m: camel.get(m.group(0), m.group(0)), l) if l.startswith(("old: ", "new: ")) else l for l in t.split("\n"))
        if new != t:
            with open(p, "w", encoding="utf-8") as f:
                f.write(new)


main()
