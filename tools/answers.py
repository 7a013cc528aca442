#!/usr/bin/env python3
"""Turns the proof files of functions from `Proof.antt` over `Tie` into `Invariants.antt` and `Answers.antt`.

usage: tools/answers.py CRATE NAMES      NAMES is the names.json that `rt check --generated DIR --old-names` writes in the crate's folder
       tools/answers.py CRATE NAMES F..  these functions alone, as paths below proofs/

The old file becomes Proof.txt beside the new ones, to look at; a later step removes it. What the tactics find needs no answer and gets none.
"""
import json
import os
import re
import sys

IDENT = r"[A-Za-z_][\w\-'₀-₉²]*"
TOKEN = re.compile(r"(?<![\w'\-])" + IDENT)


def plain(name):
    name = name.replace("_", "-")
    return re.sub(r"^(overflow|nonzero)-", "", name)


def blocks(text):
    """Runs of lines that begin at column 0: [comment lines, name or None, text]."""
    out, lead = [], []
    lines = text.rstrip("\n").split("\n")
    i = 0
    while i < len(lines):
        l = lines[i]
        if not l.strip() or l.startswith("--"):
            lead.append(l)
            i += 1
            continue
        j = i + 1
        while j < len(lines) and (not lines[j].strip() or lines[j].startswith((" ", "\t", ")", "}"))):
            if not lines[j].strip():
                k = j
                while k < len(lines) and not lines[k].strip():
                    k += 1
                if k == len(lines) or not lines[k].startswith((" ", "\t")):
                    break
            j += 1
        out.append((lead, "\n".join(lines[i:j])))
        lead = []
        i = j
    return out


class Group:
    def __init__(self, name, lead):
        self.name, self.lead, self.sig, self.unfolding, self.clauses = name, lead, None, None, []

    def text(self):
        parts = [self.sig] + ([self.unfolding] if self.unfolding else []) + self.clauses
        return "\n".join(parts)


def parse(text):
    uses, groups, order = [], {}, []
    head, last = [], None
    for lead, b in blocks(text):
        if re.match(r"(unfoldable )?(pub )?use ", b):
            if not uses and not order:
                head += lead
            uses.append(b)
            continue
        m = re.match(r"unfolding ", b)
        if m:
            groups[last].unfolding = b
            continue
        m = re.match(r"(?:unfoldable |abbrev )?(?:pub )?(?:unfoldable |abbrev )?(" + IDENT + r") :(?!:)", b)
        if m and m.group(1) not in groups:
            g = Group(m.group(1), lead)
            g.sig = b
            groups[g.name] = g
            order.append(g)
            last = g.name
            continue
        m = re.match(r"(" + IDENT + r")[ =]", b)
        if m and m.group(1) in groups:
            groups[m.group(1)].clauses.append(b)
            continue
        g = Group(None, lead)
        g.sig = b
        order.append(g)
    return head, uses, groups, order


def matching(t, i):
    d = 0
    for k in range(i, len(t)):
        if t[k] in "([{":
            d += 1
        elif t[k] in ")]}":
            d -= 1
            if d == 0:
                return k
    return -1


def arguments(text):
    """The arguments of `tie.spec ..`: names and groups in parentheses."""
    i = text.find("tie.spec")
    if i < 0:
        return []
    i += len("tie.spec")
    out = []
    while i < len(text):
        c = text[i]
        if c.isspace():
            i += 1
        elif c == "(":
            k = matching(text, i)
            out.append(text[i : k + 1])
            i = k + 1
        elif c == ")":
            break
        else:
            m = re.match(r"[^\s()]+", text[i:])
            out.append(m.group(0))
            i += m.end()
    return out


def split_top(t, sep=","):
    out, d, cur = [], 0, ""
    for c in t:
        if c in "([{":
            d += 1
        elif c in ")]}":
            d -= 1
        if c == sep and d == 0:
            out.append(cur)
            cur = ""
        else:
            cur += c
    out.append(cur)
    return out


def tail_record(text, labels):
    """A pair of pairs at the end of an answer as the record of the clauses."""
    t = text.rstrip()
    found = tail_pairs(t, labels)
    if found:
        return found
    # one fact for all clauses: its parts
    m = re.match(r"(\S+(?: [\w₀-₉]+)* =\s*)(.*)$", t, re.S)
    if not m or re.match(r"(search|omega|grind|simp|cc)\b", m.group(2)) or "record {" in m.group(2):
        return text
    body = "\n    ".join(m.group(2).split("\n"))
    parts = "; ".join(f"{l} = all{path_of(k, len(labels))}" for k, l in enumerate(labels))
    return f"{m.group(1).rstrip()}\n    let all =\n        {body} in\n    record {{ {parts} }}"


def tail_pairs(t, labels):
    text = None
    if not t.endswith(")"):
        return text
    d = 0
    for k in range(len(t) - 1, -1, -1):
        if t[k] in ")]}":
            d += 1
        elif t[k] in "([{":
            d -= 1
            if d == 0:
                break
    inner = t[k + 1 : -1]
    parts, rest = [], inner
    for n in range(len(labels) - 1):
        its = split_top(rest)
        its = [x for x in its if x.strip()]
        if len(its) == len(labels) - n and len(its) > 2:
            parts += its
            rest = None
            break
        if len(its) != 2:
            return text
        parts.append(its[0])
        rest = its[1].strip()
        if n < len(labels) - 2:
            if rest.startswith("(") and matching(rest, 0) == len(rest) - 1:
                rest = rest[1:-1]
            else:
                return text
    if rest is not None:
        parts.append(rest)
    if len(parts) != len(labels):
        return text
    body = "; ".join(f"{l} = {p.strip()}" for l, p in zip(labels, parts))
    return t[:k] + "record { " + body + " }"


CLAUSE = re.compile(r"^\s*(requires|ensures)\*?(?: ([a-z_]\w*))? \{", re.M)


def contracts(root):
    """crate::path::function: labels of requires and of ensures (None for a lone one), and its parameters."""
    out = {}
    for c in os.listdir(os.path.join(root, "crates")):
        src = os.path.join(root, "crates", c, "src")
        for folder, _, names in os.walk(src):
            for n in names:
                if not n.endswith(".rt"):
                    continue
                t = re.sub(r"//.*", "", open(os.path.join(folder, n), encoding="utf-8").read())
                mod = os.path.relpath(os.path.join(folder, n), src)[:-3].replace(os.sep, "::")
                mod = [] if mod in ("lib", "main") else mod.split("::")
                impl = None
                for m in re.finditer(r"^impl(?:<[^>]*>)? (\w+)|^( *)(?:pub )?(?:const |unsafe |extern \"C\" )*fn (\w+)(?:<[^>(]*>)?\(", t, re.M):
                    if m.group(1):
                        impl = m.group(1)
                        continue
                    if not m.group(2):
                        impl = None
                    e = matching(t, m.end() - 1)
                    params = []
                    for x in split_top(t[m.end() : e]):
                        x = x.strip()
                        if x:
                            params.append("self" if re.match(r"&?(?:'\w+ )?(mut )?self$", x) else re.sub(r"^mut ", "", x.split(":")[0].strip()))
                    k = re.compile(r"[^\n{]*").match(t, e + 1)
                    pos, req, ens = k.end(), [], []
                    while True:
                        k = re.compile(r"\s*(requires|ensures|ghost)(\*?)(?: ([a-z_]\w*))?(?::)? \{").match(t, pos)
                        if not k:
                            break
                        e = matching(t, k.end() - 1)
                        if k.group(1) == "requires":
                            req.append(k.group(3))
                        elif k.group(1) == "ensures":
                            ens.append(k.group(3))
                        pos = e + 1
                    path = "::".join([c] + mod + ([impl] if impl else []) + [m.group(3)])
                    out[path] = (req, ens, params)
    return out


def path_of(k, n):
    """The old path of clause k of n."""
    return ".1" * k + ("" if k == n - 1 else ".0")


def cite(text, word, labels):
    """`.word.1.0` as the label of the clause."""
    n = len(labels)
    if n < 2 or any(l is None for l in labels):
        return text
    table = {path_of(k, n): l for k, l in enumerate(labels)}

    def turn(m):
        path = m.group(2)
        parts = path.split(".")[1:]
        for k in range(len(parts), 0, -1):
            p = "".join("." + x for x in parts[:k])
            if p in table:
                return m.group(1) + "." + table[p] + "".join("." + x for x in parts[k:])
        return m.group(0)

    return re.sub(word + r"((?:\.[01])+)(?![\w])", turn, text)


def whole(text, word, labels):
    """All clauses at once, as the pairs that lemmas take."""
    if len(labels) < 2 or any(l is None for l in labels):
        return text

    def turn(m):
        its = [m.group(0) + "." + l for l in labels]
        out = its[-1]
        for x in reversed(its[:-1]):
            out = f"({x}, {out})"
        return out

    return re.sub(r"(?<![\w.'\-])" + IDENT + r"(?:\." + IDENT + r")*?" + word + r"(?![\w.'\-])", turn, text)


def main(crate, names, only):
    root = os.getcwd()
    data = json.load(open(names))
    laws = contracts(root)
    top = os.path.join(root, "crates", crate, "proofs")
    for key in sorted(data):
        it = data[key]
        m = re.match(r"Rattle-(\w+)-proofs\.(.+)\.Lts$", key)
        if not m:
            continue
        where = m.group(2)
        folder = os.path.join(top, *where.split("."))
        old = os.path.join(folder, "Proof.antt")
        if not os.path.exists(old) or (only and where.replace(".", "/") not in only):
            continue
        text = open(old, encoding="utf-8").read()
        if "tie.close" not in text:
            print("by hand:", old)
            continue
        convert(crate, where, folder, old, text, it, laws)


def convert(crate, where, folder, old, text, it, laws):
    head, uses, groups, order = parse(text)
    needs = it["needs"]
    goal_of = {}
    for a, b in needs:
        goal_of.setdefault(plain(a), b)
    places = {}
    for p, new in zip(it["places"], it["places_by_name"]):
        places[plain(p[0])] = new
    fields, callees = {}, {}
    for p in it["places"]:
        a, b = p[2]
        if a and not re.search(r"-1$|(enum|known|way)_told|slice_known", b):
            fields.setdefault(plain(a), b)
        if b and p[3]:
            callees[b] = p[3]
    loops = {plain(l[0][0]): (l[0][1], l[1], ch) for l, ch in zip(it["loops"], it["changed"])}

    own = "::".join([crate] + where.split("."))
    own_req, own_ens, own_params = laws.get(own, ([], [], []))
    spelled = {plain(x): x for x in own_params}
    for l in it["loops"]:
        spelled.update({plain(x): x for x in l[1]})
    labels = {plain(p[2][1]): p[2][1] for p in it["places"] if p[2][1]}
    arms = {}
    for arm in it["arms"]:
        if arm:
            for field, label, path in arm[2]:
                arms.setdefault((plain(label), tuple(path)), f"{arm[0]}.{field}")

    invs = [g for g in order if g.name and re.search(r": tie\.(invariant|decreases)-", g.sig)]
    inv_names = [g.name for g in invs]

    def turn(t, in_inv=False):
        # a record further in has all that one further out has: a name for the inner one is not needed
        while True:
            for m in re.finditer(r"let (" + IDENT + r") = (" + IDENT + r")(?:\.before)+\s+in\s+", t):
                x = re.escape(m.group(1))
                rest = t[: m.start()] + t[m.end() :]
                if all(re.match(r"(?:\.before)*\.(?!before(?![\w\-]))", rest[k.end() :]) for k in re.finditer(r"(?<![\w.'\-])" + x + r"(?![\w'\-])", rest)):
                    t = re.sub(r"(?<![\w.'\-])" + x + r"(?![\w'\-])", m.group(2), rest)
                    break
            else:
                break

        # places in types, without the invariants that they took
        def place(m):
            w = m.group(1)
            if w.startswith("Need-"):
                return m.group(0)
            return "goal." + places.get(plain(w), w)

        args = "|".join(re.escape(n) for n in inv_names)
        if args:
            t = re.sub(r"tie\.((?:After|In|At|Then|Else|Start|Joined|Arm)[\w\-']*)((?:\s+(?:" + args + r"))+)", lambda m: place(m), t)
        t = re.sub(r"tie\.((?:After|In|At|Then|Else|Start|Joined|Arm)[\w\-']*)", place, t)
        # steps
        # what the last arm of a `match` knows of the ones before it
        t = re.sub(r"(?<![\w.'\-])[\w.'\-]+\.match\d*\.rest(?:\.[01])*(?![\w\-])", "(search rules)", t)

        # only right behind the record itself
        given = set(re.findall(r"let (" + IDENT + r") = [\w.'\-]+\.args\s+in", t))

        def step(m):
            label = m.group(3)
            if m.group(1) in given:
                return m.group(0)
            path = [x for x in (m.group(4) or "").split(".") if x]
            for k in range(len(path), 0, -1):
                new = arms.get((plain(label), tuple(path[:k])))
                if new and "-own" not in new:
                    return m.group(1) + m.group(2) + "." + new + "".join("." + x for x in path[k:])
            n = fields.get(plain(label)) or labels.get(plain(label[:1].lower() + label[1:])) or (label.endswith("_lem") and labels.get(plain(label[:-4]))) or labels.get(plain(re.sub(r"\d+$", "", label)))
            return m.group(1) + m.group(2) + "." + (n or label) + (m.group(4) or "")

        t = re.sub(r"(?<![\w.'\-])(" + IDENT + r"|\([^()]*\))((?:\.before)*)\.(" + IDENT + r")((?:\.(?:given|ensures|keys\d+|[01])(?![\w\-]))*)", step, t)
        t = t.replace(".well-formed", ".well_formed")
        t = re.sub(r"\.(" + IDENT + r")", lambda m: "." + (spelled.get(plain(m.group(1)), m.group(1)) if "-" in m.group(1) else m.group(1)), t)
        t = re.sub(r"\.t([1-9])(?![\w\-])", lambda m: "." + own_params[int(m.group(1)) - 1] if int(m.group(1)) <= len(own_params) and m.group(0)[1:] not in own_params else m.group(0), t)
        # a test `!b` says what b is
        t = re.sub(r"not-(?:true|false) _ (?=[\w.]*\.if-not-)", "", t)
        # a chain of `before` in front of a field
        t = re.sub(r"(?:\.before)+(?!\.before(?![\w\-]))(?=\.[A-Za-z_])", "", t)
        t = cite(t, r"(\.requires)", own_req)
        t = whole(t, r"\.requires", own_req)
        for b, callee in callees.items():
            r, e, _ = laws.get(callee, ([], [], []))
            t = cite(t, r"(\." + re.escape(b) + r"\.ensures)", e)
            t = whole(t, r"\." + re.escape(b) + r"\.ensures", e)
        return t

    # which goal each answer is for
    rename, answers, helpers = {}, [], []
    inv_out = []
    spec = None
    for g in order:
        if g.name is None:
            helpers.append(g)
            continue
        m = re.search(r": tie\.(Need-[\w\-']+|invariant-[\w\-']+|decreases-[\w\-']+)", g.sig)
        if "statement M" in g.sig:
            spec = g
        elif m and m.group(1).startswith("Need-"):
            w = m.group(1)[5:]
            new = goal_of.get(plain(w))
            if new is None:
                print(f"{old}: no goal {w}")
                continue
            answers.append((g, new))
            rename[g.name] = new
        elif m:
            inv_out.append((g, m.group(1)))
        else:
            helpers.append(g)
    # answers that stood in the call of `spec`
    inline = []
    if spec:
        args = arguments("\n".join(spec.clauses))
        args = args[len(inv_names):]
        if len(args) != len(needs):
            print(f"{old}: {len(args)} arguments for {len(needs)} goals")
        else:
            for a, (w, new) in zip(args, needs):
                if a.startswith("(") and not re.match(r"\(λ [\w₀-₉ ]+\. search rules\)$", a):
                    if a not in [x for x, _ in inline]:
                        inline.append((a, new))
                    else:
                        inline.append((a, new))

    def renamed(t):
        return TOKEN.sub(lambda m: rename.get(m.group(0), m.group(0)), t)

    out = []
    taken = set()
    for g in helpers:
        out.append((g.lead, turn(renamed(g.text()) if g.name not in rename else g.text())))
    for g, new in answers:
        if new in taken:
            print(f"{old}: two answers for {new}")
        taken.add(new)
        body = "\n".join(g.clauses)
        body = turn(renamed(body))
        # the call of a function takes no lifetimes here
        body = re.sub(r"(?m)^(" + re.escape(new) + r" c) κs =", r"\1 =", body)
        if len(own_ens) > 1 and new.startswith("returns"):
            body = tail_record(body, own_ens)
        if not g.unfolding and re.match(re.escape(new) + r" [\w₀-₉ ]+= search rules$", body):
            continue
        out.append((g.lead, f"pub {new} : goal.{new}" + ("\n" + turn(g.unfolding) if g.unfolding else "") + "\n" + body))
    for a, new in inline:
        if new in taken:
            continue
        taken.add(new)
        m = re.match(r"\(λ ([\w₀-₉ ]+)\. (.*)\)$", a, re.S)
        if m:
            body = f"{new} {m.group(1).split()[0]} = {m.group(2)}"
        else:
            body = f"{new} c = {a[1:-1]} c"
        body = turn(renamed(body))
        if len(own_ens) > 1 and new.startswith("returns"):
            body = tail_record(body, own_ens)
        out.append(([], f"pub {new} : goal.{new}\n{body}"))

    base = f"Rattle.{crate}.proofs.{where}"
    keep = [turn(u) for u in uses if not re.search(r"\.(Statement|Tie)(\.| as|$)", u) and f"{base}.Tie" not in u and f"{base}.Statement" not in u]
    if inv_out:
        res = []
        used = " ".join(c for g, _ in inv_out for c in g.clauses)
        inv_help = [g for g in helpers if g.name and re.search(r"(?<![\w\-.])" + re.escape(g.name) + r"(?![\w\-'])", used) and "tie." not in g.sig]
        for g in inv_help:
            t = g.text()
            if not re.match(r"(abbrev pub|pub|unfoldable pub)", t):
                t = re.sub(r"^(abbrev |unfoldable )?", lambda m: (m.group(1) or "") + "pub ", t)
            res.append("\n".join([x for x in g.lead if x.strip()] + [t]))
            out = [o for o in out if not o[1].startswith(turn(g.text())[:40])]
        for g, what in inv_out:
            kind, loop = what.split("-", 1)
            new, live, changed = loops.get(plain(loop), (loop, None, None))
            clause = "\n".join(g.clauses)
            m = re.match(re.escape(g.name) + r"((?: [^\s=]+)*) =(.*)$", clause, re.S)
            params = m.group(1).split()
            body = m.group(2)
            values = None
            if live is not None:
                ch = [v for v, c in zip(live, changed) if c]
                values = [f"l.initial.{v}" if c else f"l.{v}" for v, c in zip(live, changed)] + [f"l.{v}" for v in ch]
            if values is None or len(values) != len(params):
                print(f"{old}: loop {loop}: parameters {params} for {live} {changed}")
            else:
                sub = dict(zip(params, values))
                body = re.sub(r"(?<![\w'\-.])" + IDENT, lambda k: sub.get(k.group(0), k.group(0)), body)
            lead = [x for x in g.lead if x.strip()]
            res.append("\n".join(lead + [f"abbrev pub {kind}-{new} : goal.{kind}-{new}", f"{kind}-{new} l ={body}"]))
        with open(os.path.join(folder, "Invariants.antt"), "w", encoding="utf-8") as f:
            f.write("\n".join(head + keep + [f"use {base}.Given as goal", ""]) + "\n" + "\n\n".join(res) + "\n")
        if inv_help:
            keep.append(f"use {base}.Invariants.{{{', '.join(g.name for g in inv_help)}}}")
        head = []
    if any("goal." in o[1] for o in out):
        with open(os.path.join(folder, "Answers.antt"), "w", encoding="utf-8") as f:
            f.write("\n".join(head + keep + [f"use {base}.Goals as goal", ""]) + "\n" + "\n\n".join("\n".join([x for x in lead if x.strip()] + [t]) for lead, t in out) + "\n")
    os.rename(old, os.path.join(folder, "Proof.txt"))


main(sys.argv[1], sys.argv[2], sys.argv[3:])
