#!/usr/bin/env python3
"""Places in src/ that today's Rattle can say in a plainer form, counted by the points of docs/DESIGN-PASS.md.

    tools/places.py [--list POINT] [FOLDER]     FOLDER holds the crates (default: crates)

Each count is of places to look at, found by their text; which of them stay, and why, stands on that page.
"""
import collections
import pathlib
import re
import sys

INTEGER = r"(?:u8|u16|u32|u64|usize|i32)"
FUNCTION = re.compile(r"^(?P<indent> *)(?:pub )?(?:extern \"C\" )?fn (?P<name>\w+)", re.M)


class Function:
    def __init__(self, crate, path, name, head, body, line):
        self.crate, self.path, self.name, self.head, self.body, self.line = crate, path, name, head, body, line

    def where(self):
        return f"{self.path}:{self.line} {self.name}"


def plain(text):
    """The text without its comments."""
    return re.sub(r"//[^\n]*", "", text)


def functions(crate, path, text):
    """Every function with a body: its head (parameters and clauses) and its body."""
    for found in FUNCTION.finditer(text):
        indent = found["indent"]
        end = re.compile(rf"^{indent}}}$", re.M).search(text, found.end())
        if not end:
            continue
        whole = text[found.start():end.end()]
        start = re.search(rf"^{indent}{{$", whole, re.M)
        cut = start.start() if start else whole.find("{")
        line = text.count("\n", 0, found.start()) + 1
        yield Function(crate, path, found["name"], whole[:cut], whole[cut:], line)


def blocks(text, word):
    """The enums or structs: name, body and whether C sees them."""
    for found in re.finditer(rf"^(?:#\[([^\n]*)\]\n)*(?:pub )?{word} (\w+)[^\n;(]*\{{\n(.*?)^\}}", text, re.M | re.S):
        yield found[2], found[3], "repr(C)" in text[max(0, found.start() - 40):found.start(3)]


def option_like(body):
    """Two variants, one at least with something in it."""
    variants = re.findall(r"^    (\w+)([ ({]?)", body, re.M)
    return len(variants) == 2 and any(with_in.strip() for _, with_in in variants)


def flagged(body):
    """A field that says which state, and another beside it."""
    fields = re.findall(r"^    (?:pub )?(\w+): ([^\n]+),", body, re.M)
    tells = [kind for name, kind in fields if re.fullmatch(r"Verdict|Outcome|Answer|Found", kind) or (kind == "bool" and re.fullmatch(r"fine|found|refused|begins|given|there", name))]
    return bool(tells) and len(fields) > 1


def shape(body):
    """The body with every name, number and type in the place of the first, second .. one."""
    seen = {}

    def numbered(found):
        return seen.setdefault(found[0], f"#{len(seen)}")

    words = re.sub(r"\b(?:if|else|while|for|in|let|mut|return|match|loop|true|false|as|fn|pub)\b", lambda found: found[0].upper(), body)
    return re.sub(r"\b[a-z_0-9]\w*\b|\b[A-Z]\w*::\w+|\b[A-Z][a-z]\w*\b", numbered, re.sub(r"\s+", " ", words))


def counted_loops(body):
    """The heads of the loops that count a name up or down by hand."""
    for found in re.finditer(r"^( *)(?:'\w+: )?while ([^\n]*)\{\n(.*?)^\1\}", body, re.M | re.S):
        names = re.findall(r"\b[a-z_]\w*\b", found[2])
        if any(re.search(rf"^ *{name} [-+]= 1;", found[3], re.M) for name in names):
            yield found[2].strip()
    for found in re.finditer(r"^( *)loop \{\n(.*?)^\1\}", body, re.M | re.S):
        if re.search(r"^ *\w+ \+= 1;", found[2], re.M):
            yield "loop"


def parameters(head):
    inner = re.search(r"\((.*?)\)\s*(?:->|$|\n\s*(?:requires|ensures))", head, re.S)
    return [re.sub(r"\s+", " ", part).strip() for part in inner[1].split(",\n" if ",\n" in inner[1] else ", ")] if inner else []


def survey(top):
    found = collections.defaultdict(list)
    alike = collections.defaultdict(list)
    clauses = collections.defaultdict(set)
    runs = collections.defaultdict(set)
    for path in sorted(pathlib.Path(top).glob("*/src/*.rt")):
        crate = path.parts[-3]
        text = plain(path.read_text())
        for name, body, _ in blocks(text, "enum"):
            if option_like(body):
                found["1 own Option or Result"].append(f"{path} {name}")
        for name, body, of_c in blocks(text, "struct"):
            if not of_c and flagged(body):
                found["1 flag beside a value"].append(f"{path} {name}")
            arrays = collections.Counter(re.findall(r": \[[^;]+; ([^\]]+)\]", body))
            if not of_c and any(many > 1 for many in arrays.values()):
                found["6 parallel arrays in a struct"].append(f"{path} {name}")
        for one in functions(crate, path, text):
            for name, kind in re.findall(rf"\b(kind|edition|status|head|previous|wide|number): ({INTEGER})\b", one.head):
                found["1 number for a kind"].append(f"{one.where()} {name}: {kind}")
            if one.body.count("\n") >= 3:
                alike[shape(one.body)].append(one.where())
            for head in counted_loops(one.body):
                found["3 index loop"].append(f"{one.where()} {head}")
            for line in re.findall(r"\.0 (?:==|!=|<=?|>=?) [\w.()]+\.0\b", one.body):
                found["4 comparison by .0"].append(f"{one.where()} {line}")
            for kind in re.findall(rf"\bas ({INTEGER})\b", one.body):
                found["4 cast"].append(f"{one.where()} {kind}")
            for call in re.findall(r"\b(?:figures::)?(place|wide|smaller|larger|lower|number_at|count_at|value_at|byte_at)\(", one.body):
                found["4 conversion or order by a function of its own"].append(f"{one.where()} {call}")
            for clause in re.findall(r"requires(?: \w+)? \{ (.*?) \}$", one.head, re.M):
                clauses[clause].add(one.where())
            arrays = [part for part in parameters(one.head) if re.search(r"\[(?:u8|u32|u64|usize|bool)", part)]
            if len(arrays) > 1:
                found["6 parallel arrays as parameters"].append(one.where())
            names = [part.removeprefix("mut ") for part in parameters(one.head)]
            for start in range(len(names) - 2):
                runs[tuple(names[start:start + 3])].add(one.where())
            for arms in re.findall(r"match [^\n]*\{\n(.*?)\n *\}", one.body, re.S):
                if len(re.findall(r"=> (?:\w+::)?[a-z_]\w*\(", arms)) > 2:
                    found["7 switch over steps"].append(one.where())
    for many in alike.values():
        if len(many) > 1:
            found["2 bodies alike"].append(" = ".join(many))
    for clause, many in clauses.items():
        if len(many) > 2:
            found["5 clause in three contracts or more"].append(f"{len(many)} x {clause}")
    for run, many in runs.items():
        if len(many) > 2:
            found["5 three parameters together in three functions or more"].append(f"{len(many)} x {', '.join(run)}")
    answers = [path for path in sorted(pathlib.Path(top).glob("*/proofs/*/Answers.antt"))]
    found["8 files of answers"] = [str(path) for path in answers]
    found["8 lines of answers and invariants"] = [line for path in sorted(pathlib.Path(top).glob("*/proofs/*/*.antt")) for line in path.read_text().splitlines()]
    return found


def main():
    words = sys.argv[1:]
    wanted = None
    if words[:1] == ["--list"]:
        wanted, words = words[1], words[2:]
    found = survey(words[0] if words else "crates")
    for name in sorted(found):
        if wanted is None:
            print(f"{len(found[name]):6}  {name}")
        elif name.startswith(wanted):
            print(name)
            for place in found[name]:
                print(f"    {place}")


if __name__ == "__main__":
    main()
