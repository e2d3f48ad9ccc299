#!/usr/bin/env python3
"""Counts, in src/, the places that docs/DESIGN-PASS.md speaks of: `tools/places.py` prints the counts by point,
`tools/places.py 3` the places of point 3 as well. It goes by text, so a row is a place to look at and no verdict."""
import collections
import difflib
import glob
import re
import sys

FN = re.compile(r"^( *)((?:pub(?:\(\w+\))? )?(?:const )?fn (\w+).*?)^\1\{\}?$(.*?)(?=^\1\}$|^\1\S)", re.S | re.M)
FAULT = r"(?:StripFault|FileFault|Unready)"


def files():
    names = glob.glob("crates/*/src/**/*.rt", recursive=True)
    for name in sorted(names):
        text = re.sub(r"^ *//.*$", "", open(name).read(), flags=re.M)
        yield name, text


def functions():
    """Of each function: where it is, its head (with its clauses) and its body."""
    for name, text in files():
        flat = re.sub(r"^( *)((?:pub(?:\(\w+\))? )?fn \w+[^\n]*) \{$", r"\1\2\n\1{", text, flags=re.M)
        for m in FN.finditer(flat):
            yield name, m.group(3), m.group(2), m.group(4)


def shape(code):
    words = re.findall(r"[A-Za-z_]\w*|[0-9]\w*|[^\s\w]", code)
    keep = {"for", "in", "if", "let", "mut", "match", "return", "else", "fn", "pub", "struct", "as"}
    return " ".join(w if w in keep or not re.match(r"\w", w) else ("0" if w[0].isdigit() else "x") for w in words)


def ratio(one, two):
    return difflib.SequenceMatcher(None, one, two, autojunk=False).ratio()


def grep(pattern, flags=re.M):
    for name, text in files():
        for m in re.finditer(pattern, text, flags):
            yield f"{name}: {' '.join(m.group(0).split())}"


def own_options():
    yield from grep(rf"-> Option<{FAULT}>")
    yield from grep(rf"^ *if let Some\(\w+\) = .*\{{\n *return Err\(\w+\);")
    yield from grep(r"enum \w+ \{[^}]*\b(?:Done|Refused)\b[^}]*\}", re.S)
    yield from grep(r"(?:type|->) .*Option<\(u8.*")
    yield from grep(r"fn \w+\(\w+: u8\) -> [A-Z]\w+")


def twins():
    shapes = []
    for name, fn, head, body in functions():
        sig = re.split(r"^ *(?:requires|ensures)", head, flags=re.M)[0]
        if len(body.split()) > 5:
            shapes.append((name, fn, shape(re.sub(r"fn \w+", "fn f", sig) + body).split()))
    for name, text in files():
        for m in re.finditer(r"^pub struct (\w+) \{.*?^\}", text, re.S | re.M):
            shapes.append((name, f"struct {m.group(1)}", shape(m.group(0)).split()))
    for i, (name, fn, one) in enumerate(shapes):
        for other, gn, two in shapes[i + 1 :]:
            crates = name.split("/")[1], other.split("/")[1]
            alike = one == two or (crates[0] == crates[1] and len(one) > 40 and ratio(one, two) > 0.85)
            if alike and fn != "inv_" + gn and gn != "inv_" + fn:
                yield f"{name}: {fn}  ~  {other}: {gn}"
    names = collections.defaultdict(list)
    for name, fn, _, _ in functions():
        names[fn].append(name)
    for fn in sorted(names):
        for name in names.get("inv_" + fn, []):
            if name in names[fn]:
                yield f"{name}: {fn}  ~  inv_{fn}"


def index_loops():
    yield from grep(r"^ *for \w+ in \(?\w+\.\..*$")
    yield from grep(r"^ *while .*$")


def by_hand():
    yield from grep(r"fn (?:agree|tell|show|station|pile|named_place|\w*_word|put_number|header_block|show_\w+|told)\b[^\n]*")
    yield from grep(r"from_be_bytes\(\[.*")
    yield from grep(r"impl fmt::Display.*")


def repeated():
    clauses, groups = collections.defaultdict(set), collections.defaultdict(set)
    for name, fn, head, _ in functions():
        crate = name.split("/")[1]
        for clause in re.findall(r"(?:requires|ensures)(?: \w+)? \{(.*?)\}$", head, re.S | re.M):
            text = re.sub(r"\b(?:self|memory|entry|trailer|place|bytes)\b", "·", " ".join(clause.split()))
            clauses[crate, text].add(f"{name}: {fn}")
        plain = re.sub(r"fn \w+<.*?>\(", "fn f(", head.split("->")[0], flags=re.S)
        params = [(p, " ".join(t.split())) for p, t in re.findall(r"(\w+): (&?[^,)]+)", plain)]
        for a, b in zip(params, params[1:]):
            groups[crate, " + ".join(f"{p}: {t}" for p, t in (a, b))].add(f"{name}: {fn}")
    for what, found in (("clause", clauses), ("together", groups)):
        for (crate, text), where in sorted(found.items()):
            if len(where) > 2:
                yield f"{crate}: {what} {text[:110]} ({len(where)} functions)"


def beside():
    yield from grep(r"(?:place|buf|bytes): &mut \[u8\],\s+at: usize")
    yield from grep(r"calls: &\[Call\],\s+answers: &mut \[Answer\]")
    yield from grep(r"^ *used: usize.*$")


def switches():
    yield from grep(r"^ *match (?:way|change|act|pile|side)\b.*$")


def proofs():
    for crate in sorted(glob.glob("crates/*/proofs")):
        answers = lemmas = 0
        for name in glob.glob(crate + "/**/*.antt", recursive=True):
            text = open(name).read()
            kind = len(re.findall(r"^pub [\w-]+ : ", text, re.M))
            if name.endswith("Answers.antt"):
                answers += kind
            elif not name.endswith("Invariants.antt"):
                lemmas += len(re.findall(r"^(?:pub )?[\w-]+ : ", text, re.M))
        yield f"{crate}: {answers} answers, {lemmas} lemmas"


POINTS = [own_options, twins, index_loops, by_hand, repeated, beside, switches, proofs]

if __name__ == "__main__":
    wanted = {int(a) for a in sys.argv[1:]}
    for i, point in enumerate(POINTS, 1):
        rows = list(point())
        print(f"{i} {point.__name__}: {len(rows)}")
        if i in wanted:
            print("".join(f"    {row}\n" for row in rows), end="")
