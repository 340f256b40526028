#!/usr/bin/env python3
"""Lists the places of the design pass in the crates' sources, point by point, and counts them.

    python3 tools/design_places.py [FOLDER]     the tree at FOLDER (the repository itself where none is given)
    python3 tools/design_places.py --brief ..   the counts alone

It goes by text, so each place is then read: docs/DESIGN-PASS.md says what was changed and what stays.
"""
import difflib
import itertools
import pathlib
import re
import sys

brief = "--brief" in sys.argv
args = [a for a in sys.argv[1:] if not a.startswith("--")]
root = pathlib.Path(args[0]) if args else pathlib.Path(__file__).resolve().parent.parent
files = sorted(p for p in root.glob("crates/*/src/*.rt"))
text = {p: p.read_text() for p in files}
code = {p: [l for l in t.split("\n") if not l.lstrip().startswith(("//", "ghost "))] for p, t in text.items()}


def functions(p):
    """(name, head, clauses, body) of each function of a file that has a body."""
    lines = text[p].split("\n")
    for i, line in enumerate(lines):
        m = re.match(r"\s*(?:pub(?:\(crate\))? )?fn (\w+)", line)
        if not m:
            continue
        clauses = list(itertools.takewhile(lambda l: not re.match(r"\s*(pub(\(\w+\))? )?fn ", l), lines[i + 1:]))
        clauses = [l.strip() for l in clauses if re.match(r"\s*(requires|ensures)\b", l)]
        rest = "\n".join(l for l in lines[i:] if not re.match(r"\s*(requires|ensures|//)", l))
        depth = 0
        start = None
        for k, ch in enumerate(rest):
            depth += (ch in "([{") - (ch in ")]}")
            if ch == ";" and depth == 0:
                break
            if ch == "{" and depth == 1 and start is None:
                start = k
            if ch == "}" and depth == 0 and start is not None:
                yield m.group(1), rest[:start], clauses, rest[start + 1:k]
                break


every = [(p, *f) for p in files for f in functions(p)]


def show(point, title, places):
    print(f"{point}. {title}: {len(places)}")
    if not brief:
        for place in places:
            print("    " + place)


def grep(pattern):
    out = []
    for p, lines in code.items():
        for l in lines:
            if re.search(pattern, l):
                out.append(f"{p.relative_to(root / 'crates')}: {l.strip()[:100]}")
    return out


show(1, "enums", grep(r"^\s*(pub(\(crate\))? )?enum "))
show(1, "flags in structs", grep(r"^    (pub(\(crate\))? )?\w+: bool,"))
show(1, "functions from or to a number for a kind", grep(r"fn \w*(code|number)\w*\(|-> u8$|TryFrom<u8>|> for u8"))

# Twins: bodies of three lines or more that are nearly the same once types, families and halves have one word.
WORDS = (r"\b(u8|u16|u32|u64|i8|i16|i32|i64|f32|f64|U8|U16|U32|U64|I8|I16|I32|I64|F32|F64)\b",
         r"(?i)(unsigned|signed|floats?|left|right|counts?|sums?|partial|final|answer|scalar|saturated|states?)")


def plain(body):
    for w in WORDS:
        body = re.sub(w, "W", body)
    return re.findall(r"\w+|[^\w\s]", body)


groups = []
for p, name, head, clauses, body in every:
    if p.name == "tests.rt" or body.count("\n") < 2:
        continue
    mine = plain(body)
    for g in groups:
        if abs(len(g[0]) - len(mine)) < 12 and difflib.SequenceMatcher(None, g[0], mine, autojunk=False).ratio() >= 0.92:
            g[1].append(f"{p.relative_to(root / 'crates')}:{name}")
            break
    else:
        groups.append((mine, [f"{p.relative_to(root / 'crates')}:{name}"]))
show(2, "groups of functions with nearly one body", [f"{len(g)} x " + ", ".join(g) for _, g in groups if len(g) > 1])
show(2, "functions of one line that stand in three impls or more", [
    f"{n} x {name}" for name, n in sorted(
        ((k, len(list(v))) for k, v in itertools.groupby(sorted(e[1] for e in every if e[4].count("\n") < 3 and e[0].name != "tests.rt")))) if n > 2])
show(2, "matches with an arm for each of the ten types", [
    f"{p.relative_to(root / 'crates')}:{name}" for p, name, head, clauses, body in every
    if len(re.findall(r"::(?:U8|U16|U32|U64|I8|I16|I32|I64|F32|F64)\b.*=>|\"(?:u8|u16|u32|u64|i8|i16|i32|i64|f32|f64)\" =>", body)) >= 10])

show(3, "loops", grep(r"^\s*('\w+: )?(for|while|loop)\b"))
show(3, "indices or cursors moved by hand", grep(r"^\s*(\w+ \+= 1;|rest = after;|from = stretch\.end;)"))

show(4, "conversions, tests and texts by hand", [
    f"{p.relative_to(root / 'crates')}:{name}" for p, name, head, clauses, body in every
    if p.name != "tests.rt" and re.match(r"(from_\w+|to_\w+|is_same|value|code|number|words|\w+_(text|name|named|from_value|to_bits|from_bits)|type_name)$", name)])
show(4, "matches that only hand an error or a none on", grep(r"Err\((refusal|reason|e|_)\) => (return )?Err\(|None => None,|None => (return )?Err\(|^\s*Ok\(\(\)\) => \{\}"))

pairs = {}
for p, name, head, clauses, body in every:
    names = re.findall(r"(\w+): ", head.split("->")[0])
    for a, b in itertools.combinations(sorted(set(names)), 2):
        pairs.setdefault((a, b), set()).add(f"{p.parent.parent.name}:{name}")
show(5, "pairs of parameters in five functions or more", [
    f"{a}, {b}: {len(fs)}" for (a, b), fs in sorted(pairs.items()) if len(fs) >= 5])
facts = {}
for p, name, head, clauses, body in every:
    for c in clauses:
        if c.startswith("requires"):
            facts.setdefault(re.sub(r"\s+", " ", c), set()).add(name)
show(5, "facts that two functions or more require", [f"{len(fs)} x {c[:90]}" for c, fs in facts.items() if len(fs) > 1])
show(5, "clauses that name a private field of a board", [
    f"{p.parent.parent.name}:{name}" for p, name, head, clauses, body in every if any(".sites.now" in c for c in clauses)])

show(6, "lent slices, places in a table, and lengths", grep(r"^\s*(pub )?(row|page|records|bits|record|len|lines): "))
show(7, "switches on a call or a step, tables of functions, closures, dyn", grep(r"match (call|step|op)\b|: fn\(|\bdyn |impl Fn|: Fn\w*\(|F: Fn"))

answers = [l for p in root.glob("crates/*/proofs/**/Answers.antt") for l in p.read_text().split("\n") if re.match(r"(pub )?\S+ : goal\.", l)]
invariants = [l for p in root.glob("crates/*/proofs/**/Invariants.antt") for l in p.read_text().split("\n") if re.match(r"abbrev pub \S+ : goal\.", l)]
lemmas = [l for p in root.glob("crates/*/proofs/*.antt") for l in p.read_text().split("\n") if re.match(r"\s*(pub )?[A-Za-z]\S* : ", l)]
print(f"8. answers: {len(answers)}; invariants and measures: {len(invariants)}; lemmas in proofs/: {len(lemmas)}")
