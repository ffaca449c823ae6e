#!/usr/bin/env python3
"""places.py [-v]: counts, in crates/*/src and crates/*/proofs, the places where an older form of the language may stand, point by point, and with -v
lists each with its file, line and function. A row is a place to look at, and not yet a fault."""
import collections, glob, os, re, sys

NUMBER = re.compile(r"^\s*[\w:]+(\(\w*\))? => (b'.'|\d+),?$|^\s*(b'.'|\d[\d_]*) => ")
NAME = re.compile(r"^\s*[\w:]+(::\w+)+ => (b?\"|Some\(|Ok\()|^\s*b?\".*\" => ")
places = collections.defaultdict(list)


def note(point, what, place, text):
    places[(point, what)].append((place, " ".join(text.split())))


def functions(path):
    """(name, first line, head, body lines) of each function of a file"""
    lines = open(path, encoding="utf-8").read().split("\n")
    i = 0
    while i < len(lines):
        m = re.match(r"(\s*)(pub(\([a-z]+\))? )?(const |unsafe |extern \"C\" )*fn (\w+)", lines[i])
        if not m:
            i += 1
            continue
        j = i
        opened = False
        while j < len(lines) and lines[j] != m.group(1) + "}" and (opened or not lines[j].endswith(";")):
            opened = opened or lines[j] == m.group(1) + "{" or lines[j].endswith(" {")
            j += 1
        text = lines[i:j + 1]
        k = next((n for n, l in enumerate(text) if l == m.group(1) + "{" or l.rstrip().endswith("{") and "{ " not in l), len(text))
        yield m.group(5), i + 1, " ".join(" ".join(text[:k + 1]).split()), text[k:]
        i = j + 1


KEPT = "let mut in if else match for while loop return true false Some None Ok Err self Self".split()
facts, pairs, names, runs, shapes = (collections.defaultdict(set) for _ in range(5))
for path in sorted(glob.glob("crates/*/src/*.rt")):
    lines = open(path, encoding="utf-8").read().split("\n")
    struct = None
    for n, l in enumerate(lines, 1):
        if re.match(r"\s*(pub(\([a-z]+\))? )?enum ", l):
            note(1, "enums of our own", f"{path}:{n}", l)
        if re.match(r"\s+(pub(\([a-z]+\))? )?\w+: bool,", l):
            note(1, "flags in structs and variants", f"{path}:{n}", l)
        m = re.match(r"(pub(\([a-z]+\))? )?struct (\w+)", l)
        if m:
            struct, held, counts, at = m.group(3), False, [], n
        if struct and l == "}":
            if held and counts:
                note(6, "structs with bytes and numbers beside them", f"{path}:{at}", struct + ": " + ", ".join(counts))
            struct = None
        if struct and re.search(r": &('\w+ )?(mut )?\[", l):
            held = True
        if struct and re.search(r"\b\w+: usize,", l) and "ghost" not in l:
            counts.append(l.strip().rstrip(","))
        if re.search(r"fn\(|\[fn|dyn ", l) and not l.lstrip().startswith("//"):
            note(7, "function pointers and dyn", f"{path}:{n}", l)
    for name, at, head, body in functions(path):
        place = f"{path}:{at} {name}"
        code = [l for l in body if not l.strip().startswith("//")]
        if sum(bool(NUMBER.match(l)) for l in code) >= 2:
            note(1, "numbers for kinds, by a table of arms", place, head[:90])
        if sum(bool(NAME.match(l)) for l in code) >= 2 and "fn fmt" not in head:
            note(4, "kinds to and from texts by a table of arms", place, head[:90])
        if any("matches!(self, " in l for l in code):
            note(4, "equality of a kind by hand", place, head[:90])
        if re.match(r"\s*(pub )?fn (eq|cmp|partial_cmp|clone|hash)\(", head):
            note(4, "equality, order or copying by hand", place, head[:90])
        if re.search(r"-> &'static str", head):
            note(4, "printing by a function to text", place, head[:90])
        for k, l in enumerate(code):
            if re.match(r"\s*('\w+: )?for \w+ in \d+\.\.", l):
                note(3, "for over a range of indices", place, l)
            if re.match(r"\s*('\w+: )?(while|loop)\b", l):
                inside = code[k + 1:]
                if any(re.search(r"\b\w+(\.\w+)? [+-]= ", x) or re.search(r"\brest = ", x) or re.search(r"\bat = ", x) for x in inside):
                    note(3, "while or loop with a place counted by hand", place, l)
                else:
                    note(3, "other while or loop", place, l)
            if re.match(r"\s*for \w+ in ", l) and not re.match(r"\s*for \w+ in \d+\.\.", l) and any(re.search(r"\b(n|at|i|number|place) \+= ", x) for x in code[k + 1:]):
                note(3, "for with a place counted beside it", place, l)
            if re.match(r"\s*for \w+ in ", l) and any(re.match(r"\s*return (true|false|Some|i;)", x) for x in code[k + 1:]):
                note(3, "for that searches", place, l)
        for c in re.findall(r"(?:requires|ensures) (?:\w+ )?\{ (.*?) \}", head):
            for f in re.split(r" × ", c):
                if "result" not in f:
                    facts[f.strip("() ")].add(place)
        params = re.findall(r"(\w+): (&?(?:'\w+ )?(?:mut )?[\w\[\]]+)", head.split(" -> ")[0])
        for a in range(len(params)):
            for b in range(a + 1, len(params)):
                pairs[params[a] + params[b]].add(place)
        if any("[u8]" in t for _, t in params) and any(t == "usize" for _, t in params):
            note(6, "functions of bytes and a number beside them", place, head[:90])
        if name not in ("fmt", "from", "new", "of", "read", "next") and "/house_cases/" not in path and "_cases/" not in path:
            names[name].add(place)
        arms = [l for l in code if re.match(r"\s*[\w:]+(\(.*\)|\{.*\})? => \w+\(.*\),?$", l)]
        if len(arms) >= 4:
            note(7, "a match that picks the step to run", place, head[:90])
        plain = [" ".join(l.split()) for l in code if l.strip() not in ("", "{", "}", "});", ")", "Ok(())", "#[test]")]
        for k in range(len(plain) - 5):
            runs[tuple(plain[k:k + 6])].add(place)
        if "#[test]" not in lines[at - 2]:
            shape = tuple(re.sub(r"b?'(\\\\)?.'|b?\"[^\"]*\"|\b\d[\d_]*\b|[A-Za-z_]\w*(?=\()|\b[a-z_]\w*\b(?!\()|\b[A-Z]\w*\b", lambda m: m.group(0) if m.group(0) in KEPT else "x", l) for l in plain)
            if len(shape) >= 3:
                shapes[shape].add(place)
for f, ps in facts.items():
    if len(ps) >= 3:
        note(5, "a fact in the contracts of three functions or more", sorted(ps)[0], f"{f}: {len(ps)}")
for p, ps in pairs.items():
    if len(ps) >= 3 and p[1] != p[3]:
        note(5, "two parameters together in three functions or more", sorted(ps)[0], f"{p[0]}, {p[2]}: {len(ps)}")
for n, ps in names.items():
    if len({p.split(":")[0] for p in ps}) >= 2:
        note(2, "functions of one name in two files", " and ".join(sorted(ps)), n)
for s, ps in shapes.items():
    if len(ps) >= 2:
        note(2, "functions of one shape, of three lines or more", " and ".join(sorted(ps)), f"{len(s)} lines")
twice = collections.defaultdict(int)
for r, ps in runs.items():
    if len(ps) >= 2:
        twice[tuple(sorted(ps))] += 1
for ps, n in twice.items():
    note(2, "functions that share six lines or more", " and ".join(ps), f"{n + 5} lines")
for crate in sorted(glob.glob("crates/*/proofs")):
    answers = lemmas = lines = 0
    text = {}
    for d, _, ns in os.walk(crate):
        for n in ns:
            if n.endswith(".antt"):
                t = open(os.path.join(d, n), encoding="utf-8").read()
                text[os.path.join(d, n)] = t
                lines += t.count("\n")
                found = len(re.findall(r"^(?:abbrev |unfoldable )?(?:pub )?(?!use|mod)[\w◌\-]+ :", t, re.M))
                if n in ("Answers.antt", "Invariants.antt", "Choices.antt"):
                    answers += found
                else:
                    lemmas += found
    note(8, "proofs", crate, f"{answers} answers and invariants, {lemmas} lemmas, {lines} lines")

for point in range(1, 9):
    for (p, what), found in places.items():
        if p == point:
            print(f"{p} {what}: {len(found)}")
            if "-v" in sys.argv or p == 8:
                for place, text in found:
                    print(f"    {place}: {text}")
