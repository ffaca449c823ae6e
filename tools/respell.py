#!/usr/bin/env python3
"""Brings the names of this repository's own definitions and lemmas to snake case: `wellFormed` and `well-formed` become `well_formed`.

usage: python3 tools/respell.py [--look]      at the top of the repository, once, right after the kit's port.py

It takes what specs/ and proofs/ declare (definitions, lemmas, constructors and fields of records) and the ghost members of src/.
A name with a capital at its front names a type: it stays, but a hyphen behind it becomes an underscore.
Labels that the kit makes, as `loop-x-preserved` of a goal, stay. Rust's names, strings and prose stay.
--look writes nothing and lists the names that would fall together.
"""
import collections
import os
import re
import sys

NAME = r'[^\s(){}.;,@"«»]+'
KINDS = r"(?:abbrev |unfoldable |pub |data |record )*"
BINDERS = r"(?:\{[^}\n]*\} |\([^)\n]*\) )*"
DECLARED = re.compile(rf"(?m)^ *({KINDS})({NAME}) {BINDERS}: ?(.*)$")
GHOST = re.compile(r"\bghost (\w+)\s*[:=]")
# names that would fall together with another one, each with the spelling that keeps them apart
APART = {
    "code-in": "code_in_holds",
    "command-reply": "command_reply_holds",
    "dots-from": "dots_from_holds",
    "front-in": "front_in_holds",
    "in-columns": "in_columns_holds",
    "line-in": "line_in_holds",
    "path-in": "path_in_holds",
    "records-behind": "records_behind_holds",
    "shaken-by": "shaken_by_holds",
    "stuff-from": "stuff_from_holds",
    "tag-by-table": "tag_by_table_holds",
    "whole-behind": "whole_behind_holds",
    "without-dot": "without_dot_holds",
    "write-back": "write_back_holds",
    "write-by-table": "write_by_table_holds",
}


def files(root, ends):
    for folder, inside, names in os.walk(os.path.join(root, "crates")):
        inside[:] = sorted(d for d in inside if d != "out")
        for name in sorted(names):
            if name.endswith(ends):
                yield os.path.join(folder, name)


def text(path):
    with open(path, encoding="utf-8", newline="") as f:
        return f.read()


def snake(name):
    words = re.sub(r"(?<=[a-z0-9])[A-Z]", lambda m: "_" + m[0].lower(), name) if name[0].islower() else name
    return words.replace("-", "_")


def declared(root):
    """The names that the repository's own texts declare, each with the files that do."""
    found = collections.defaultdict(set)
    for path in files(root, ".antt"):
        for kinds, name, kind in DECLARED.findall(text(path)):
            if not kind.startswith("goal.") and not re.match(r"(goal|ghost)\b", name):
                found[name].add(path)
    for path in files(root, ".rt"):
        for name in GHOST.findall(text(path)):
            found[name].add(path)
    return found


def table(found):
    return {n: APART.get(n, snake(n)) for n in found if APART.get(n, snake(n)) != n and re.search(r"[a-z]", n)}


def code_spans(line):
    """A line of antt, cut into code and what is none: strings and comments."""
    return re.split(r'("(?:[^"\\]|\\.)*"|(?:(?<=\s)|^)--.*$)', line)


def turn_code(code, rows):
    def one(m):
        before = code[: m.start()]
        # a label of the kit's: what stands behind goal. or a step of a proof's facts
        if re.search(r"(?:^|[\s(])(?:goal|c|w|l|g)(?:\.[^\s().]+)*\.$", before) and m[0] not in FIELDS:
            return m[0]
        return rows.get(m[0], m[0])

    return re.sub(NAME, one, code)


FIELDS = set()


def turn_antt(source, rows):
    out = []
    for line in source.split("\n"):
        parts = code_spans(line)
        out.append("".join(p if i % 2 else turn_code(p, rows) for i, p in enumerate(parts)))
    return "\n".join(out)


CLAUSE = re.compile(r"\bghost use [^;]*;|\b(?:requires|ensures)\*?(?: \w+)? \{|\bghost(?: \w+)?(?:\s*[:=])? \{|\bghost \w+(?=\s*[:=])")


def turn_rt(source, rows):
    """Only clauses, ghost members and `ghost use` lines turn."""
    out, at = [], 0
    while m := CLAUSE.search(source, at):
        out.append(source[at : m.start()])
        end = m.end()
        if m[0].endswith("{"):
            depth = 1
            while depth:
                depth += {"{": 1, "}": -1}.get(source[end], 0)
                end += 1
        out.append(turn_code(source[m.start() : end], rows))
        at = end
    out.append(source[at:])
    return "".join(out)


def turn_edit(source, rows):
    """An edit's lines turn where they are of specs/, or a clause of src/."""
    antt = re.match(r"file: .*\.antt", source)
    out = []
    for line in source.split("\n"):
        head = re.match(r"(old|new): ", line)
        body = line[5:]
        if head and (antt or re.match(r"\s*(requires|ensures|ghost)\b", body)):
            line = line[:5] + (turn_antt(body, rows) if antt else turn_rt(body, rows))
        out.append(line)
    return "\n".join(out)


def look(root, found, rows):
    meets = collections.defaultdict(set)
    for old, new in rows.items():
        meets[new].add(old)
    used = collections.defaultdict(set)
    for path in files(root, (".antt", ".rt")):
        for line in text(path).split("\n"):
            code = "".join(code_spans(line)[::2]) if path.endswith(".antt") else line
            for word in re.findall(NAME if path.endswith(".antt") else r"[\w']+", code):
                if word in meets:
                    used[word].add(path)
    for new, olds in sorted(meets.items()):
        others = sorted(olds) + [new + " itself"] * (new in found)
        if len(others) > 1 or used[new]:
            print(new, "<-", others, "; used in", sorted(p.split("crates/")[1] for p in used[new])[:6])


def main(argv):
    root = os.getcwd()
    found = declared(root)
    rows = table(found)
    for path in files(root, ".antt"):
        for m in re.finditer(rf"(?m)^ +pub ({NAME}) {BINDERS}:", text(path)):
            FIELDS.add(m[1])
    if argv == ["--look"]:
        return look(root, found, rows)
    for path in files(root, (".antt", ".rt", ".edit")):
        turn = turn_antt if path.endswith(".antt") else turn_rt if path.endswith(".rt") else turn_edit
        old = text(path)
        new = turn(old, rows)
        if new != old:
            with open(path, "w", encoding="utf-8", newline="") as f:
                f.write(new)
    print(f"respell: {len(rows)} names")


if __name__ == "__main__":
    sys.exit(main(sys.argv[1:]))
