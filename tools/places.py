#!/usr/bin/env python3
"""Lists the places in src/ that an older form of the language may have left, by the points of docs/DESIGN-PASS.md.

    tools/places.py [FOLDER]     every place, and a line of counts (FOLDER holds crates/; the repository by default)

A place that is listed is one to look at, not yet one to change.
"""
import collections
import pathlib
import re
import sys

ROOT = pathlib.Path(sys.argv[1] if len(sys.argv) > 1 else pathlib.Path(__file__).resolve().parent.parent)


def code_of(path):
    """The file's code: no comments and no clauses, each in place of blanks, so that lines keep their numbers."""
    text = path.read_text()
    text = re.sub(r"//[^\n]*", lambda m: " " * len(m.group()), text)
    out, i = [], 0
    for m in re.finditer(r"\b(requires|ensures|ghost)\b[^\n{=;]*=?\s*(use [^\n]*;|\{)", text):
        if m.start() < i:
            continue
        out.append(text[i:m.start()])
        end = m.end()
        if m.group().endswith("{"):
            depth = 1
            while depth:
                depth += {"{": 1, "}": -1}.get(text[end], 0)
                end += 1
        out.append(re.sub(r"[^\n]", " ", text[m.start():end]))
        i = end
    out.append(text[i:])
    return "".join(out)


def functions(code):
    """(name, parameters, result, body, offset) of each function with a body."""
    for m in re.finditer(r"\bfn (\w+)", code):
        i, depth = m.end(), 0
        while code[i] not in "{;" or depth:
            depth += {"(": 1, "[": 1, ")": -1, "]": -1}.get(code[i], 0)
            i += 1
        if code[i] == ";":
            continue
        head, end, depth = code[m.end():i], i + 1, 1
        while depth:
            depth += {"{": 1, "}": -1}.get(code[end], 0)
            end += 1
        yield m.group(1), head, code[i + 1:end - 1], m.start()


def shape(body):
    """The body with each name by its place of first use, and each number, text and operator as one."""
    names = {}
    tokens = re.findall(r"b?\"[^\"]*\"|b?'[^']+'|\d[\w.]*|\w+|[^\w\s]", body)
    keywords = {"if", "else", "match", "for", "in", "while", "let", "return", "mut", "self", "Some", "None", "Ok", "Err"}
    out = []
    for t in tokens:
        if re.match(r"[b]?[\"'\d]", t):
            out.append("0")
        elif t in keywords or not re.match(r"\w", t):
            out.append(t)
        else:
            out.append("n%d" % names.setdefault(t, len(names)))
    return tuple(out)


places = collections.defaultdict(list)
shapes = collections.defaultdict(list)
params = collections.defaultdict(list)
clauses = collections.defaultdict(list)

for path in sorted(ROOT.glob("crates/*/src/**/*.rt")):
    crate = path.relative_to(ROOT / "crates").parts[0]
    text, code = path.read_text(), code_of(path)
    where = str(path.relative_to(ROOT / "crates"))

    def at(offset):
        return "%s:%d" % (where, code.count("\n", 0, offset) + 1)

    def found(point, kind, pattern, source=code):
        for m in re.finditer(pattern, source):
            places[point].append((at(m.start()), kind, " ".join(m.group().split())[:70]))

    found(1, "an answer handed on by hand", r"(None|Err\(\w+\)) => \{?\s*(return )?(None|Err\()[^\n]*")
    found(1, "`let else` in place of `?`", r"let (Some|Ok)\(\w*\) = [^;{]* else \{\s*return (None|Err)[^\n]*")
    found(1, "a flag", r"\w+: bool,|let mut \w+ = (true|false);")
    found(1, "a number that stands for none", r"//[^\n]*\b0 (before|where|if)\b[^\n]*\n[^\n]*", text)
    found(1, "none inside an answer", r"-> Result<Option<[^\n]*")
    found(3, "a loop with an index or a count", r"for \([^)]*\) in [^\n]*enumerate\(\)|for \w+ in [\w.]+\.\.[^\n{]*|\bwhile [^\n{]*")
    found(3, "a loop that searches", r"for \w+ in [^\n]*\{\n\s*(if|let Some)[^\n]*\n\s*return[^\n]*")
    found(4, "a conversion", r"impl[^\n]* (From|TryFrom|Display|Default|PartialEq|Ord)\b[^\n]*")
    found(6, "a buffer and a length cut out by hand", r"\.get\(0\.\.\w+\)\.unwrap_or[^\n]*")
    for m in re.finditer(r"struct \w+[^{;]*\{([^}]*)\}", code):
        if re.search(r"&[^,\n]*\[", m.group(1)) and re.search(r": usize", m.group(1)):
            places[6].append((at(m.start()), "a slice with a number beside it", " ".join(m.group().split())[:70]))
        shapes[("struct",) + tuple(re.findall(r": ([\w<>&' \[\]]+)", m.group(1)))].append((at(m.start()), m.group().split("{")[0].strip()))
    for m in re.finditer(r"\benum \w+[^{;]*\{", code):
        derives = re.search(r"#\[derive\(([^)]*)\)\]\s*(pub(\([^)]*\))? )?$", code[:m.start()])
        if not derives or "PartialEq" not in derives.group(1):
            places[4].append((at(m.start()), "an enum without equality", m.group().rstrip(" {")))
    for name, head, body, offset in functions(code):
        if len(re.findall(r"=> \d+,", body)) > 1 and re.match(r"\s*match self\b", body):
            places[1].append((at(offset), "a table of numbers", "fn " + name))
        if re.match(r"(number|code|bits|word|hex_digit|write_\w+|add_\w+|pack_\w+|from_bits)$", name):
            places[4].append((at(offset), "a conversion or printing by hand", "fn " + name))
        if re.match(r"next_\w+$", name):
            places[7].append((at(offset), "a step by hand", "fn " + name))
        if re.search(r"usize[,)]", head) and "&mut [" in head:
            places[6].append((at(offset), "a place in a lent buffer", "fn " + name))
        s = shape(body)
        if len(s) >= 12:
            shapes[s].append((at(offset), "fn " + name))
        taken = re.sub(r"^<[^(]*>\(", "(", head)
        pairs = re.findall(r"(\w+: [&\w][^,()]*(?:\[[^\]]*\]|<[^(]*?>)?)(?=[,)\n])", taken)
        for i, p in enumerate(pairs):
            for q in pairs[i + 1:]:
                params[(crate, p.strip(), q.strip())].append((at(offset), "fn " + name))
    for m in re.finditer(r"\b(requires|ensures)(?: (\w+))? \{ (.*) \}\n", text):
        fact = re.sub(r"\b(text|line|source|digits|fields|self)\b", "x", m.group(3))
        for part in fact.split(" × "):
            clauses[(crate, part.strip("() "))].append((at(m.start()), m.group(1)))

for group, marks in shapes.items():
    if len(marks) > 1:
        for mark in marks:
            places[2].append((mark[0], "of one shape with " + ", ".join(x[1] for x in marks if x != mark)[:80], mark[1]))
for (crate, p, q), marks in params.items():
    if len(marks) > 2:
        places[5].append((marks[0][0], "travel together in %d functions" % len(marks), p + ", " + q))
for (crate, fact), marks in clauses.items():
    if len(marks) > 2 and len(fact) > 8:
        places[5].append((marks[0][0], "a fact in %d clauses" % len(marks), fact[:70]))

for point in range(1, 8):
    for place, kind, what in sorted(places[point]):
        print("%d  %s  %s: %s" % (point, place, kind, what))
answers = list(ROOT.glob("crates/*/proofs/**/Answers.antt"))
proofs = list(ROOT.glob("crates/*/proofs/**/*.antt"))
lines = sum(len(p.read_text().splitlines()) for p in proofs)
for p in range(1, 8):
    print("point %d: %d" % (p, len(places[p])))
print("point 8: %d files of answers; %d lines in %d proof files" % (len(answers), lines, len(proofs)))
