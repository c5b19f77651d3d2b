#!/usr/bin/env python3
"""Lists, in the src/ of every crate, the places that an older form of the language left behind.

usage: places.py [FOLDER]     FOLDER is a checkout, this one if none is named

What it lists is to be read: a place that it names may be the plainest form there is.
"""
import os
import re
import sys
from collections import defaultdict

FOLDER = sys.argv[1] if len(sys.argv) > 1 else os.path.join(os.path.dirname(__file__), "..")


def sources():
    for folder, _, names in sorted(os.walk(os.path.join(FOLDER, "crates"))):
        parts = os.path.relpath(folder, FOLDER).split(os.sep)
        if len(parts) > 2 and parts[2] == "src":
            for name in sorted(names):
                if name.endswith(".rt"):
                    path = os.path.join(folder, name)
                    yield os.path.relpath(path, os.path.join(FOLDER, "crates")), open(path).read()


SOURCES = list(sources())
CODE = [(p, t) for p, t in SOURCES if not p.endswith("tests.rt")]


def functions():
    """Each function: its file, name, parameters, result, clauses and body."""
    head = re.compile(r"fn (\w+)(<[^>]*>)?\(([^)]*)\)\s*(?:->\s*([^\n{;]+))?")
    for path, text in CODE:
        for m in head.finditer(text):
            end = m.end()
            clauses = []
            rest = text[end:]
            while True:
                c = re.match(r"\s*(where[^{]*)?(requires|ensures)\*?\s*(\w+)?\s*\{(.*)\}(;?)[ \t]*\n", rest)
                if not c:
                    break
                clauses.append((c.group(2), c.group(4).strip()))
                rest = rest[c.end():]
            body = ""
            b = re.match(r"\s*\{", rest)
            if b:
                depth, k = 0, b.end() - 1
                while k < len(rest):
                    depth += {"{": 1, "}": -1}.get(rest[k], 0)
                    k += 1
                    if depth == 0:
                        break
                body = rest[b.end():k - 1]
            params = [re.sub(r"\s+", " ", p.strip()) for p in m.group(3).split(",") if p.strip()]
            yield path, m.group(1), params, (m.group(4) or "").strip(), clauses, body, text[:m.start()].count("\n") + 1


FUNCTIONS = list(functions())


def by_pattern(pattern):
    found = []
    for path, text in CODE:
        for number, line in enumerate(text.split("\n"), 1):
            if not line.strip().startswith("//") and not line.strip().startswith("ghost") and re.search(pattern, line):
                found.append(f"{path}:{number}: {line.strip()}")
    return found


def passing_matches():
    """A match or a let-else that takes an Option or a Result apart only to hand it on."""
    arms = r"None => (None|Err\(|Ok\(None\)|return)|Err\(_\) => (Err|None)|Ok\((\(\)|\w+)\) => Ok\(\3\)|=> unreachable!"
    lines = by_pattern(arms)
    for path, text in CODE:
        for m in re.finditer(r"let (Some|Ok)\([^=]*= [^;]*? else \{\s*return [^;]*;\s*\}", text):
            lines.append(f"{path}:{text[:m.start()].count(chr(10)) + 1}: {m.group(0).split(chr(10))[0].strip()}")
    return lines


def nested_answers():
    return by_pattern(r"Result<Option<|Option<Result<")


def two_way_enums():
    """Own enums of two cases, one of which holds a fault."""
    found = []
    for path, text in CODE:
        for m in re.finditer(r"enum (\w+)(<[^>]*>)? \{\n(.*?)\n\}", text, re.S):
            cases = re.findall(r"^    (\w+)", m.group(3), re.M)
            if len(cases) == 2 and re.search(r"\(\w*Fault\)", m.group(3)):
                found.append(f"{path}: enum {m.group(1)}: {', '.join(cases)}")
    return found


def number_kinds():
    """A number taken as a kind: it has a requires of its own that it is one of a few."""
    return [f"{p}:{n}: {f}({', '.join(a)})" for p, f, a, r, c, b, n in FUNCTIONS
            if any(k == "requires" and re.fullmatch(r"\w+ < \d", t) for k, t in c)]


def twins():
    """Functions of one crate that are the same but for types, sizes and constants."""
    groups = defaultdict(list)
    for path, name, params, result, clauses, body, number in FUNCTIONS:
        text = "|".join([", ".join(params), result, body] + [t for _, t in clauses])
        text = re.sub(r"//[^\n]*", "", text)
        text = re.sub(r"\b[ui](8|16|32|64|size)\b", "T", text)
        text = re.sub(r"\b0x[0-9a-f]+\b|\b[\d_]*\d\b", "N", text)
        text = re.sub(r"\b\w*(8|16|32|64)\w*\b", "W", text)
        text = re.sub(r"\b[A-Z]\w+\b", "C", text)
        text = re.sub(r"\s+", " ", text)
        if len(body.strip()) > 8:
            groups[(path.split("/")[0], text)].append(f"{path}:{number}: {name}")
    return [" = ".join(g) for g in groups.values() if len(g) > 1]


def counted_loops():
    return by_pattern(r"for \w+ in [\w.]+\.\.|\b\w+ (\+|-)= 1;|^\s*while ")


def search_loops():
    """A loop that only looks for something, or builds a text by hand."""
    found = []
    for path, name, params, result, clauses, body, number in FUNCTIONS:
        if re.search(r"^\s*for ", body, re.M) and re.search(r"return (true|false|Some|None|count)", body):
            found.append(f"{path}:{number}: {name}")
    return found


def hand_conversions():
    """A function that turns one value into one of another type, and is no From, TryFrom or FromStr."""
    found = []
    for path, name, params, result, clauses, body, number in FUNCTIONS:
        plain = re.sub(r"^(Option|Result)<(\w+).*", r"\2", result)
        one = len(params) == 1 and (not re.match(r"&?(mut )?self", params[0]) or plain in ("u8", "u16", "u32"))
        if one and name not in ("from", "try_from", "from_str", "fmt", "main", "read") and not params[0].startswith(("octets: &", "heap", "rt: ", "alloc")):
            if re.match(r"[A-Z]", plain) and re.search(r"new|of|from|named|_in$|reason", name) or name in ("octet", "number") and "match self" in body:
                if re.match(r"\w+: &?(str|u8|u16|u32|u64|Address|\w+Fault)", params[0]) or name in ("octet", "number"):
                    found.append(f"{path}:{number}: {name}({params[0]}) -> {result}")
    return found


def hand_traits():
    return by_pattern(r"^impl.* (PartialEq|Eq|Ord|PartialOrd|Clone|Copy|Hash|Default)(<.*>)? for")


def shared_facts():
    """A bound or an equation of one value that stands in the contracts of three or more functions of a crate."""
    facts = defaultdict(set)
    for path, name, params, result, clauses, body, number in FUNCTIONS:
        for kind, text in clauses:
            for fact in re.findall(r"[≤<] \d{2,}\b|\b\d{2,} ≤|\.\w+\.items\b|\b(?:new|old|now)\.[a-z]\w+\b", text):
                facts[(path.split("/")[0], fact)].add(f"{name}")
    return [f"{c}: {f}: {', '.join(sorted(s))}" for (c, f), s in sorted(facts.items()) if len(s) > 2]


def shared_parameters():
    """Two or more parameters beyond self and rt that stand together in three or more functions of a crate."""
    sets = defaultdict(set)
    for path, name, params, result, clauses, body, number in FUNCTIONS:
        ps = sorted({p for p in params if not re.match(r"&?(mut )?self|rt: |heap: |f: |octets: |at: ", p)})
        for i in range(len(ps)):
            for j in range(i + 1, len(ps)):
                sets[(path.split("/")[0], ps[i], ps[j])].add(f"{path}:{name}")
    return [f"{c}: {a}, {b}: {len(s)} functions" for (c, a, b), s in sorted(sets.items()) if len(s) > 2]


def private_fields():
    """Clauses of public functions that name a field of a value behind self."""
    return by_pattern(r"(ensures|requires).*\b(self|table|s|t|q|l)\.(now|old|new)\.[a-z]\w*")


def counted_buffers():
    """A fixed buffer with a length beside it, and parallel or packed arrays."""
    found = []
    for path, text in CODE:
        for m in re.finditer(r"struct (\w+)(<[^>]*>)? \{\n(.*?)\n\}", text, re.S):
            body = m.group(3)
            if re.search(r": \[\w+; \w+\]", body) and ": usize" in body or len(re.findall(r": Vec<", body)) > 1:
                found.append(f"{path}: struct {m.group(1)}")
    for path, name, params, result, clauses, body, number in FUNCTIONS:
        if any(re.match(r"\w+: &mut \[\w+; \w+\]", p) for p in params) and "usize" in result:
            found.append(f"{path}:{number}: {name}(&mut [..]) -> {result}")
    return found


def switches():
    """A flag that chooses what a function looks for, tables of functions."""
    found = [f"{p}:{n}: {f}({', '.join(a)})" for p, f, a, r, c, b, n in FUNCTIONS
             if any(re.match(r"\w+: bool", x) and re.search(r"(!=|==) " + x.split(":")[0] + r"\b", b) for x in a)]
    return found + by_pattern(r": fn\(|\[fn\(")


def answers():
    files = lines = 0
    for folder, _, names in os.walk(os.path.join(FOLDER, "crates")):
        parts = os.path.relpath(folder, FOLDER).split(os.sep)
        if len(parts) > 2 and parts[2] == "proofs":
            for name in names:
                if name in ("Answers.antt", "Proof.antt", "Invariants.antt"):
                    files += 1
                    lines += len(open(os.path.join(folder, name)).read().split("\n"))
    return files, lines


POINTS = [
    ("1 matches that only pass on", passing_matches),
    ("1 answers in answers", nested_answers),
    ("1 own enums like Result", two_way_enums),
    ("1 numbers for kinds", number_kinds),
    ("2 twins", twins),
    ("3 counted loops", counted_loops),
    ("3 loops that only look", search_loops),
    ("4 conversions by hand", hand_conversions),
    ("4 traits by hand", hand_traits),
    ("5 facts in three contracts", shared_facts),
    ("5 parameters that travel", shared_parameters),
    ("5 clauses that name fields", private_fields),
    ("6 buffers with a length, packed arrays", counted_buffers),
    ("7 switches", switches),
]

for title, find in POINTS:
    places = find()
    print(f"== {title}: {len(places)}")
    for place in places:
        print("   " + place)
files, lines = answers()
print(f"== 8 answer files: {files}, with {lines} lines")
