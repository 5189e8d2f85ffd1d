#!/usr/bin/env python3
"""Lists the places in src/ (tests.rt left out) that are written in one of seven older forms, as docs/DESIGN-PASS.md counts them.

Run at the top of a checkout: python3 tools/forms.py [POINT]
It goes by text: a place that it prints is one to look at, and the page says what became of each.
"""
import collections
import glob
import re
import sys

FILES = sorted(f for f in glob.glob("crates/*/src/**/*.rt", recursive=True) if not f.endswith("tests.rt"))
SOURCE = {f: open(f).read().split("#[cfg(test)]\nmod tests {")[0] for f in FILES}


def lines(pattern, skip=None):
    for f, text in SOURCE.items():
        for n, line in enumerate(text.split("\n"), 1):
            if re.search(pattern, line) and not (skip and re.search(skip, line)) and not line.lstrip().startswith("//"):
                yield f, n, line.strip()


def functions():
    """Each function: file, line, name, parameters, body."""
    for f, text in SOURCE.items():
        for m in re.finditer(r"^( *)(?:pub(?:\(\w+\))? )?fn (\w+)(?:<[^>]*>)?\(([^)]*)\)", text, re.M):
            indent = m.group(1)
            end = re.compile(r"^" + indent + r"(\}|\{\})$", re.M).search(text, m.end())
            body = text[m.end():end.end() if end else len(text)]
            if not body.split("\n")[0].endswith("{") and not re.search(r"^" + indent + r"\{", body.split("\n\n")[0], re.M):
                body = body.split("\n\n")[0]  # declared by a trait, with no body
            yield f, text[:m.start()].count("\n") + 1, m.group(2), m.group(3), body


def enums():
    """1: an own enum with a case that says there is nothing, beside cases that hold something."""
    for f, text in SOURCE.items():
        for m in re.finditer(r"^(?:pub(?:\(\w+\))? )?enum (\w+)[^{]*\{(.*?)^\}", text, re.M | re.S):
            cases = [c.strip() for c in m.group(2).split("\n") if c.strip() and not c.strip().startswith("//")]
            bare = [c for c in cases if re.fullmatch(r"\w+( = \d+)?,", c)]
            if bare and len(bare) < len(cases):
                yield f, text[:m.start()].count("\n") + 1, "enum %s: %s" % (m.group(1), " ".join(bare))


def passed_on():
    """1: an Option or a Result taken apart by hand where `?` or a method of it does that."""
    by_hand = (r"else \{\n\s*return None;", r"\bNone => (None|true|false|Err)\b", r"\bSome\(_\) => (true|false|Ok)\b",
               r"\bErr\((\w+)\) => (return )?Err\(", r"if \w+(\.\w+)*\[\w+\]\.is_(none|some)\(\) \{\n\s*return Err")
    for f, text in SOURCE.items():
        for pattern in by_hand:
            for m in re.finditer(pattern, text):
                n = text[:m.start()].count("\n") + 1
                yield f, n, text.split("\n")[n - 1].strip()


def shape(text):
    """A text with its names and numbers taken out."""
    text = re.sub(r"//[^\n]*", "", text)
    return re.sub(r"\d+", "0", re.sub(r"\b[A-Za-z_]\w*\b", "x", re.sub(r"\s+", "", re.sub(r"(requires|ensures)[^\n]*", "", text))))


def twins():
    """2: functions whose bodies have one shape, and structs whose fields have one."""
    groups = collections.defaultdict(list)
    for f, n, name, params, body in functions():
        if body.count("\n") > 3:
            groups["fn", shape(params), shape(body)].append((f, n, "fn " + name))
    for f, text in SOURCE.items():
        for m in re.finditer(r"^(?:pub(?:\(\w+\))? )?struct (\w+)[^{;]*\{(.*?)^\}", text, re.M | re.S):
            if m.group(2).count("\n") > 2:
                fields = re.sub(r"\[\w+; \d+\]", "array", re.sub(r"//[^\n]*", "", m.group(2)))
                groups["struct", re.sub(r"\b(?!usize|ghost|array|u8|u16|u32|u64)\w+\b|\d+", "x", fields)].append(
                    (f, text[:m.start()].count("\n") + 1, "struct " + m.group(1)))
    for f, n, name, params, body in functions():
        if re.search(r"_\d+$", name):
            groups["number", re.sub(r"\d+$", "", name)].append((f, n, "fn " + name))
    for f, text in SOURCE.items():
        for m in re.finditer(r"^(?:pub(?:\(\w+\))? )?trait (\w+).*?^\}", text, re.M | re.S):
            if re.search(r"fn (size|read|pack|from_bytes)\(", m.group(0)):
                groups["trait"].append((f, text[:m.start()].count("\n") + 1, "trait " + m.group(1)))
        for m in re.finditer(r"^(?:pub(?:\(\w+\))? )?struct (\w+)[^{;]*\{(.*?)^\}", text, re.M | re.S):
            if re.search(r"\b\w7: (\w+),", m.group(2)):
                groups["fields"].append((f, text[:m.start()].count("\n") + 1, "struct " + m.group(1)))
    keepers = collections.defaultdict(list)
    for f, n, name, params, body in functions():
        if "self" in params and body.count("\n") > 1:
            keepers[name, re.sub(r"\s", "", params), re.sub(r"\s+", " ", body)].append((f, n, "fn " + name))
    for key in keepers:
        groups["method", key] = keepers[key]
    for key in groups:
        if len(groups[key]) > 1:
            for place in groups[key]:
                yield place[0], place[1], place[2] + "  with  " + ", ".join(p[2] for p in groups[key] if p != place)


def searches():
    """3: a loop that looks for one item, or for none."""
    for f, text in SOURCE.items():
        for m in re.finditer(r"for \w+ in [\w.&]+ \{\n\s*if [^\n]*\{\n\s*return (true|false|Some|Err|None)", text):
            n = text[:m.start()].count("\n") + 1
            yield f, n, text.split("\n")[n - 1].strip()


def clauses():
    """5: a fact that stands in the clauses of three functions or more, and parameters that stand together in three or more."""
    seen = collections.defaultdict(list)
    for f, n, line in lines(r"^\s*(requires|ensures)\*?( \w+)? \{"):
        clause = re.sub(r"^\s*(requires|ensures)\*?( \w+)? \{ | \};?$", "", line)
        for fact in clause.split(" × "):
            fact = re.sub(r"\b\w+\.(now|old|new)\b", "x", fact.strip("() "))
            seen[f.split("/")[1], fact].append((f, n))
    for (crate, fact), places in seen.items():
        if len(places) >= 3:
            yield places[0][0], places[0][1], "%d clauses: %s" % (len(places), fact)
    pairs = collections.defaultdict(list)
    for f, n, name, params, body in functions():
        names = [re.sub(r"\s", "", p) for p in re.split(r",\s*", params.strip().rstrip(",")) if ":" in p]
        for i in range(len(names)):
            for j in range(i + 1, len(names)):
                pairs[names[i], names[j]].append((f, n, name))
    for pair, places in pairs.items():
        if len(places) >= 3:
            yield places[0][0], places[0][1], "%d functions take %s: %s" % (len(places), ", ".join(pair), " ".join(p[2] for p in places))


POINTS = {
    1: lambda: list(enums())
    + list(passed_on())
    + list(lines(r"^\s*(pub(\(\w+\))? )?\w+: bool,"))
    + list(lines(r"^\s*(pub(\(\w+\))? )?number: u8|const NUMBER: u8;|fn \w*number\(.*-> u8")),
    2: lambda: list(twins()),
    3: lambda: list(searches())
    + list(lines(r"\bwhile |\bfor \w+ in [(\w.]+\.\.")),
    4: lambda: list(lines(r"^impl.*\b(PartialEq|Eq|PartialOrd|Ord|Clone|Copy|Default|From|TryFrom|FromStr|Display)\b.* for "))
    + list(lines(r"\bfn (from_bytes|to_bytes|number|named|sentence)\(.*(self|&|bytes)", r"count: u32"))
    + list(lines(r"\.w0 == |\bw0: 0,")),
    5: lambda: list(clauses()),
    6: lambda: list(lines(r"^\s*(pub(\(\w+\))? )?(len|newest|held): usize,"))
    + list(lines(r"fn \w+.*(: &\[\w+\]).*(: &\[\w+\])"))
    + list(lines(r"\.place == place\b|^\s+(table|values): Vec<Option")),
    7: lambda: list(lines(r"\bmatch (call|task|step|kind)\b")),
}

if __name__ == "__main__":
    wanted = [int(a) for a in sys.argv[1:]] or sorted(POINTS)
    for point in wanted:
        places = sorted(set(POINTS[point]()))
        print("point %d: %d places" % (point, len(places)))
        for f, n, line in places:
            print("  %s:%d: %s" % (f[7:], n, line))
