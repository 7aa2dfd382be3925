#!/usr/bin/env python3
"""Lists the places in crates/*/src that the page docs/DESIGN-PASS.md counts.

    python3 tools/places.py [TOP] [--list]

TOP is the top of a checkout (here by default). Without --list it prints one line for each kind of place: how many there are, and in which crates.
It goes by text, so it finds what looks like such a place; the page says of each what it is.
"""
import collections
import pathlib
import re
import sys

args = [a for a in sys.argv[1:] if not a.startswith("--")]
top = pathlib.Path(args[0] if args else ".")
listing = "--list" in sys.argv

files = sorted((top / "crates").glob("*/src/**/*.rt"))
text = {f: f.read_text() for f in files}


def crate(f):
    return f.relative_to(top / "crates").parts[0]


def code(f):
    """The file without comments, ghost lines and the insides of texts, with the same line breaks."""
    s = re.sub(r'"(\\.|[^"\\\n])*"', lambda m: '"' + "_" * (len(m.group()) - 2) + '"', text[f])
    s = re.sub(r"//[^\n]*", lambda m: " " * len(m.group()), s)
    return re.sub(r"^\s*(ghost|requires|ensures)\b[^\n]*", lambda m: " " * len(m.group()), s, flags=re.M)


plain = {f: code(f) for f in files}


def line_of(f, at):
    return plain[f].count("\n", 0, at) + 1


def grep(pattern):
    """The places where a pattern stands; it may span lines."""
    found = []
    for f in files:
        for m in re.finditer(pattern, plain[f], flags=re.M):
            start = m.start() + len(m.group()) - len(m.group().lstrip())
            found.append((crate(f), f"{f.relative_to(top)}:{line_of(f, start)}", " ".join(m.group().split())))
    return found


def functions():
    """Each function with its file, line, name, parameters, result and body."""
    out = []
    for f in files:
        s = plain[f]
        for m in re.finditer(r"\bfn (\w+)(<[^>(]*>)?\(", s):
            at, depth = m.end(), 1
            while depth:
                depth += {"(": 1, ")": -1}.get(s[at], 0)
                at += 1
            params = s[m.end():at - 1]
            end = at
            while end < len(s) and s[end] not in "{;":
                end += 1
            result = re.sub(r"\s+", " ", s[at:end]).strip()
            if end >= len(s) or s[end] == ";":
                continue
            stop, depth = end + 1, 1
            while depth:
                depth += {"{": 1, "}": -1}.get(s[stop], 0)
                stop += 1
            out.append((f, line_of(f, m.start()), m.group(1), params, result, s[end + 1:stop - 1].strip()))
    return out


def conversions():
    """Functions of one parameter whose body is one match, or one tuple of tests, from one type to another."""
    found = []
    for f, line, name, params, result, body in functions():
        names = [p.split(":")[0].strip() for p in params.split(",") if p.strip()]
        if len(names) == 1 and re.match(r"match \*?(self|\w+) \{", body) and not re.search(r"\bfor\b|\blet\b|;|if |\?", body) and result.startswith("->"):
            if re.search(r"bool|Fmt|fmt", result):
                continue
            found.append((crate(f), f"{f.relative_to(top)}:{line}", f"fn {name} {result}"))
    return found


def same_names():
    by = collections.defaultdict(list)
    for f, line, name, params, result, body in functions():
        if "fn main" in body or name == "main":
            continue
        by[name].append((crate(f), f"{f.relative_to(top)}:{line}", f"fn {name}"))
    for f in files:
        for m in re.finditer(r"^\s*const (\w+): \w", plain[f], flags=re.M):
            by[m.group(1)].append((crate(f), f"{f.relative_to(top)}:{line_of(f, m.start(1))}", f"const {m.group(1)}"))
    return [p for places in by.values() if len(places) > 1 for p in places]


def facts():
    """Facts of `requires` that stand in three or more contracts; names of the things they speak of are left out."""
    by = collections.defaultdict(list)
    for f in files:
        for m in re.finditer(r"^\s*requires\*? (?:\w+ )?\{ (.*) \}$", text[f], flags=re.M):
            fact = re.sub(r"\b(\w+)\.(now|old|new|entry)\b", r"\1", m.group(1))
            by[fact].append((crate(f), f"{f.relative_to(top)}:{text[f].count(chr(10), 0, m.start(1)) + 1}", fact))
    return [p for places in by.values() if len(places) > 2 for p in places]


def travelling():
    """Three or more parameters that stand side by side in three or more functions."""
    by = collections.defaultdict(list)
    for f, line, name, params, result, body in functions():
        ps = [re.sub(r"\s+", " ", p).strip() for p in re.split(r",(?![^<]*>)", params) if p.strip()]
        ps = [p for p in ps if "self" not in p and "rt:" not in p]
        for i in range(len(ps) - 1):
            by[(ps[i], ps[i + 1])].append((crate(f), f"{f.relative_to(top)}:{line}", f"fn {name}: {ps[i]}, {ps[i + 1]}"))
    return [p for places in by.values() if len(places) > 2 for p in places]


KINDS = [
    ("1 enums", grep(r"^\s*(pub(\(crate\))? )?enum \w+")),
    ("1 flags in structs", grep(r"^\s+(pub(\(crate\))? )?\w+: bool,")),
    ("1 numbers for kinds or refusals", grep(r"^\s+(pub(\(crate\))? )?(number|code|kind|layer|mode|ending): u(8|16|32|64),|-> u8\b")),
    ("1 matches that hand on none or an error", grep(r"None => None\b|Err\((\w+)\) => (return )?Err\(\w+\)|else \{\s*return None;\s*\}|Some\((\w+)\) => \3,\s*None =>|None => (false|0),|Err\(_\) => None")),
    ("2 names that stand twice", same_names()),
    ("3 loops over a counted index", grep(r"for \w+ in 0(u32)?\.\.")),
    ("3 other loops by hand", grep(r"\bwhile [^{]*\{|\bloop \{")),
    ("4 impls of what a derive gives", grep(r"impl(<[^>]*>)? (PartialEq|Eq|PartialOrd|Ord|Clone|Copy|Hash|Debug)\b")),
    ("4 orders by hand", grep(r"\w+\.\w+ (<|>) \w+\.\w+\s*\|\| ")),
    ("4 conversions by hand", conversions()),
    ("4 comparisons inside a wrapper", grep(r"[\w\])]\.0 (<|<=|>|>=|==|!=) [\w.()]+\.0\b")),
    ("5 facts in three or more contracts", facts()),
    ("5 parameters side by side in three or more functions", travelling()),
    ("6 arrays in structs", grep(r"^\s+(pub(\(crate\))? )?\w+: (&'?\w* ?)?\[[^\];]+; \w+\],")),
    ("6 buffers with a place beside them", grep(r"out: &mut \[u8\], at: usize|\w+: \[[^\]]+\],\s*(pub(\(crate\))? )?(count|len): usize|(count|len): usize,\s*(pub(\(crate\))? )?\w+: \[[^\]]+\]")),
    ("7 closures, function types and dyn", grep(r"impl Fn|: Fn|dyn |\bfn\(|\|\w+(, \w+)*\| ")),
]

for kind, places in KINDS:
    crates = collections.Counter(c for c, _, _ in places)
    print(f"{kind}: {len(places)}" + (" (" + ", ".join(f"{c} {n}" for c, n in sorted(crates.items())) + ")" if places else ""))
    if listing:
        for _, where, what in places:
            print(f"    {where}  {what}")

answers = list((top / "crates").glob("*/proofs/**/Answers.antt"))
answers = [a for a in answers if "/out/" not in str(a)]
count = sum(len(re.findall(r"^pub \w", a.read_text(), flags=re.M)) for a in answers)
others = [p for p in (top / "crates").glob("*/proofs/*.antt") if p.name != "Lib.antt"]
lines = sum(len(p.read_text().splitlines()) for p in (top / "crates").glob("*/proofs/**/*.antt") if "/out/" not in str(p))
print(f"8 answers: {count} in {len(answers)} files; lemma files: {len(others)}; lines under proofs/: {lines}")
