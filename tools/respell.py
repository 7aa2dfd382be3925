#!/usr/bin/env python3
"""Brings the repository's own names in definitions, lemmas, clauses and docs to the language's spelling.

usage: tools/respell.py [--check]

A type or a fact is in upper camel case (`Tie-laws` is `TieLaws`), and every other name in snake case (`draft-of` is `draft_of`).
Names that a library declares, names that the check makes (goals, and the steps of an answer's facts) and the names of functions
stay. With --check nothing is written, and the names that fall together are listed.
"""

import collections
import os
import re
import sys

WORD = r"[^\s(){}.;,@\"«»\[\]\\`]+"
NAME = re.compile(r"[A-Za-z][\w']*(?:-[\w']+)+\Z")
TOKEN = re.compile(r"--[^\n]*|\"(?:[^\"\\]|\\.)*\"|«[^»]*»|" + WORD)
RUST = re.compile(r"//[^\n]*|\"(?:[^\"\\]|\\.)*\"|b?'(?:\\.|[^'\\])'|" + WORD)
ALIAS = re.compile(r"^ghost use [^;]*;", re.M)
USE = re.compile(r"\buse ((?:" + WORD + r"\.)*" + WORD + r")\.\{([^}]*)\}")
DECLARED = re.compile(r"^\s*(?:(?:pub|abbrev|unfoldable|record|data|module)\s+)*(" + WORD + r")[^\n]*?\s:", re.M)
MADE = re.compile(r"^\s*(?:(?:pub|abbrev)\s+)*(" + WORD + r") : goal\.", re.M)
# Names that would meet one of a library in their file.
OTHERS = {"bit-and": "bit_of_and", "bit-or": "bit_of_or"}
HEADS = {"c", "w", "w2", "l", "g", "goal", "need", "at"}


def files(ending):
    for folder, dirs, names in os.walk("crates"):
        dirs[:] = sorted(d for d in dirs if d != "out")
        for name in sorted(names):
            if name.endswith(ending):
                yield os.path.join(folder, name)


def spelled(name):
    if name in OTHERS:
        return OTHERS[name]
    parts = name.split("-")
    if name[0].isupper():
        return "".join(p[:1].upper() + p[1:] for p in parts)
    return "_".join(parts)


def own(path):
    own_crates = set(os.listdir("crates"))
    parts = path.split(".")
    return parts[0] == "Rattle" and len(parts) > 1 and parts[1] in own_crates


def foreign(text):
    """Names that this file takes from a library, or that the check makes for it."""
    found = set(MADE.findall(text))
    for path, names in USE.findall(text):
        made = re.search(r"\.(Goals|Given)\Z", path) or ".Goals." in path + "."
        if not own(path) or made:
            for it in names.split(","):
                found |= set(it.split())
    return found


def behind(text, start):
    """The names before this one in a dotted path, first to last."""
    head = re.search(r"(?:" + WORD + r"\.)*\Z", text[:start])
    return head.group(0).split(".")[:-1]


def turn_antt(text, fields, answers):
    left = foreign(text)
    out, last = [], 0
    for m in TOKEN.finditer(text):
        word = m.group(0)
        new = word
        if word.startswith("--"):
            new = re.sub(r"`([^`]*)`", lambda s: "`" + " ".join(spelled(x) if NAME.match(x) else x for x in s.group(1).split(" ")) + "`", word)
        elif NAME.match(word) and word not in left:
            path = behind(text, m.start())
            made = answers and bool(path) and path[0] in HEADS
            if not made or (len(path) > 1 and path[0] != "goal" and word in fields):
                new = spelled(word)
        out += [text[last : m.start()], new]
        last = m.end()
    return "".join(out) + text[last:]


def turn_rust(text, names):
    out, last = [], 0
    for m in RUST.finditer(text):
        word = m.group(0)
        new = word
        if word.startswith("//"):
            new = re.sub(r"`([^`]*)`", lambda s: "`" + " ".join(names.get(x, x) for x in s.group(1).split(" ")) + "`", word)
        elif word[0] != '"':
            new = names.get(word, word)
        out += [text[last : m.start()], new]
        last = m.end()
    return "".join(out) + text[last:]


def turn_page(text, names):
    word = re.compile(r"[A-Za-z][\w']*(?:-[\w']+)+")
    return re.sub(r"`[^`\n]*`", lambda s: word.sub(lambda x: names.get(x.group(0), x.group(0)), s.group(0)), text)


def read(path):
    with open(path, encoding="utf-8") as f:
        return f.read()


def main():
    check = "--check" in sys.argv
    texts = {p: read(p) for p in files(".antt")}
    declared = set()
    for text in texts.values():
        made = set(MADE.findall(text))
        declared |= {n for n in DECLARED.findall(text) if NAME.match(n) and n not in made}
    names = {n: spelled(n) for n in declared}
    for path in files(".rt"):
        for item in ALIAS.findall(read(path)):
            names.update((n, spelled(n)) for n in re.findall(r" as (\S+?)(?=[,}])", item) if NAME.match(n))
    plain = collections.defaultdict(set)
    for path, text in texts.items():
        for m in TOKEN.finditer(text):
            plain[m.group(0)].add(path)
    for n, new in sorted(names.items()):
        others = [o for o, s in names.items() if s == new and o != n]
        if others or new in plain:
            print(f"falls together: {n} -> {new}", others, sorted(plain.get(new, ()))[:4], sorted(plain[n])[:3])
    changed = 0
    for path, text in texts.items():
        new = turn_antt(text, declared, path.endswith(("Answers.antt", "Invariants.antt")))
        changed += new != text
        if not check and new != text:
            open(path, "w", encoding="utf-8").write(new)
    pages = ["README.md"] + [os.path.join("docs", f) for f in sorted(os.listdir("docs")) if not f.startswith("PORT")]
    for path in list(files(".rt")) + list(files(".edit")) + pages:
        text = read(path)
        new = turn_page(text, names) if path.endswith(".md") else turn_rust(text, names)
        changed += new != text
        if not check and new != text:
            open(path, "w", encoding="utf-8").write(new)
    print(f"{len(names)} names declared, {changed} files")


main()
