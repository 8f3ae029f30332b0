#!/usr/bin/env python3
"""Brings the repository's own definitions and lemmas to today's spelling of names.

usage: python3 tools/spell_names.py [--list]     at the top of the repository; --list only says what would be renamed

Definitions, lemmas, fields, constructors and ghost members in snake case, types in upper camel case. Names of functions in
src/, strings and the names that Rattle makes (goals, steps) keep their spelling. A lemma that would get the name of a
definition or a function ends in `_lem`. The names of listed crates come first; those of other crates follow them.
"""
import collections
import os
import re
import sys

DECL = re.compile(r"^([ \t]*)((?:(?:abbrev|unfoldable|pub|record|data|infix[lr]?|mutual)\s+)*)([^\s:(){}.;,]+)(?=(\s*:\s)|\s*[({]|\s)", re.M)
GHOST = re.compile(r"\bghost (\w+):")
IDENT = re.compile(r"[^\s(){}\[\].;:,\"`|]+")
# Names that would fall together with another of the same crate.
APART = {
    "Entries-hold": "AllEntriesHold",
    "Parts-in-place": "AllPartsInPlace",
    "accepted-stays": "accepted_stays_lem",
    "given-accepted": "given_accepted_lem",
}


def walk():
    for folder, dirs, files in os.walk("crates"):
        dirs[:] = sorted(d for d in dirs if d != "out")
        for f in sorted(files):
            yield os.path.join(folder, f)


def generated(path):
    return os.path.basename(path) in ("Answers.antt", "Invariants.antt", "Proof.antt")


def humps(word):
    return re.sub(r"(?<=[a-z0-9])([A-Z])", lambda m: "_" + m.group(1).lower(), word)


def strip_comments(text):
    return re.sub(r"--[ \t][^\n]*", "", text)


def listed():
    with open("crates.txt", encoding="utf-8") as f:
        return {line.split(":")[0].split()[0] for line in f if ":" in line and not line.startswith("#")}


def declared(wanted):
    """The own names that the wanted crates declare, those of definitions, and those of functions in src/."""
    names, definitions, functions = {}, set(), set()
    for p in walk():
        if not wanted(p.split(os.sep)[1]):
            continue
        if p.endswith(".antt"):
            with open(p, encoding="utf-8") as f:
                t = strip_comments(f.read())
            for m in DECL.finditer(t):
                name = m.group(3)
                words = m.group(2).split()
                if not m.group(4) and not {"record", "data"} & set(words):
                    continue
                if re.match(r"\s*:\s*(goal|need)\.", t[m.end(3):m.end(3) + 60]):
                    continue
                if generated(p) and re.match(r"(invariant|decreases|returns|overflow|bounds|loop)-", name):
                    continue
                if {"abbrev", "unfoldable", "record", "data"} & set(words) or "/specs/" in p:
                    definitions.add(name)
                names.setdefault(name, set()).add(p)
        elif p.endswith(".rt"):
            with open(p, encoding="utf-8") as f:
                t = f.read()
            functions.update(re.findall(r"\bfn (\w+)", t))
            for m in GHOST.finditer(t):
                names.setdefault(m.group(1), set()).add(p)
                definitions.add(m.group(1))
    return names, definitions, functions


def renames(wanted, given):
    """New spellings of the wanted crates' names, over those that are given."""
    names, definitions, functions = declared(wanted)
    out = {}
    for name in sorted(set(names) - set(given)):
        if not re.match(r"[A-Za-z]", name):
            continue
        parts = name.split("-")
        if name[0].isupper():
            if "-" in name:
                out[name] = "".join(x[:1].upper() + x[1:] for x in parts)
        elif "-" in name or re.search(r"[a-z0-9][A-Z]", name):
            new = "_".join(humps(x) for x in parts)
            out[name] = new + "_lem" if "-" in name and new in functions and name not in definitions else new
    out.update({k: v for k, v in APART.items() if k in names})
    kept = (set(names) - set(out)) | set(given.values())
    taken = collections.defaultdict(list)
    for old, new in out.items():
        taken[new].append(old)
    clash = {new: olds for new, olds in taken.items() if len(olds) > 1 or new in kept}
    for new, olds in clash.items():
        for old in olds:
            if old not in definitions:
                out[old] = new + "_lem"
    return out, clash, definitions


# What is no code: comments and strings.
APART_IN_ANTT = re.compile(r"--[ \t][^\n]*|\"[^\"\n]*\"")
APART_IN_RT = re.compile(r"//[^\n]*|b?\"(?:[^\"\\]|\\.)*\"|'(?:[^'\\]|\\.)'")


def pieces(text, apart):
    """(is code, piece), comments and strings apart."""
    at = 0
    for m in apart.finditer(text):
        yield True, text[at:m.start()]
        yield False, m.group(0)
        at = m.end()
    yield True, text[at:]


def respelled(text, names, path, doubtful):
    def swap(m):
        word = m.group(0)
        new = names.get(word)
        if new is None:
            return word
        behind = m.start() > 0 and m.string[m.start() - 1] == "."
        if behind and "-" in word and generated(path):
            doubtful.append((path, word))
        return new
    return IDENT.sub(swap, text)


def turned(path, text, names, doubtful):
    apart = APART_IN_RT if path.endswith(".rt") else APART_IN_ANTT
    camel = {k: v for k, v in names.items() if "-" not in k and k[0].islower()}
    return "".join(respelled(t, names, path, doubtful) if code else respelled(t, camel, path, doubtful) if not t.startswith(("\"", "b\"", "'")) else t for code, t in pieces(text, apart))


def main():
    crates = listed()
    names, clash, definitions = renames(lambda crate: crate in crates, {})
    more, clash_more, definitions_more = renames(lambda crate: crate not in crates, names)
    if "--list" in sys.argv:
        for old, new in list(names.items()) + [("unlisted: " + k, v) for k, v in more.items()]:
            print(old, "->", new)
        for found, defined in ((clash, definitions), (clash_more, definitions | definitions_more)):
            for new, olds in found.items():
                print("clash:", new, [(n, n in defined) for n in olds])
        return
    doubtful = []
    for p in walk():
        if not p.endswith((".rt", ".antt", ".edit")):
            continue
        with open(p, encoding="utf-8") as f:
            text = f.read()
        spelling = names if p.split(os.sep)[1] in crates else {**more, **names}
        if p.endswith(".edit"):
            new = "\n".join(line if line.startswith("file:") else respelled(line, spelling, p, doubtful) for line in text.split("\n"))
        else:
            new = turned(p, text, spelling, doubtful)
        if new != text:
            with open(p, "w", encoding="utf-8") as f:
                f.write(new)
    for folder in ("docs",):
        for f in sorted(os.listdir(folder)):
            p = os.path.join(folder, f)
            if not f.endswith(".md") or f == "PORT.md":
                continue
            with open(p, encoding="utf-8") as h:
                text = h.read()
            new = re.sub(r"`[^`\n]+`", lambda m: respelled(m.group(0), names, p, doubtful), text)
            if new != text:
                with open(p, "w", encoding="utf-8") as h:
                    h.write(new)
    for p, word in doubtful:
        print("look:", p, word)


main()
