#!/usr/bin/env python3
"""Lists the places of older forms in src/ of every listed crate, by pattern: `python3 tools/count_places.py [POINT]`.

A place found is a place to look at; docs/DESIGN-PASS.md says of each whether it was changed or why it stays.
"""
import re
import sys
from pathlib import Path

TOP = Path(__file__).resolve().parent.parent
NAME = r"[A-Za-z_][\w:.()&*]*"

# point, what is looked for, pattern over a file's text without comments
PATTERNS = [
    ("1", "an error answered as an Option", r"-> Option<\w*(?:Refusal|Error|Fault)>"),
    ("1", "let .. else that `?`, ok_or or map_err says",
     r"let (?:Some|Ok)\((?:mut )?\w+\) = [^;{}]*?(?:\{[^{}]*\})?[^;{}]*? else \{\s*return (?:None|Err\([^;]*\));\s*\}"),
    ("1", "a match of two arms that map, unwrap_or, ok or ok_or says",
     r"match [^{};]*\{\s*(?:Some|Ok)\([\w()., ]+\) => [^{};]*?(?:None|Err\(_\)) => [^{};]*?\}"),
    ("1", "a test of is_err with a return", r"if [^{]*is_err\(\)[^{]*\{\s*return (?:None|Err\([^;]*\));\s*\}"),
    ("1", "if let Some(error) = .. { return Err(error) }", r"if let Some\((\w+)\) = [^{]*\{\s*return Err\(\1\);\s*\}"),
    ("1", "a bool that tells that a call failed", r"fn \w+(?:<[^>]*>)?\([^)]*&mut [^)]*\) -> bool"),
    ("1", "a number for a kind or a refusal, as a parameter, field or result",
     r"\bkind: u8|-> Result<\w+, u8>|fn \w*kind\w*\([^)]*\) -> u8|FORM_REFUSAL: u8|\[0\] == 0"),
    ("1", "a match on the number of a kind", r"match \*?kind \{\s*\d"),
    ("1", "a literal number of a message's kind where it is written", r"(?:numbered|viewed)\(\d|&\[[1-7]\],"),
    ("3", "a loop that counts an index", r"for \w+ in [\w.()]+\.\.[^{]*\{"),
    ("3", "a while loop that counts or walks", r"while [^{]*\{"),
    ("3", "a for with an early return that all, any or position says",
     r"for [^{]* in [^{]*\{\s*if [^{]*\{\s*return (?:true|false|Some\(\w+\));\s*\}\s*\}"),
    ("4", "a comparison of what wrappers hold", r"\.0 (?:==|!=|<|<=|>|>=) |\.0\.max\(|\.byte\(\) (?:==|<)"),
    ("4", "equality, order or a test of a case by hand",
     r"fn (?:same|same_id|same_view|later|below|is_steady|is_in_fallback|is_fallback|less_proposed|higher_rank|raises|has_id)\b"),
    ("4", "a conversion by hand", r"fn (?:byte|kind_of|number|started|name_of|word|of)\((?:self|&self|byte|number|state|message|n)\b"),
    ("4", "printing by hand", r"fn (?:\w+_line|push_\w+|write_(?!planned|proposal|timeout|entries|certificate\(places|padding|fields\(\s*out)\w+)\("),
    ("5", "a function of seven or more parameters", r"fn \w+(?:<[^>]*>)?\((?:[^(),]*(?:\([^)]*\)[^(),]*)*,){6,}[^)]*\)"),
    ("5", "the lengths of what is lent, made by hand", r"Lengths \{\s*votes: votes\.len\(\)"),
    ("6", "a buffer with a length or a place beside it", r"\b(?:end|len|count|length|held): (?:u8|u16|u32|u64|usize),|\(\[u8; ROOM\], usize\)"),
    ("7", "a function pointer, a dyn or a switch on a step", r"\bdyn \w|: fn\(|match step\b"),
]


def stripped(text):
    """The code alone: without comments, clauses and ghost lines, at the same places."""
    blank = lambda m: re.sub(r"[^\n]", " ", m.group())
    text = re.sub(r"//[^\n]*", blank, text)
    return re.sub(r"(?m)^ *(?:requires|ensures|ghost)\b[^\n]*", blank, text)


def sources():
    names = [line.split()[0].rstrip(":") for line in (TOP / "crates.txt").read_text().splitlines()
             if line.strip() and not line.startswith("#")]
    for name in names:
        yield from sorted((TOP / "crates" / name / "src").rglob("*.rt"))


def twins():
    """Functions whose bodies are alike but for names and numbers, of six tokens that matter or more."""
    shapes = {}
    for path in sources():
        text = stripped(path.read_text())
        for m in re.finditer(r"\bfn (\w+)", text):
            start = text.find("\n    {\n" if "\n    {\n" in text[m.end():m.end() + 3000] else "{", m.end())
            ends = [i for i in (text.find("\n}\n", m.end()), text.find("\n    }\n", m.end())) if i > 0]
            if not ends:
                continue
            end = min(ends)
            body = re.search(r"\n *\{\n(.*)", text[m.end():end], re.S)
            if not body:
                continue
            tokens = re.findall(r"\w+|[^\s\w]", body.group(1))
            shape = " ".join("N" if t[0].isdigit() else "I" if t[0].isalpha() or t[0] == "_" else t for t in tokens)
            if len(tokens) >= 12:
                line = text.count("\n", 0, m.start()) + 1
                shapes.setdefault(shape, []).append((path, line, m.group(1)))
    return [group for group in shapes.values() if len(group) > 1]


def main():
    wanted = sys.argv[1] if len(sys.argv) > 1 else None
    totals = {}
    for point, told, pattern in PATTERNS:
        if wanted not in (None, point):
            continue
        found = []
        for path in sources():
            text = stripped(path.read_text())
            for m in re.finditer(pattern, text):
                line = text.count("\n", 0, m.start()) + 1
                first = text[m.start():].split("\n")[0].strip()
                found.append(f"    {path.relative_to(TOP / 'crates')}:{line}  {first[:100]}")
        totals[point] = totals.get(point, 0) + len(found)
        print(f"{point}  {told}: {len(found)}")
        print("\n".join(found))
    if wanted in (None, "2"):
        groups = twins()
        totals["2"] = len(groups)
        print(f"2  functions alike in shape: {len(groups)} groups")
        for group in groups:
            print("    " + "  ~  ".join(f"{p.relative_to(TOP / 'crates')}:{line} {name}" for p, line, name in group))
    print("places by point:", ", ".join(f"{p}: {n}" for p, n in sorted(totals.items())))


if __name__ == "__main__":
    main()
