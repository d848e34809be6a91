#!/usr/bin/env python3
"""Lists places in crates/*/src that may be written better in today's Rattle, by the points of docs/DESIGN-PASS.md.

usage: python3 tools/places.py [COMMIT] [--list]   counts of the working tree, or of a commit; with --list every place

It goes by text: what it lists is a place to look at, and the page says what became of each.
"""
import collections
import os
import re
import subprocess
import sys


def files(commit):
    if commit:
        names = subprocess.run(["git", "ls-tree", "-r", "--name-only", commit, "crates"], capture_output=True, text=True, check=True).stdout.split("\n")
    else:
        names = subprocess.run(["git", "ls-files", "crates"], capture_output=True, text=True, check=True).stdout.split("\n")
    for name in sorted(names):
        if "/src/" in name and name.endswith(".rt"):
            if commit:
                yield name, subprocess.run(["git", "show", commit + ":" + name], capture_output=True, text=True, check=True).stdout
            elif os.path.exists(name):
                yield name, open(name, encoding="utf-8").read()


def bare(text):
    """The text with comments blanked, so that lines keep their numbers."""
    return re.sub(r"//[^\n]*", lambda m: " " * len(m.group(0)), text)


FN = re.compile(r"^[ \t]*(?:pub(?:\(crate\))? )?(?:const )?fn (\w+)", re.M)


def functions(text):
    """Name, offset, head (up to the body, clauses in it) and body of each function."""
    for m in FN.finditer(text):
        depth, i, start = 0, m.end(), None
        clause = False
        while i < len(text):
            rest = text[i:]
            w = re.match(r"(requires|ensures)\b[^{]*\{", rest)
            if depth == 0 and w:
                clause = True
                i += w.end()
                depth = 1
                continue
            c = text[i]
            if c == "{":
                if depth == 0 and not clause:
                    start = i
                depth += 1
            elif c == "}":
                depth -= 1
                if depth == 0:
                    if start is not None:
                        break
                    clause = False
            elif c == ";" and depth == 0:
                break
            i += 1
        if start is None:
            yield m.group(1), m.start(), text[m.start():i], ""
        else:
            yield m.group(1), m.start(), text[m.start():start], text[start:i + 1]


PATTERNS = [
    ("1 a match that only passes an error or nothing on", r"Err\((\w+)\) => (?:return )?Err\(\1\)|None => (?:return )?(?:None|Err\(\w[^)]*\))\s*,|if let Err\((\w+)\) = [^{]*\{\s*return Err\(\2\)|let (?:Some|Ok)\([^=]*\) = [^;{]*? else \{\s*return (?:None|Err\([^;]*\));"),
    ("1 a number or a flag for a kind or a step", r"\b(?:step|timed)\s*:\s*(?:u32|bool)|fn name\(number: \w+\)|refused: \[u32; 16\]"),
    ("1 a change that answers whether it was made", r"fn \w+\(&mut self[^)]*\) -> bool"),
    ("3 a while loop", r"\bwhile [^\n]*\{"),
    ("3 a counter kept by hand", r"\b\w+ \+= [12];"),
    ("3 a place of a list by an index that a loop counts", r"for \(\w+, \w+\) in [^{]*enumerate\(\) \{\s*\w+\[\w+\]"),
    ("3 a loop that only searches", r"for \w+ in [^{]*\{\s*if [^{]*\{\s*return (?:true|false|\w+);\s*\}\s*\}"),
    ("3 a loop that only folds", r"for \w+ in [^{]*\{\s*\w+ (?:\|=|=) [^;]*;\s*\}"),
    ("4 Clone or Copy by hand", r"impl<[^>]*> (?:Clone|Copy) for"),
    ("4 a name of a case by hand", r"fn \w+_name\(|fn name\("),
    ("4 a conversion by hand", r"fn say\(self\)|fn (?:verb_in|kind_in|granted|task_of|asked)\("),
    ("4 numbers and bytes by hand", r"\* (?:256|0x1\w+) \+|\* 256\b|/ (?:256|0x1\w+)\)?"),
    ("4 a cast that widens or may be From", r"\bas (?:u16|u32|u64)\b"),
    ("6 a length beside a buffer", r"\blen: usize,|-> \(&'a mut \[u8\], usize\)|list: &mut \[u32[^)]*\) -> (?:usize|Result<u(?:16|size))|out: &mut \[u32\]\) -> usize"),
    ("6 an index that links places", r"Option<u16>,|(?:latest|earlier|newest|free): Vec<u16>"),
    ("7 a match on a call or a step", r"match \(?(?:call|step|self\.job)\b[^{]*\{"),
]


def shape(head, body):
    """The function with its names and literals left out."""
    text = re.sub(r'"(?:[^"\\]|\\.)*"', "L", body)
    tokens = re.findall(r"\w+|[^\w\s]", text)
    words = {"let", "mut", "if", "else", "match", "for", "in", "while", "return", "self", "as", "true", "false", "Some", "None", "Ok", "Err"}
    return tuple(t if t in words or not re.match(r"\w", t) else ("N" if t[0].isdigit() else "I") for t in tokens)


def main():
    words = [w for w in sys.argv[1:] if w != "--list"]
    commit, listed = (words[0] if words else None), "--list" in sys.argv
    found = collections.OrderedDict()

    def put(point, name, text, at, note=""):
        line = text.count("\n", 0, at) + 1
        found.setdefault(point, []).append(f"{name[7:]}:{line} {note}".rstrip())

    for point in ["1 an enum of two cases, or with a refusal among its cases"] + [p for p, _ in PATTERNS if p[0] == "1"]:
        found[point] = []
    found["2 functions of one shape, in groups"] = []
    shapes = collections.defaultdict(list)
    clauses = collections.defaultdict(set)
    groups = collections.Counter()
    where = collections.defaultdict(list)
    for name, raw in files(commit):
        text = bare(raw)
        for m in re.finditer(r"enum (\w+)(?:<[^>]*>)? \{(.*?)\n\}", text, re.S):
            cases = re.findall(r"^    (\w+)(\([^)]*\))?,", m.group(2), re.M)
            two = len(cases) == 2 and any(c[1] for c in cases)
            if two or any(c[0] in ("Refused", "NoMemory", "Missing") for c in cases):
                put("1 an enum of two cases, or with a refusal among its cases", name, text, m.start(), m.group(1))
        for point, pattern in PATTERNS:
            for m in re.finditer(pattern, text):
                put(point, name, text, m.start(), " ".join(m.group(0).split())[:70])
        crate = name.split("/")[1]
        for fn, at, head, body in functions(text):
            tokens = shape(head, body)
            if len(tokens) >= 12:
                shapes[tokens].append(f"{name[7:]}:{text.count(chr(10), 0, at) + 1} {fn}")
            for c in re.findall(r"(requires|ensures)(?: \w+)? \{ (.*) \}\s*$", head, re.M):
                if len(c[1]) > 10:
                    clauses[crate, c[0] + " " + c[1].strip()].add(f"{name[7:]} {fn}")
            sig = head.split(")", 1)[0] if "(" in head else ""
            params = sorted(set(re.findall(r"\b([a-z_]\w*): ", sig[sig.find("("):])))
            for i in range(len(params)):
                for j in range(i + 1, len(params)):
                    groups[crate, params[i], params[j]] += 1
                    where[crate, params[i], params[j]].append(fn)
    for tokens, places in shapes.items():
        if len(places) > 1:
            found["2 functions of one shape, in groups"].append("; ".join(places))
    found["5 a clause that stands at three functions or more"] = [f"{k[0]}: {k[1][:110]} ({len(v)})" for k, v in sorted(clauses.items()) if len(v) >= 3]
    begins = collections.defaultdict(set)
    for (crate, clause), places in clauses.items():
        begins[crate, clause[:48]] |= places
    found["5 clauses that begin with the same 48 letters, at three functions or more"] = [f"{k[0]}: {k[1]} ({len(v)})" for k, v in sorted(begins.items()) if len(v) >= 3]
    found["5 two parameters that go together at four functions or more"] = [f"{k[0]}: {k[1]}, {k[2]} ({n})" for k, n in sorted(groups.items()) if n >= 4]
    for point in sorted(found, key=lambda p: p[0]):
        places = found[point]
        print(f"{len(places):4}  {point}")
        if listed:
            for place in places:
                print("        " + place)


main()
