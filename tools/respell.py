#!/usr/bin/env python3
"""respell.py [ROOT]: brings this repository's own definitions and lemmas to today's spelling.

Words are in snake case (`beginOf` and `bad-table` become `begin_of` and `bad_table`), facts and types in upper
camel case (`Write-skew` becomes `WriteSkew`).  Only names that a file of specs/ or proofs/ declares are turned, with the
aliases of `use` lines; goals' names, the library's names, the functions of src/, strings and other files stay.
It was run once, after the toolchain's port.py and before anything was mended by hand.
"""
import glob, os, re, sys

root = sys.argv[1] if len(sys.argv) > 1 else "."
DECL = re.compile(r"^\s*(?:(?:abbrev|unfoldable|pub)\s+)*([^\s:(){}.;,\"⌜⌝\[\]]+)\s+:(?:\s|$)")
ALIAS = re.compile(r"\bas\s+([^\s;{}]+)\s*$|\bas\s+([^\s,;{}]+)(?=[,}])")
TOKEN = re.compile(r"[^\s(){}\[\];,.\"`λ⌜⌝]+")
CONTRACT = re.compile(r"^\s*(ghost\b|requires\b|ensures\b)")


def snake(name):
    if name[0].isupper():
        return "".join(p[:1].upper() + p[1:] for p in name.split("-"))
    out = re.sub(r"([a-z0-9])([A-Z])", lambda m: m.group(1) + "_" + m.group(2).lower(), name)
    return re.sub(r"(?<=[a-z0-9_'])-(?=[a-z0-9])", "_", out)


def turns(name):
    if not re.fullmatch(r"[A-Za-z][A-Za-z0-9_'-]*", name): return False
    if name[0].isupper(): return "-" in name
    return snake(name) != name


def antt():
    return sorted(f for d in ("specs", "proofs") for f in glob.glob(os.path.join(root, "crates", "*", d, "**", "*.antt"), recursive=True))


def lib_names():
    """What the files import from std and the logic, which keeps its spelling."""
    out = set()
    for f in antt():
        for m in re.finditer(r"^use (Rattle\.std\.|mathlib\.|lib\.|Prim\.|borrow\.|denote\.)[^{\n]*\{([^}]*)\}", open(f, encoding="utf-8").read(), re.M):
            for n in m.group(2).split(","): out.add(n.split(" as ")[-1].strip())
    return out


names, fields, where = {}, set(), {}
for f in antt():
    record = False
    for i, l in enumerate(open(f, encoding="utf-8").read().split("\n")):
        if re.match(r"^\s*(pub\s+)?(record|data)\b", l): record = "record" in l.split(":")[0]; continue
        if not l.strip(): record = False
        m = DECL.match(l)
        if m and not re.search(r":\s*goal\.", l):
            n = m.group(1)
            where.setdefault(n, f"{f}:{i + 1}")
            if turns(n):
                names[n] = snake(n)
                if record: fields.add(n)
        if l.startswith("use "):
            m = re.search(r"\bas\s+([A-Za-z0-9_'-]+)\s*$", l)
            if m and m.group(1) != "goal" and turns(m.group(1)): names[m.group(1)] = snake(m.group(1))
            for n in re.findall(r" as ([A-Za-z0-9_'-]+)(?=[,}])", l):
                if turns(n): names[n] = snake(n)

# names that would fall together: the lemma gets `_lem`, as the guide has it
APART = {
    "and-then": "and_then_lem", "by-low": "by_low_lem", "high-right": "high_right_lem", "is-before": "is_before_lem",
    "low-right": "low_right_lem", "made_by": "made_by_lem", "pending-at": "pending_at_lem", "put-at": "put_at_lem",
    "read-act": "read_act_lem", "stamp-right": "stamp_right_lem", "takeAll": "taken_all", "write-act": "write_act_lem",
}
for n in APART:
    if n in where: names[n] = APART[n]
lib = lib_names()
own = set(where) - set(APART)
for n in sorted(names):
    if n in lib: del names[n]
SPECIAL = {}
by = {}
for n, t in names.items(): by.setdefault(t, []).append(n)
for t, ns in sorted(by.items()):
    others = ns + ([t] if t in own or t in lib else [])
    if len(others) > 1: SPECIAL[t] = others
if "--names" in sys.argv:
    for t, ns in SPECIAL.items(): print("fall together:", t, ns, "in the library" if t in lib else "", [where.get(n) for n in ns])
    print(len(names), "names;", "fields:", sorted(fields))
    sys.exit(0)
sys.exit("names fall together: see --names") if SPECIAL else None


def turn(text, aliases):
    """Behind a dot only a field of a record of ours is turned, and what stands behind an alias."""
    def put(m):
        n = m.group(0)
        if n not in names: return n
        if m.start() > 0 and text[m.start() - 1] == ".":
            before = re.search(r"([^\s(){}\[\],.]+)\.$", text[:m.start()])
            if n not in fields and not (before and before.group(1) in aliases): return n
        return names[n]
    return TOKEN.sub(put, text)


def aliases_of(t): return set(re.findall(r"\buse \S+ as ([A-Za-z0-9_'-]+)\s*;?$", t, re.M)) - {"goal"}


for f in antt():
    t = open(f, encoding="utf-8").read()
    ours = aliases_of(t)
    out = []
    for l in t.split("\n"):
        parts = re.split(r'("[^"]*")', l)
        if l.startswith("use ") and not re.match(r"use Rattle\.std\.|use mathlib|use lib\.|use Prim|use borrow|use denote", l):
            l = turn(l, set())
        elif l.startswith("use "): l = l
        elif re.match(r"^\s*(pub\s+|abbrev\s+)*\S+\s*:\s*goal\.", l): l = l
        else: l = "".join(p if p.startswith('"') else turn(p, ours) for p in parts)
        out.append(l)
    n = "\n".join(out)
    if n != t: open(f, "w", encoding="utf-8").write(n)

for f in sorted(glob.glob(os.path.join(root, "crates", "*", "src", "**", "*.rt"), recursive=True)):
    t = open(f, encoding="utf-8").read()
    ours = aliases_of(t)
    out = []
    for l in t.split("\n"):
        if CONTRACT.match(l): l = "".join(p if p.startswith('"') else turn(p, ours) for p in re.split(r'("[^"]*")', l))
        out.append(l)
    n = "\n".join(out)
    if n != t: open(f, "w", encoding="utf-8").write(n)

for f in sorted(glob.glob(os.path.join(root, "docs", "*.md")) + [os.path.join(root, "README.md")]):
    t = open(f, encoding="utf-8").read()
    n = re.sub(r"`[^`\n]*`", lambda m: TOKEN.sub(lambda k: names.get(k.group(0), k.group(0)), m.group(0)), t)
    if n != t: open(f, "w", encoding="utf-8").write(n)
