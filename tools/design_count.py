#!/usr/bin/env python3
"""Counts the places of docs/DESIGN-PASS.md's points in crates/*/src and crates/*/proofs. `--list` prints each place.

The rules are text alone, so a place is a candidate: the page says of each kind what became of it.
"""
import collections
import glob
import os
import re
import sys

os.chdir(os.path.dirname(os.path.dirname(os.path.abspath(__file__))))
LIST = "--list" in sys.argv
sources = {f: open(f).read() for f in sorted(glob.glob("crates/*/src/**/*.rt", recursive=True))}
code = {f: re.sub(r"//[^\n]*", "", s) for f, s in sources.items()}


def say(point, what, places):
    print(f"{point}  {len(places):4d}  {what}")
    if LIST:
        for p in places:
            print("        ", p)


def found(pattern, skip=()):
    out = []
    for f, s in code.items():
        if f.split("/")[1] in skip:
            continue
        for m in re.finditer(pattern, s, re.M):
            out.append(f"{f}:{s[:m.start()].count(chr(10)) + 1}: {m.group(0).strip().splitlines()[0][:100]}")
    return out


def functions(s):
    for m in re.finditer(r"^ *(?:pub )?(?:extern \"C\" )?fn (\w+)", s, re.M):
        indent = len(m.group(0)) - len(m.group(0).lstrip(" "))
        end = re.compile(r"^ {%d}\}" % indent, re.M).search(s, m.end())
        if end:
            yield m.group(1), s[m.start():end.end()], s[:m.start()].count("\n") + 1


# 1. enums of the shape of Option or Result, flags beside values, numbers for kinds
enums = []
for f, s in code.items():
    for m in re.finditer(r"enum (\w+)(?:<[^>]*>)? \{(.*?)\n\}", s, re.S):
        variants = [v.strip() for v in re.split(r",\n", m.group(2)) if v.strip()]
        if "Refused(Refusal)" in m.group(2) or len(variants) == 2 and any("(" in v or "{" in v for v in variants):
            enums.append(f"{f}: {m.group(1)}")
say(1, "enums of two variants with a value, or with Refused(Refusal)", enums)
say(1, "uses of such an enum's refusal or pass", found(r"\b[A-Z]\w+::(Refused|Pass)\b"))
flags = []
for f, s in code.items():
    for m in re.finditer(r"struct (\w+)(?:<[^>]*>)? \{(.*?)\n\}", s, re.S):
        if re.search(r"\b(check: (Check|Result<\(\), Refusal>)|(found|good|equal|ok|half|full): bool)", m.group(2)):
            flags.append(f"{f}: {m.group(1)}")
say(1, "structs with a check or a flag beside a value", flags)
say(1, "constants that number kinds: a u8, u32 or usize constant in a run of three or more",
    [f"{f}:{s[:m.start()].count(chr(10)) + 1}" for f, s in code.items()
     for m in re.finditer(r"(?:^(?:pub )?const \w+: (?:u8|u32|usize) = \d+;\n\s*){3,}", s, re.M)])

# 2. twins: functions of six lines or more that are the same but for names, types and numbers
def shape(body):
    names = {}
    body = re.sub(r"\b(requires|ensures)\b[^{]*\{.*?\}\n", "", body, flags=re.S)
    def name(m):
        w = m.group(0)
        if w in ("fn", "let", "mut", "if", "else", "for", "in", "while", "loop", "match", "return", "pub", "as", "extern", "self"):
            return w
        if w[0].isdigit():
            return "0"
        return "x"
    return re.sub(r"\s+", " ", re.sub(r"\w+", name, body))
groups = collections.defaultdict(list)
for f, s in code.items():
    if f.split("/")[1] in ("meshpigeon_c",):
        continue
    for fn, body, line in functions(s):
        if body.count("\n") >= 6:
            groups[shape(body)].append(f"{f}:{line} {fn}")
twins = [g for g in groups.values() if len(g) > 1]
say(2, "groups of functions that differ in names, types and numbers alone", [" | ".join(g) for g in twins])
say(2, "functions in them", [x for g in twins for x in g])

# 3. loops
say(3, "while and loop", found(r"^ *(while|loop)\b.*"))
say(3, "for over a range of numbers", found(r"^ *for \w+ in [^{]*\.\.[^{]*\{"))
say(3, "for over items", [p for p in found(r"^ *for [^{]*? in [^{]*\{") if ".." not in p.split(" in ", 1)[1]])

# 4. equality, order, copying, conversion written by hand
say(4, "helpers that convert or compare by hand",
    found(r"^ *(pub )?fn (same_\w+|one_if|byte_if|choice_if|flag|larger|smaller|wide|wider|eq\w*|is_same\w*|place_if|less_one|\w+_out|copy\w*|longer|shorter|within|precedes)\("))
say(4, "impls of conversions and orders", found(r"^ *impl(<[^>]*>)? (From|TryFrom|Display|Ord|PartialOrd|PartialEq|Eq|fmt::Display|FromStr)\b.*"))

# 5. facts that stand in the contracts of three or more functions of a crate
facts = []
by = collections.defaultdict(set)
for f, s in code.items():
    crate = f.split("/")[1]
    for fn, body, line in functions(s):
        for m in re.finditer(r"^ *requires[^{]*\{(.*?)\}\n", body, re.M | re.S):
            for part in re.split(r" × ", m.group(1)):
                by[crate, re.sub(r"[()\s]", "", part)].add(fn)
for (crate, fact), fns in sorted(by.items()):
    if len(fns) >= 3:
        facts.append(f"{crate}: {fact} in {len(fns)} functions")
say(5, "facts in the requires of three or more functions of a crate", facts)

# 6. a slice and a number of its items beside it
say(6, "parameters of a slice with a count, n or width beside",
    found(r"fn \w+(<[^>]*>)?\([^)]*\[(u8|u16|IndexRecord)\][^)]*\b(count|n|width|size|cells): usize[^)]*\)"))

# 7. a number that says which step to run
say(7, "match on a number or flag that picks a step", found(r"^ *match (purpose|asked|kind|place|form|\w+\.form|b) \{"))
say(7, "parameters that are closures or impl Fn", found(r"\b(impl Fn|F: Fn)\w*"))

# 8. proofs
proofs = {f: open(f).read() for f in sorted(glob.glob("crates/*/proofs/**/*.antt", recursive=True))}
say(8, "measures stated", [f for f, s in proofs.items() for _ in re.findall(r"^abbrev pub decreases-", s, re.M)])
say(8, "answers", [f for f, s in proofs.items() if f.endswith("Answers.antt") for _ in re.findall(r"^pub [\w'-]+ : goal\.", s, re.M)])
say(8, "lines of proofs", [l for s in proofs.values() for l in s.splitlines()])
