#!/usr/bin/env python3
"""Brings the names that this repository's own specs/ and proofs/ declare to today's spelling, once, after port.py.

    tools/respell.py [--dry]      at the top of the repository

A definition, lemma, field or local helper in lower camel case becomes snake case (`entryCount`, `entry_count`), a prime an apostrophe,
and a dash stays only where it joins two names (`length-take`): a plain word is joined by `_` (`each-none`, `each_none`). Types,
modules and constructors keep theirs, and so do functions of src/, strings, and the names that Rattle makes (Need-.., After-..).
A name is the repository's own in a file that declares it or imports it from one of the repository's crates. Where a lemma would
fall together with a definition it gets `_lem`, and where two lemmas would, one keeps its dash. It prints what it renamed, and where a
new name meets another of its file.
"""
import collections
import os
import re
import sys

WORD = re.compile(r"[^\s(){}\[\],;.«»\"⁻]+(?:⁻[^\s(){}\[\],;.«»\"]*)?")
DECLARED = re.compile(r"^(\s*)(?:abbrev |unfoldable |pattern )*(?:pub )?(?:abbrev |unfoldable )?(record |data )?([^\s:(){}«»|\\=]+)(\s*\(.*|\s*\{.*)?\s*:\s")
RECORD = re.compile(r"^\s*(?:pub )?(?:record|data) ([^\s:(){}]+)")
USE = re.compile(r"^\s*(?:ghost )?(?:pub )?use ([^\s{;]+?)\.?(?:\{([^}]*)\})?;?\s*$")
MADE = re.compile(r"^(returns|loop|overflow|bounds|shape_of|nonzero|invariant|decreases)(-|_|$)")


def files(top, ends):
    for folder, dirs, names in os.walk(os.path.join(top, "crates")):
        dirs[:] = sorted(d for d in dirs if d != "out")
        for name in sorted(names):
            if name.endswith(ends):
                yield os.path.join(folder, name)


def read(path):
    with open(path, encoding="utf-8") as file:
        return file.read()


def snake(word):
    """One word without a dash: lower camel case becomes snake case."""
    if not word or not word[0].islower():
        return word
    word = re.sub(r"(?<=[a-z0-9'])(?=[A-Z])", "_", word)
    return re.sub(r"[A-Z]+", lambda m: m.group(0).lower(), word) if "ℕ" not in word and "ℤ" not in word else word


def declared(text):
    """The names that a file of specs/ or proofs/ declares, and whether each is a type."""
    names = {}
    for line in text.split("\n"):
        m = DECLARED.match(line)
        if m and not line.lstrip().startswith(("--", "use ", "let ", "in ", "λ")):
            names[m.group(3)] = bool(m.group(2))
    return names


def record_fields(text):
    """The fields of the records that a file declares."""
    inside = False
    for line in text.split("\n"):
        if RECORD.match(line) or re.match(r"\s*(?:abbrev )?(?:pub )?(?:abbrev )?record ", line):
            inside = True
        elif inside:
            m = re.match(r"\s+(?:pub )?([^\s:(){}«»]+) :", line)
            if m:
                yield m.group(1)
            elif not line.strip() or not line[0].isspace():
                inside = False


def imported(text):
    """Pairs of module and name, of each `use` line."""
    for line in text.split("\n"):
        m = USE.match(line)
        if not m:
            continue
        for it in (m.group(2) or "").split(","):
            it = it.strip().split(" as ")[0].strip()
            if it:
                yield m.group(1), it


def spelling(old, known):
    """Today's spelling of an own name."""
    old = old.replace("′", "'")
    if old.startswith("◌") or "◌" in old:
        return "◌".join(snake(part) for part in old.split("◌"))
    if old[0].isupper() or not old[0].isalpha():
        return old
    parts = [p if p[:1].isupper() else snake(p) for p in old.split("-")]
    name = parts[0]
    for before, part in zip(parts, parts[1:]):
        joins = before in known and part in known or part[:1].isupper() or before[:1].isupper()
        name += ("-" if joins else "_") + part
    return name


def main(argv):
    top = os.getcwd()
    crates = set(os.listdir(os.path.join(top, "crates")))
    paths = list(files(top, (".antt", ".rt")))
    texts = {p: read(p) for p in paths}
    own_files = {p: declared(t) for p, t in texts.items() if p.endswith(".antt")}
    everywhere = collections.defaultdict(set)
    for p, names in own_files.items():
        for name in names:
            everywhere[name].add(p)

    # Plain names a dash may join: own definitions of specs/, and words that are imported from the kit.
    known = set()
    for p, names in own_files.items():
        if "/specs/" in p:
            known |= {snake(n) for n in names if "-" not in n and "◌" not in n}
    for p, text in texts.items():
        for module, name in imported(text):
            crate = module.split(".")[1] if module.startswith("Rattle.") else ""
            if crate not in crates and "-" not in name and "_" not in name:
                known.add(name)

    table = {}
    for name in everywhere:
        if MADE.match(name) or name.startswith("Need-"):
            continue
        new = spelling(name, known)
        if new != name:
            table[name] = new
    # Names that would fall together: a lemma beside a definition gets `_lem`, and one of two lemmas keeps its dash.
    meets = collections.defaultdict(set)
    for name in everywhere:
        meets[table.get(name, name)].add(name)
    for new, olds in sorted(meets.items()):
        if len(olds) > 1:
            in_specs = {n for n in olds if any("/specs/" in p for p in everywhere[n])}
            camel = {n for n in olds if re.search(r"[a-z0-9][A-Z]", n) and "-" not in n}
            for n in sorted(olds - camel):
                if camel and n not in in_specs:
                    table[n] = new + "_lem"
                elif "-" in n:
                    keep = "-".join(p if p[:1].isupper() else snake(p) for p in n.replace("\u2032", "'").split("-"))
                    table.pop(n, None)
                    if keep != n:
                        table[n] = keep
                elif camel:
                    print(f"both in specs: {new}")

    # a field of a record is named, in a literal or behind a dot, where nothing imports it
    fields = {n for t in texts.values() for n in record_fields(t) if n in table}
    changed = 0
    for p in paths:
        text = texts[p]
        own = dict(own_files.get(p, {}))
        kit = set()
        for module, name in imported(text):
            crate = module.split(".")[1] if module.startswith("Rattle.") else ""
            if crate in crates:
                own[name] = False
            else:
                kit.add(name)
        here = {n: table[n] for n in table if n in own and n not in kit}
        mixfix = {n.strip("◌"): table[n].strip("◌") for n in here if "◌" in n}
        words = set(WORD.findall(text))
        for old, new in here.items():
            plain = re.escape(new)
            bound = rf"\b{plain}\s*:|\blet (?:mut )?{plain}\b" if p.endswith(".rt") else rf"(?<![\w.'-]){plain}(?![\w.'-])"
            lines = [l for l in text.split("\n") if not re.match(r"\s*(--|//|(ghost |pub )?use )", l)]
            if old in words and any(re.search(bound, l) for l in lines):
                print(f"meets: {os.path.relpath(p, top)}: {old} becomes {new}, which stands there")
        out = []
        for line in text.split("\n"):
            code, comment = line, ""
            mark = "--" if p.endswith(".antt") else "//"
            cut = re.search(r"(^|\s)" + re.escape(mark) + r"(\s|$)", line)
            if cut:
                code, comment = line[: cut.start()], line[cut.start():]

            def put(m):
                word, at = m.group(0), m.start()
                dotted = at > 0 and code[at - 1] == "."
                if word in mixfix and p.endswith(".antt"):
                    return mixfix[word]
                if word in fields and p.endswith(".antt"):
                    return table[word]
                if dotted and not code.lstrip().startswith(("use ", "ghost use ", "pub use ")):
                    return word
                if word in here:
                    return here[word]
                bare = word.replace("′", "'")
                return bare if p.endswith(".antt") and "◌" not in word else word

            code = WORD.sub(put, code)
            # names in a comment stand between backquotes
            comment = re.sub(r"`([^`\s]+)`", lambda m: "`" + WORD.sub(lambda k: table.get(k.group(0), k.group(0)) if k.group(0) in here or re.search(r"[a-z0-9][A-Z]", k.group(0)) else k.group(0), m.group(1)) + "`", comment)
            out.append(code + comment)
        new_text = "\n".join(out)
        if new_text != text:
            changed += 1
            if "--dry" not in argv:
                with open(p, "w", encoding="utf-8") as file:
                    file.write(new_text)
    for old, new in sorted(table.items()):
        print(f"renamed: {old} {new}")
    print(f"respell: {len(table)} names, {changed} files")


if __name__ == "__main__":
    main(sys.argv[1:])
