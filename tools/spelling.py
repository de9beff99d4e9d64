#!/usr/bin/env python3
"""Brings the names of definitions, lemmas, fields and constructors of specs/ and proofs/ to today's spelling.

usage: tools/spelling.py [--list] FOLDER

FOLDER is the top of a checkout in which port.py has run. Functions, types and parameters in Rattle keep their names; so do exported names,
strings, inputs and outputs. A name in camel case becomes one in snake case, and a dash becomes an underscore, but for a lemma's dash that
joins two names (of definitions, functions or the library's words for relations). Types and modules keep their capitals. Files are rewritten
in place. --list writes nothing and prints the old and the new name of each.
"""
import collections
import glob
import os
import re
import sys

NAME = r"[^\s:(){}.,;=\"`]+"
MODS = r"(?:(?:unfoldable|abbrev|opaque|record|data|instance|pub)\s+)*"
DECL = re.compile(r"^(\s*)(" + MODS + r")(" + NAME + r")((?:\s*(?:\{[^}]*\}|\([^)]*\)))*)\s*:\s")
TOKEN = re.compile(r"[\w'-]+")
# words of the library that stand in the names of its lemmas
LIBRARY = set("le lt eq ne add sub mul div mod suc zero length map take drop append cons nil set put get min max cond and or not eqb leb ltb".split())
# names that would fall together with another of a file, and get a spelling of their own
OWN = {}


def antt(root):
    for top in ("specs", "proofs"):
        yield from sorted(glob.glob(os.path.join(root, "crates", "*", top, "**", "*.antt"), recursive=True))


def declared(root):
    """Each declared name with whether it is declared as a definition somewhere."""
    found = collections.defaultdict(set)
    for path in antt(root):
        if path.endswith("/Proof.antt") and "/proofs/" in path:
            continue
        for line in open(path, encoding="utf-8"):
            if line.lstrip().startswith("--"):
                continue
            m = DECL.match(line)
            if m:
                mods = m.group(2).split()
                found[m.group(3)].add("definition" if set(mods) & {"abbrev", "unfoldable", "record", "data"} else "law")
    return found


def functions(root):
    found = set()
    for path in glob.glob(os.path.join(root, "crates", "*", "src", "**", "*.rt"), recursive=True):
        found |= set(re.findall(r"\bfn (\w+)", open(path, encoding="utf-8").read()))
    return found


def snake(word):
    """firstFree as first_free."""
    if not re.match(r"[a-z]", word):
        return word
    return re.sub(r"(?<=[a-z0-9'])[A-Z]+", lambda m: "_" + m.group(0).lower(), word)


def spelled(name, kinds, names):
    if name in OWN:
        return OWN[name]
    if not re.match(r"[A-Za-z]", name):
        return name
    if re.match(r"[A-Z]", name):
        parts = name.split("-")
        return parts[0] + "".join(p[:1].upper() + p[1:] for p in parts[1:]) if "definition" in kinds else name
    parts = name.split("-")
    out = snake(parts[0])
    for a, b in zip(parts, parts[1:]):
        joins = "definition" not in kinds and len(parts) == 2 and a in names and b in names
        out += ("-" if joins else "_") + snake(b)
    return out


def table(root):
    found = declared(root)
    names = {n for n, k in found.items() if "definition" in k} | functions(root) | LIBRARY
    crates = set(os.listdir(os.path.join(root, "crates")))
    first = {n: spelled(n, k, names) for n, k in found.items()}
    # a definition's or a field's new name
    taken = {new for n, new in first.items() if "definition" in found[n] or "-" not in n and new != n}
    beside = collections.defaultdict(set)
    for path in antt(root):
        text = open(path, encoding="utf-8").read()
        outer = imported(text, crates)
        for n in set(TOKEN.findall(text)) & set(first):
            if n not in outer:
                beside[n] |= outer
    # "A lemma that would have its function's name gets `_lem`"
    rows = {}
    for n, k in found.items():
        new = first[n]
        field = "-" not in n and new != n
        if k == {"law"} and not field and (new in taken or new != n and new in beside[n]):
            new += "_lem"
        if new != n:
            rows[n] = new
    return rows, found


def imported(text, crates):
    """Names that a file takes from modules that are not the repository's."""
    found = set()
    for m in re.finditer(r"^\s*(?:pub )?(?:ghost )?use ([^\s{;]+?)\.?(?:\{([^}]*)\})?;?$", text, re.M):
        path, names = m.group(1), m.group(2) or ""
        parts = path.split(".")
        if parts[0] == "Rattle" and len(parts) > 1 and parts[1] in crates:
            continue
        for one in names.split(","):
            found |= set(one.split(" as ")[0].split())
    return found


def turn_part(text, rows, keep, comment, proof):
    def word(m):
        it = m.group(0)
        if it in keep or it not in rows:
            return it
        before = text[max(0, m.start() - 1):m.start()]
        if proof and before == "." and "-" in it:
            return it
        if comment and "-" in it:
            return it
        return rows[it]
    return TOKEN.sub(word, text)


def turn_comment(text, rows, keep):
    out = []
    for i, part in enumerate(re.split(r"(`[^`]*`)", text)):
        out.append(turn_part(part, rows, keep, i % 2 == 0, False))
    return "".join(out)


def turn_antt(text, rows, crates, path):
    keep = imported(text, crates)
    proof = path.endswith("/Proof.antt") and "/proofs/" in path
    lines = []
    for line in text.split("\n"):
        m = re.match(r"^((?:[^-\"]|-(?!-)|\"[^\"]*\")*?)((?:(?<=\s)|^)--(?:\s.*)?)$", line)
        code, comment = (m.group(1), m.group(2)) if m else (line, "")
        lines.append(turn_part(code, rows, keep, False, proof) + turn_comment(comment, rows, keep))
    return "\n".join(lines)


def clauses(text):
    """Where the clauses and ghost uses of a source file stand."""
    spans = []
    for m in re.finditer(r"^[ \t]*ghost use [^;]*;", text, re.M):
        spans.append(m.span())
    for m in re.finditer(r"\b(?:requires|ensures)(?:\s+\w+)?\s*\{", text):
        depth, i = 1, m.end()
        while depth:
            depth += {"{": 1, "}": -1}.get(text[i], 0)
            i += 1
        spans.append((m.end(), i))
    return sorted(spans)


def turn_rt(text, rows, crates):
    keep = imported(text, crates)
    out, at = [], 0

    def plain(part):
        return re.sub(r"(?m)^([^\"\n]*?)(//.*)$", lambda m: m.group(1) + turn_comment(m.group(2), rows, keep), part)

    for a, b in clauses(text):
        if a < at:
            continue
        out += [plain(text[at:a]), turn_part(text[a:b], rows, keep, False, False)]
        at = b
    return "".join(out) + plain(text[at:])


def main():
    argv = sys.argv[1:]
    listing = "--list" in argv
    root = [a for a in argv if a != "--list"][0]
    rows, found = table(root)
    crates = set(os.listdir(os.path.join(root, "crates")))
    if listing:
        for old, new in sorted(rows.items()):
            print(old, new)
        return 0
    for path in antt(root):
        text = open(path, encoding="utf-8").read()
        new = turn_antt(text, rows, crates, path)
        if new != text:
            open(path, "w", encoding="utf-8").write(new)
    for path in sorted(glob.glob(os.path.join(root, "crates", "*", "src", "**", "*.rt"), recursive=True)):
        text = open(path, encoding="utf-8").read()
        new = turn_rt(text, rows, crates)
        if new != text:
            open(path, "w", encoding="utf-8").write(new)
    return 0


if __name__ == "__main__":
    sys.exit(main())
