#!/usr/bin/env python3
"""Brings the names of this repository's own definitions and lemmas to snake case.

usage: python3 tools/respell.py [--list]     at the top of the repository, once, after the kit's port.py

What is renamed: what specs/ and proofs/ of a crate declare (definitions, lemmas, fields, constructors) and what an import calls
them, where the name has a capital inside or a dash between two words. Types and modules keep their camel case. Not renamed: names that a generated
statement asks for (answers of a function's proof), names that stand in strings, and functions of src/.
--list writes the table of old and new names and changes nothing.
"""
import collections
import os
import re
import sys

# Of two names that would become one, these are no lemmas.
APART = {"check-hurt": "check_hurt_run", "empty-lines": "lines_empty"}
TOKEN = re.compile(r"[^\s(){}\[\],;.\"`⟨⟩]+")
HEAD = re.compile(r"^(\s*)((?:(?:abbrev|pub|unfoldable|opaque|record|data|ruleset|mod)\s+)*)([^\s(){}\[\],;.\":]+)(?=\s*(?:[({:]|:))")
WORDS = {"let", "in", "use", "where", "elim", "record", "data", "pub", "abbrev", "unfoldable", "mod", "module", "λ", "_", "open"}


def files():
    for folder, dirs, names in os.walk("crates"):
        dirs[:] = sorted(d for d in dirs if d not in ("out", "must-fail"))
        for n in sorted(names):
            if n.endswith((".antt", ".rt")):
                yield os.path.join(folder, n)


def snake(name):
    if name[0].isupper():
        return name
    s = re.sub(r"(?<=[a-z0-9])(?=[A-Z])", "_", name)
    if "_" in s and s != name:
        s = "".join(w if w.isupper() and len(w) > 1 else w.lower() for w in re.split(r"(_)", s))
    return re.sub(r"(?<=[A-Za-z0-9'])-(?=[A-Za-z0-9])", "_", s)


def declared(path, text):
    """The names that a file declares, without those that a generated statement asks for."""
    for line in text.split("\n"):
        code = line.split("--")[0]
        m = HEAD.match(code)
        if not m or m.group(3) in WORDS:
            continue
        rest = code[m.end():].strip()
        if re.match(r":\s*(tie|goal|Tie|Goals)\b", rest) or re.match(r":\s*(tie|goal)\.", rest):
            continue
        if m.group(1) and not rest.startswith(":"):
            continue
        yield m.group(3)


def pieces(path, text):
    """The text as (kind, piece): code, comment or string."""
    mark = "//" if path.endswith(".rt") else "--"
    out = []
    for line in text.split("\n"):
        i, start, inside = 0, 0, False
        while i < len(line):
            if inside:
                if line[i] == "\\":
                    i += 1
                elif line[i] == '"':
                    out.append(("string", line[start:i + 1]))
                    start, inside = i + 1, False
            elif line[i] == '"':
                out.append(("code", line[start:i]))
                start, inside = i, True
            elif line.startswith(mark, i) and (mark == "//" or i == 0 or line[i - 1] in " ("):
                out.append(("code", line[start:i]))
                out.append(("comment", line[i:]))
                start = i = len(line)
            i += 1
        out.append(("code", line[start:]))
        out.append(("end", "\n"))
    return out[:-1]


def together(texts, table):
    """Where two names of a proof's or a definition's file would become one, the lemma's ends in _lem."""
    for p, t in texts.items():
        if not p.endswith(".antt"):
            continue
        seen = collections.defaultdict(set)
        for kind, piece in pieces(p, t):
            if kind == "code":
                for m in TOKEN.finditer(piece):
                    if m.string[m.start() - 1:m.start()] != ".":
                        seen[table.get(m.group(0), m.group(0))].add(m.group(0))
        for new, olds in seen.items():
            if len(olds) > 1 and not new.endswith("_lem"):
                rank = sorted(olds, key=lambda n: (not re.search("[a-z0-9][A-Z]", n), "-" in n, n))
                for n in rank[1:]:
                    table[n] = APART.get(n, new + "_lem")


def own(path, text, name):
    """Whether a file speaks of a lemma of this name: it declares it, or takes it from a module of proofs/."""
    if "/proofs/" not in path:
        return False
    word = r"(?<![\w'.-])" + re.escape(name) + r"(?![\w'-])"
    return bool(re.search(r"^\s*(pub )?" + re.escape(name) + r" :", text, re.M)
                or re.search(r"^use Rattle\.\w+\.proofs\.[\w.+-]+\.\{[^}]*" + word, text, re.M))


def main():
    texts = {p: open(p, encoding="utf-8").read() for p in files()}
    table = {}
    for p, t in texts.items():
        if p.endswith(".antt"):
            for n in declared(p, t):
                new = snake(n)
                if new != n:
                    table[n] = new
    # What a definition is called where it is used.
    for t in texts.values():
        for n in re.findall(r" as ([a-z]\w*[A-Z]\w*)", t):
            table[n] = snake(n)
    # A name that is also imported from the kit's library is the library's, and stays.
    for p, t in texts.items():
        for m in re.finditer(r"^(?:pub )?(?:ghost )?use ([^\s{]+)\.\{([^}]*)\}", t, re.M):
            if not m.group(1).startswith("Rattle.") or m.group(1).startswith("Rattle.std"):
                for n in m.group(2).split(","):
                    n = n.strip().split(" as ")[0]
                    if n in table:
                        print(f"kept, the library's: {n} (in {p})")
                        table.pop(n)
    together(texts, table)
    if "--list" in sys.argv:
        for n in sorted(table):
            print(f"{n}\t{table[n]}")
    for p, t in texts.items():
        parts = pieces(p, t)
        seen = collections.defaultdict(set)
        out = []
        for kind, piece in parts:
            if kind == "code":
                def turn(m):
                    w = m.group(0)
                    before = m.string[m.start() - 1:m.start()]
                    new = table.get(w, w)
                    if new.endswith("_lem") and new == w + "_lem" and (before == "." or not own(p, t, w)):
                        new = w
                    if before != ".":
                        seen[new].add(w)
                    return new
                piece = TOKEN.sub(turn, piece)
            elif kind == "comment":
                def turn_word(m):
                    w = m.group(0)
                    new = table.get(w)
                    return new if new and ("-" not in w or m.string[m.start() - 1:m.start()] == "`") else w
                piece = TOKEN.sub(turn_word, piece)
            out.append(piece)
        for new, olds in sorted(seen.items()):
            if len(olds) > 1:
                print(f"fall together: {p}: {sorted(olds)} -> {new}")
        new = "".join(out)
        if new != t and "--list" not in sys.argv:
            with open(p, "w", encoding="utf-8") as f:
                f.write(new)


main()
