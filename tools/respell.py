#!/usr/bin/env python3
"""Brings the names of definitions and lemmas to today's spelling: words in snake case, a dash only where it joins two names.

usage: respell.py [--check] [ROOT]     once, after the kit's port.py

A word in lower camel case becomes snake case, in the definitions, the laws, the clauses, the edits and the documents. A
dash in the name of a law stays between two names of definitions, as in to_bits-length, and else becomes an underscore;
a law that would have a definition's name gets `_lem`. Names of src/, of C and of the kit's library keep their spelling.
Each line `look:` names what two words of one file become: a definition may have a function's name, or a field's of
another record, and OTHERWISE has the words that may not. --check writes nothing.
"""

import collections
import os
import re
import sys

WORD = re.compile(r'[^\s(){}.;,@"«»`]+')
CAMEL = re.compile(r"^[a-zμ][a-z0-9_]*[A-Z]")
LIBRARY = {"scaled_Fits"}
# words of the library that names of laws are made of
STD = set(
    "length append take drop map set replicate get_or cond min suc add sub mul div mod zero cons pow not and or eqb ltb leb number".split()
)
# a law beside the definition of its name, and a definition beside parameters of its name
OTHERWISE = {
    "columns_of": "columns_of_lem",
    "byte_or": "byte_or_lem",
    "written_held": "written_held_lem",
    "read_held": "read_held_lem",
    "tileIdx": "tile_idx_of",
}
QUIET = re.compile(r'"(?:[^"\\\n]|\\.)*"|(?:(?<![^\s])--|//|(?m:^)# )[^\n]*|(?:(?!(?<![^\s])--|//|(?m:^)# |").)+|"', re.S)
SIGNATURE = re.compile(r"(?m)^([ ]*)((?:abbrev |unfoldable )?(?:pub )?|(?:pub )?(?:abbrev |unfoldable ))([^\s:(){}]+(?: [^\s:(){}]+)*) : ")
TYPES = re.compile(r"(?m)^(?:pub )?(?:abbrev )?(?:data|record) (?:pub )?(\S+)")


def snake(part):
    if not CAMEL.match(part) or part in LIBRARY:
        return part
    part = re.sub(r"(?<=[a-z0-9])(?=[A-Z][a-z])|(?<=[a-z])(?=[A-Z])|(?<=[A-Z])(?=[A-Z][a-z])", "_", part)
    return part.lower()


def files(root, ends):
    for folder, dirs, names in os.walk(root):
        dirs[:] = sorted(d for d in dirs if d not in (".git", "out", "target", "data"))
        for n in sorted(names):
            path = os.path.join(folder, n)
            if n.endswith(ends) and not os.path.islink(path):
                yield path


def bare(text):
    return re.sub(r'"(?:[^"\\\n]|\\.)*"|--[^\n]*|\{-.*?-\}', " ", text, flags=re.S)


def main():
    args = [a for a in sys.argv[1:] if a != "--check"]
    check = len(args) != len(sys.argv) - 1
    root = args[0] if args else "."
    crates = os.path.join(root, "crates")
    antt = {p: open(p, encoding="utf-8").read() for p in files(crates, ".antt")}

    definitions, laws, imported = set(STD), set(), set()
    for path, text in antt.items():
        for m in re.finditer(r"(?m)^(?:pub )?use ([^\s{]+)\.\{([^}]*)\}", text):
            if not m[1].startswith("Rattle.") or m[1].startswith("Rattle.std"):
                imported |= {w.strip().split(" as ")[0] for w in m[2].split(",")}
        if path.endswith("/Proof.antt"):
            continue
        code = bare(text)
        definitions |= set(TYPES.findall(code))
        for m in SIGNATURE.finditer(code):
            for name in m[3].split():
                if name in ("pub", "abbrev", "unfoldable"):
                    continue
                if "abbrev" in m[2] or "unfoldable" in m[2] or "-" not in name:
                    definitions.add(name)
                if "-" in name:
                    laws.add(name)
    named = {snake(d) for d in definitions}
    table = {}
    for law in sorted(laws - imported):
        parts = [snake(p) for p in law.split("-")]
        new = parts[0]
        for before, part in zip(parts, parts[1:]):
            new += ("-" if before in named and part in named else "_") + part
        if new in named and new not in STD and law not in definitions:
            new += "_lem"
        if new != law:
            table[law] = new

    def turned(word):
        if word in OTHERWISE:
            return OTHERWISE[word]
        if word in table:
            return table[word]
        if word in imported or "-" not in word and not CAMEL.match(word):
            return word
        return "-".join(snake(p) for p in word.split("-"))

    together = []
    for path, text in antt.items():
        news = collections.defaultdict(set)
        for word in set(WORD.findall(bare(text))):
            news[turned(word)].add(word)
        together += [f"{path}: {', '.join(sorted(w))} -> {n}" for n, w in sorted(news.items()) if len(w) > 1]

    def in_text(text):
        # no string; of a comment the words in camel case alone. Code of src/ has no name in camel case that begins small
        out = []
        for m in QUIET.finditer(text):
            if m[0][0] == '"':
                out.append(m[0])
            elif m[0][:2] in ("--", "//") or m[0][0] == "#":
                out.append(WORD.sub(lambda w: w[0] if w[0] in table else turned(w[0]), m[0]))
            else:
                out.append(WORD.sub(lambda w: turned(w[0]), m[0]))
        return "".join(out)

    writes = {}
    for path, text in antt.items():
        writes[path] = in_text(text)
    for path in files(crates, (".rt", ".edit")):
        text = open(path, encoding="utf-8").read()
        news = collections.defaultdict(set)
        for word in set(WORD.findall(text)):
            news[turned(word)].add(word)
        together += [f"{path}: {', '.join(sorted(w))} -> {n}" for n, w in sorted(news.items()) if len(w) > 1]
        writes[path] = in_text(text)
    for path in files(root, ".md"):
        text = open(path, encoding="utf-8").read()
        writes[path] = re.sub(r"`[^`\n]*`", lambda m: WORD.sub(lambda w: turned(w[0]), m[0]), text)
    for line in together:
        print("look:", line)
    print(f"{len(table)} laws, {sum(1 for p, t in writes.items() if t != open(p, encoding='utf-8').read())} files")
    if check:
        return 0
    for path, text in writes.items():
        with open(path, "w", encoding="utf-8") as f:
            f.write(text)
    return 0


sys.exit(main())
