#!/usr/bin/env python3
"""Spells the repository's own definitions and lemmas as today's Rattle spells names: words in snake case, types in camel case.

usage: tools/respell.py [--list]        at the top of the repository, after port.py; a second run changes nothing

A name turns where a file of specs/ or proofs/ declares it: `couldStore` becomes `could_store`, `patch-none` becomes `patch_none`.
Where a lemma would have a definition's name, as `same-octets` beside `sameOctets`, it gets `_lem`.
So does a name that such a file binds by a `let` or a `λ`, or as an argument; a file Proof.antt keeps those, since its names are made
by the prover. Functions, types, fields and labels of src/ have that spelling already. Strings and the prose of comments stay; a
name in backticks turns. --list prints each old name with its new one, and writes nothing.
"""

import os
import re
import sys

NAME = r'[^\s(){}.;,@"«»`]+'
# Several constructors or fields of one type, as `aSingle aStart : PacketType`.
TOGETHER = re.compile(rf"^ +(?:pub )?(?!(?:pub|abbrev|unfoldable|data|record|module|let) )((?:{NAME} )+{NAME}) :(?!:)", re.M)
DECLARED = re.compile(rf"^( *)((?:unfoldable |abbrev |pub |data |record |ruleset )*)({NAME})((?: \{{[^{{}}\n]*\}})*) :(?!:)(.*)$", re.M)
CLAUSE = re.compile(rf"^ *({NAME})((?: +(?:{NAME}|\([^()\n]*\)))*) =(?= |$)", re.M)
LET = re.compile(rf"\blet ({NAME}) (?:=|:)")
BOUND = re.compile(rf"[(λ] *((?:{NAME} )*{NAME}) :(?!:)")
LAMBDA = re.compile(rf"λ ((?:{NAME} )*{NAME})\.")
WORD = re.compile(NAME)
STRING = re.compile(r'"(?:[^"\\\n]|\\.)*"')
COMMENT = re.compile(r"(?:--|//)[^\n]*")
SPAN = re.compile(r"`[^`\n]*`")

# A constructor of `Reached` that would have the name of a definition.
OTHERWISE = {"so-far": "reached_so_far"}


def snake(name):
    name = re.sub(r"(?<=[a-z])(0[0-9A-F])$", r"_\1", name)
    name = re.sub(r"(?<=[a-z0-9])([A-Z])(?![0-9]*$)", lambda m: "_" + m[1].lower(), name)
    return name.replace("-", "_").replace("′", "'")


def is_old(name):
    return bool(re.match(r"[a-z]", name)) and bool(re.search(r"-|[a-z0-9][A-Z]|′", name)) and snake(name) != name


def files(root):
    for folder, dirs, names in os.walk(os.path.join(root, "crates")):
        dirs[:] = sorted(d for d in dirs if d not in ("out", "must-fail"))
        for n in sorted(names):
            if n.endswith((".antt", ".rt")):
                yield os.path.join(folder, n)


def code_of(text):
    return COMMENT.sub("", STRING.sub('""', text))


def library(text):
    """The names that a file takes from the libraries: they keep their spelling."""
    found = set()
    for m in re.finditer(r"\buse ([^\s;{]+)(?:\{([^}]*)\})?", text):
        if not m[1].startswith("Rattle.") or m[1].startswith("Rattle.std."):
            found |= {x.strip().split(" as ")[0] for x in (m[2] or "").split(",")}
    return found


def fields_of(texts):
    """The fields of the records that are declared here."""
    found = set()
    for path, text in texts.items():
        inside = None
        for line in code_of(text).splitlines() if path.endswith(".antt") else ():
            indent = len(line) - len(line.lstrip())
            if inside is not None and line.strip() and indent <= inside:
                inside = None
            if inside is not None and (m := DECLARED.match(line)):
                found.add(m[3])
            if re.match(r" *(pub )?record ", line):
                inside = indent
    return found


def names_of(texts):
    declared, taken, defined = {}, set(), set()
    for path, text in texts.items():
        taken |= library(text)
        if not path.endswith(".antt"):
            continue
        code = code_of(text)
        made = path.endswith("/Proof.antt")
        for m in DECLARED.finditer(code):
            if "tie." not in m[5].split("→")[0] and not m[3].endswith("-spec") and not (made and "goal." in m[5]):
                declared[m[3]] = OTHERWISE.get(m[3], snake(m[3]))
                if not made and ("/specs/" in path or "-" not in m[3] and re.search("[A-Z]", m[3]) or re.search("abbrev|unfoldable|data|record", m[2])):
                    defined.add(m[3])
        for m in TOGETHER.finditer(code) if not made else ():
            declared.update({n: snake(n) for n in WORD.findall(m[1]) if is_old(n)})
            defined |= {n for n in WORD.findall(m[1])}
    alike = {}
    for old, new in declared.items():
        alike.setdefault(new, []).append(old)
    for new, olds in alike.items():
        for old in olds:
            if len(olds) > 1 and old not in defined:
                declared[old] = new + "_lem"
    return {old: new for old, new in declared.items() if old != new and old not in taken and (is_old(old) or new.endswith("_lem"))}


def locals_of(text):
    found = set()
    for m in CLAUSE.finditer(text):
        found |= set(WORD.findall(m[2]))
    for m in LET.finditer(text):
        found.add(m[1])
    for m in list(BOUND.finditer(text)) + list(LAMBDA.finditer(text)):
        found |= set(WORD.findall(m[1]))
    return {n: snake(n) for n in found if is_old(n)}


def turn(text, table, fields):
    """Turns whole words of code and of backticked spans. A word behind a dot turns only where it is a field of ours."""

    def word(m):
        old = m[0]
        if old not in table:
            return old
        if m.start() and m.string[m.start() - 1] == "." and old not in fields:
            return old
        return table[old]

    def comment(m):
        return SPAN.sub(lambda s: WORD.sub(word, s[0]), m[0])

    parts, at = [], 0
    for m in re.finditer(rf"{STRING.pattern}|{COMMENT.pattern}", text):
        parts.append(WORD.sub(word, text[at:m.start()]))
        parts.append(m[0] if m[0].startswith('"') else comment(m))
        at = m.end()
    parts.append(WORD.sub(word, text[at:]))
    return "".join(parts)


def main(argv):
    root = os.getcwd()
    texts = {}
    for path in files(root):
        with open(path, encoding="utf-8") as f:
            texts[path] = f.read()
    table = names_of(texts)
    fields = fields_of(texts)
    if "--list" in argv:
        for old, new in sorted(table.items()):
            print(old, new)
        return 0
    changed = 0
    for path, text in texts.items():
        if path.endswith(".antt"):
            code = code_of(text)
            own = table if path.endswith("/Proof.antt") else {**locals_of(code), **table}
            taken = library(text)
            own = {old: new for old, new in own.items() if old not in taken}
        else:
            own = {old: new for old, new in table.items() if is_old(old)}
        new = turn(text, own, fields)
        if new != text:
            changed += 1
            with open(path, "w", encoding="utf-8") as f:
                f.write(new)
    print(f"respell: {len(table)} names, {changed} files")
    return 0


if __name__ == "__main__":
    raise SystemExit(main(sys.argv[1:]))
