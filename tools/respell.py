#!/usr/bin/env python3
"""Respells the repository's own words: functions, lemmas and fields in snake case, types and facts in camel case.

Run it once at the top, after the spelling of the language itself was turned. It takes the names that specs/ and proofs/
declare, and writes them anew wherever specs/, proofs/, the ghost text of src/, the edits and the code spans of the
documents cite them. Names of the standard library, of goals and of src/ stay.
"""
import collections
import glob
import os
import re
import sys

WORDS = "pub|abbrev|unfoldable|data|record|ruleset|mutual"
HEAD = re.compile(r"^\s*((?:(?:%s)\s+)*)([^\s(){}:;=,.]+)\s*(.*)$" % WORDS)
TOKEN = re.compile(r"[A-Za-z][A-Za-z0-9_']*(?:-[A-Za-z0-9_']+)*")
IMPORT = re.compile(r"^\s*(?:ghost )?(?:pub )?use ([^\s{]+)\.\{([^}]*)\}")
FOREIGN = ("Rattle.std", "Prim", "mathlib", "native", "lib", "borrow", "denote", "specs", "sem")


def antt_files():
    return sorted(glob.glob("crates/*/specs/**/*.antt", recursive=True) + glob.glob("crates/*/proofs/**/*.antt", recursive=True))


def declared():
    """The names that are declared, each with the files that declare it."""
    found = collections.defaultdict(set)
    for path in antt_files():
        text = open(path).read()
        goals = set(re.findall(r"\bgoal\.([^\s(){},;]+)", text))
        for line in text.splitlines():
            m = HEAD.match(line)
            if not m:
                continue
            kinds, name, rest = m.group(1).split(), m.group(2), m.group(3)
            typed = rest.startswith(":") or "data" in kinds or "record" in kinds or "ruleset" in kinds
            if typed and TOKEN.fullmatch(name) and name not in goals:
                found[name].add(path)
    return found


def respelled(name):
    if name[0].isupper():
        parts = re.split(r"[-_]", name)
        return name if len(parts) == 1 else "".join(p[0].upper() + p[1:] for p in parts if p)
    return name.replace("-", "_")


def foreign(text):
    """What a file imports from elsewhere keeps its spelling."""
    kept = set()
    for line in text.splitlines():
        m = IMPORT.match(line)
        if m and m.group(1).startswith(FOREIGN):
            for part in m.group(2).split(","):
                kept.update(TOKEN.findall(part))
    return kept


def turn(text, table):
    kept = foreign(text)
    return TOKEN.sub(lambda m: table[m.group()] if m.group() in table and m.group() not in kept else m.group(), text)


def turn_code(text, table):
    """Rust: strings and comments stay."""
    parts = re.split(r'("(?:[^"\\]|\\.)*"|//[^\n]*)', text)
    kept = foreign(text)
    turned = [p if i % 2 else TOKEN.sub(lambda m: table[m.group()] if m.group() in table and m.group() not in kept else m.group(), p) for i, p in enumerate(parts)]
    return "".join(turned)


# `result` is now the word for what a function returns, so the definition of that name has another.
RESULT = re.compile(r"(?<![.\w'-])result(?![\w'-])")


def frees_result(path, text):
    """The definition `result` of Collected, where it is declared or imported."""
    if not path.endswith("rows/specs/Collected.antt") and not re.search(r"rows.specs.Collected\.\{[^}]*\bresult\b", text):
        return text
    if path.endswith(".antt"):
        return RESULT.sub("result_at", text)
    ghost = re.compile(r"^\s*(?:ghost|requires|ensures)\b")
    return "".join(RESULT.sub("result_at", line) if ghost.match(line) else line for line in text.splitlines(True))


def turn_page(text, table):
    return re.sub(r"`[^`\n]*`", lambda m: TOKEN.sub(lambda t: table.get(t.group(), t.group()), m.group()), text)


def main():
    names = declared()
    table = {n: respelled(n) for n in names if respelled(n) != n}
    for old, new in sorted(table.items()):
        if new in names or list(table.values()).count(new) > 1:
            print(f"falls together: {old} and {new}: {sorted(names[old] | names.get(new, set()))}")
    if "--list" in sys.argv:
        for old, new in sorted(table.items()):
            print(old, new)
        return
    groups = [
        (antt_files(), turn),
        (glob.glob("crates/*/src/**/*.rt", recursive=True), turn_code),
        (glob.glob("crates/*/must-fail/*.edit") + glob.glob("bugs/*/*.edit"), turn_code),
        (glob.glob("docs/*.md") + glob.glob("README.md"), turn_page),
    ]
    for paths, how in groups:
        for path in paths:
            if os.path.basename(path).startswith("PORT"):
                continue
            text = open(path).read()
            new = how(frees_result(path, text), table)
            if new != text:
                open(path, "w").write(new)


main()
