#!/usr/bin/env python3
"""Spells this repository's own definitions, lemmas, fields and constructors in snake case.

usage: python3 tools/respell_names.py     at the top of the repository, once, after the kit's port.py

Types and modules keep their capitals, and so do the names that Rattle makes of the code (goals and steps of
proofs). Functions of src/, strings, inputs and outputs are not touched. Where a lemma would get the name of a
definition or a field, it gets `_lem` behind it. Prints what it renamed. A second run changes nothing.
"""
import collections
import glob
import re
import sys

WORD = r'[^\s(){}.;,@"«»:|\[\]`]+'
TOKEN = re.compile(rf'"(?:[^"\\\n]|\\.)*"|{WORD}|.', re.S)
TOP = re.compile(rf"^(?:(?:abbrev|unfoldable|pub|opaque) )*({WORD})\s*((?::|\().*)", re.M)
INNER = re.compile(rf"^ +(?:pub )?({WORD})( : .*)", re.M)
RECORD = re.compile(r"^(?:pub )?(?:record|data) .*? where *\n((?:(?: .*)?\n)*)", re.M)
# steps of a proof, whose fields Rattle names
STEPS = {"c", "w", "l", "g", "goal"}
# variables of definitions
VARIABLES = {"afterP": "after_p", "afterQ": "after_q", "ofKind": "of_kind"}


def snake(name):
    return re.sub(r"(?<=[a-z0-9])[A-Z]", lambda m: "_" + m.group().lower(), name.replace("-", "_"))


def without_comments(text):
    return re.sub(r"--[^\n]*", "", text)


def declared():
    """The own names that begin with a small letter, and those of them that are fields or constructors."""
    names, fields = set(), set()
    for path in sorted(glob.glob("crates/*/specs/*.antt") + glob.glob("crates/*/proofs/**/*.antt", recursive=True)):
        text = without_comments(open(path, encoding="utf-8").read())
        for found in list(TOP.finditer(text)) + list(INNER.finditer(text)):
            if not re.match(r"\s*:\s*goal\.", found.group(2)):
                names.add(found.group(1))
        for block in RECORD.finditer(text):
            fields |= {m.group(1) for m in INNER.finditer(block.group(1))}
    small = re.compile(r"[a-z][\w'-]*\Z")
    return {n for n in names if small.match(n)}, {n for n in fields if small.match(n)}


def table_of(names):
    """Old to new names. Of two that fall together the one with dashes or underscores is a lemma."""
    meet = collections.defaultdict(set)
    for name in names:
        meet[snake(name)].add(name)
    table = {}
    for new, olds in meet.items():
        for old in olds:
            lemma = len(olds) > 1 and not re.search("[A-Z]", old)
            table[old] = new + "_lem" if lemma else new
    return {old: new for old, new in (table | VARIABLES).items() if old != new}


def respell(text, table, fields, comment):
    """The text with its names respelled: words of code, and in comments words with capitals and what stands in backticks."""
    out, at = [], 0
    for found in re.finditer(rf"{comment}[^\n]*", text):
        out += [respell_code(text[at:found.start()], table, fields), respell_prose(found.group(), table)]
        at = found.end()
    return "".join(out) + respell_code(text[at:], table, fields)


def respell_code(text, table, fields):
    out, before = [], ["", ""]
    for found in TOKEN.finditer(text):
        word = found.group()
        if word in table and (before[1] != "." or is_own(before[0], word, fields)):
            word = table[word]
        out.append(word)
        before = [before[1], found.group()]
    return "".join(out)


def is_own(head, word, fields):
    """Whether `head.word` names something of this repository: an item of a module, or a field."""
    return head[:1].isupper() or (word in fields and head not in STEPS)


def respell_prose(text, table):
    def word(found):
        old = found.group()
        return table.get(old, old) if re.search("[A-Z]", old) else old

    text = re.sub(r"[a-z][\w'-]*", word, text)
    return re.sub(r"`([^`\n]+)`", lambda m: "`" + re.sub(WORD, lambda w: table.get(w.group(), w.group()), m.group(1)) + "`", text)


def main():
    names, fields = declared()
    table = table_of(names)
    taken = collections.defaultdict(list)
    for path in sorted(glob.glob("crates/*/src/**/*.rt", recursive=True) + glob.glob("crates/*/specs/*.antt") + glob.glob("crates/*/proofs/**/*.antt", recursive=True)):
        text = open(path, encoding="utf-8").read()
        for word in set(re.findall(WORD, re.sub("(--|//).*", "", text))) & set(table.values()) - set(table):
            taken[word].append(path)
        new = respell(text, table, fields, "--" if path.endswith(".antt") else "//")
        if new != text:
            open(path, "w", encoding="utf-8").write(new)
    for path in ["README.md", *sorted(glob.glob("docs/*.md"))]:
        text = open(path, encoding="utf-8").read()
        new = re.sub(r"`([^`\n]+)`", lambda m: "`" + re.sub(WORD, lambda w: table.get(w.group(), w.group()) if re.search("[A-Z-]", w.group()) else w.group(), m.group(1)) + "`", text)
        if new != text:
            open(path, "w", encoding="utf-8").write(new)
    for old in sorted(table):
        print(f"{old}\t{table[old]}")
    for word in sorted(taken):
        print(f"look: {word} stood already in {' '.join(taken[word])}", file=sys.stderr)


if __name__ == "__main__":
    main()
