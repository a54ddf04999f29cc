#!/usr/bin/env python3
"""Lists places in crates/*/src that read like an older language, by whole functions and types.

usage: python3 tools/count_places.py [ROOT]

It prints lines to look at, and judges nothing: docs/DESIGN-PASS.md says what became of each.
"""

import collections
import difflib
import glob
import itertools
import re
import sys

ROOT = sys.argv[1] if len(sys.argv) > 1 else "."
ALIKE = 0.62  # two bodies with this share of equal words are listed
LONG = 14  # words; shorter bodies are alike by chance


def sources():
    """(path below crates/, text without comments, strings and tests)"""
    for path in sorted(glob.glob(ROOT + "/crates/*/src/**/*.rt", recursive=True)):
        if path.endswith("tests.rt"):
            continue
        text = open(path, encoding="utf-8").read().split("#[cfg(test)]")[0]
        text = re.sub(r"//[^\n]*", "", text)
        yield path.split("crates/")[1], re.sub(r'"(\\.|[^"\\])*"', '""', text, flags=re.S)


def closing(text, at, opener, closer):
    """the place behind the bracket that closes the one before `at`"""
    depth = 1
    while depth and at < len(text):
        depth += (text[at] == opener) - (text[at] == closer)
        at += 1
    return at


def functions():
    """(file, name, parameters, result and clauses, body)"""
    for path, text in sources():
        for found in re.finditer(r"\bfn (\w+)(<[^(]*>)?\(", text):
            end = closing(text, found.end(), "(", ")")
            clauses = re.match(r"[^{;]*(\{ [^\n]* \}[^{;]*)*", text[end:]).group(0)
            start = end + len(clauses)
            if text[start : start + 1] != "{":
                continue
            yield path, found.group(1), text[found.end() : end - 1], clauses, text[start + 1 : closing(text, start + 1, "{", "}") - 1]


def bodies_of(kind):
    """(file, name, what stands in the braces) of each struct or enum"""
    for path, text in sources():
        for found in re.finditer(kind + r" (\w+)[^{;]*\{([^}]*)", text):
            yield path, found.group(1), found.group(2)


def outcomes(all_functions):
    for path, name, parameters, rest, body in all_functions:
        if "&mut" in parameters and re.match(r"\s*-> (bool|usize|u16)\b", rest):
            print("  changes and answers a bool or number:", path, name)
        if re.search(r"\breturn (0|false);", body):
            print("  return 0 or false:", path, name)
        if re.match(r"\s*-> Option<\w*(Refusal|Fault|Failure)>", rest):
            print("  refusal as Option:", path, name)
    for path, name, fields in bodies_of("struct"):
        if ": bool" in fields:
            print("  bool field:", path, name)
    for path, name, cases in bodies_of("enum"):
        names = re.findall(r"^\s*(\w+)", cases, re.M)
        if set(names) & {"None", "Absent", "Missing", "Ok", "Err", "Help", "Empty", "Unknown"} or len(names) == 2:
            print("  enum:", path, name, names)


def twins(all_functions):
    words = lambda body: re.findall(r"[A-Za-z_]\w*|\d+|[^\s\w]", re.sub(r"\b[A-Z]\w*::", "", body))
    long = [(path + "::" + name, words(body)) for path, name, _, _, body in all_functions if len(words(body)) >= LONG]
    pairs = []
    for (a, left), (b, right) in itertools.combinations(long, 2):
        ratio = difflib.SequenceMatcher(None, left, right, autojunk=False).ratio()
        if ratio >= ALIKE:
            pairs.append((ratio, a, b))
    for ratio, a, b in sorted(pairs, reverse=True):
        print("  %.2f %s ~ %s" % (ratio, a, b))


def loops(all_functions):
    for path, name, _, _, body in all_functions:
        for found in re.finditer(r"\b(while|for|loop)\b([^{]*)\{", body):
            print("  ", path, name, found.group(1), " ".join(found.group(2).split()))


def recurring(all_functions):
    facts, pairs = collections.defaultdict(set), collections.defaultdict(set)
    for path, name, parameters, rest, _ in all_functions:
        for clause in re.findall(r"(?:requires|ensures)\*? ?\w* ?\{ (.*) \};?\n", rest + "\n"):
            facts[clause].add(path + "::" + name)
        names = sorted(p.split(":")[0].replace("mut ", "").strip() for p in parameters.split(",") if ":" in p)
        for pair in itertools.combinations(names, 2):
            pairs[pair].add(path + "::" + name)
    for what, table in (("fact", facts), ("parameters", pairs)):
        for key, where in sorted(table.items(), key=lambda item: -len(item[1])):
            if len(where) >= 3:
                print("  %s at %d:" % (what, len(where)), key)


def buffers():
    for path, name, fields in bodies_of("struct"):
        if re.search(r": [^,]*\[", fields):
            print("  ", path, name, " ".join(fields.split())[:100])


everything = list(functions())
for title, show in (
    ("1. outcomes and absence", lambda: outcomes(everything)),
    ("2. bodies that are alike", lambda: twins(everything)),
    ("3. loops", lambda: loops(everything)),
    ("5. facts and parameters at three and more functions", lambda: recurring(everything)),
    ("6. structs with an array or a slice", buffers),
):
    print(title)
    show()
