#!/usr/bin/env python3
"""Gives the repository's own definitions and lemmas the spelling of the library: words in snake case, facts and types
in camel case, and a dash only between two names that a lemma is about.

usage: python3 tools/respell.py    at the top, once, right after the kit's port.py, which turns the library's own names

Two crates whose names the library has by now get others. Names of src/, strings, comments and goals of proofs keep their spelling. It prints each name with its new spelling,
and stops, changing nothing, where two names would become one.
"""

import glob
import os
import re
import sys

SIGNATURE = re.compile(r"^\s*(?:(?:pub|abbrev|unfoldable) )*([^\s(){}:,;.\[\]]+)\s*:(?!=)\s*(.*)$")
ALIAS = re.compile(r"^(?:ghost )?use .* as ([a-z]+(?:-[a-z]+)+);?$")
WORD = re.compile(r"[^\s(){}:,;.\[\]λ«»\"|]+")
# strings, comments, or a run of other text
PARTS = {
    ".antt": re.compile(r'"(?:[^"\\]|\\.)*"|--(?= |$)[^\n]*|(?:(?!"|--(?: |$)).)+|\n', re.S | re.M),
    ".rt": re.compile(r'"(?:[^"\\]|\\.)*"|//[^\n]*|(?:(?!"|//).)+|\n', re.S),
}
# words of the library that a lemma is about, beside the repository's own definitions
LIBRARY = {"length", "take", "drop", "get_or", "fold", "zeros", "replicate", "map", "mapped"}
OLDER = {"getD": "get_or", "folded": "fold"}
# crates that the library has under the same name
CRATES = {"hex": "hexadecimal", "log": "log_store"}


def files(*patterns):
    return sorted(p for pattern in patterns for p in glob.glob(pattern, recursive=True))


ANTT = files("crates/*/specs/**/*.antt", "crates/*/proofs/**/*.antt")
RT = files("crates/*/src/**/*.rt")
PAGES = files("README.md", "docs/*.md")


def declared():
    """The names that are declared with a dash: those of specs/, and all."""
    defined, every = [], []
    for path in ANTT:
        for line in open(path, encoding="utf-8").read().split("\n"):
            alias = ALIAS.match(line)
            found = SIGNATURE.match(line)
            if alias:
                every.append(alias[1])
            if not found or "-" not in found[1] or found[1] == "-" or re.match(r"(goal|given)\.", found[2]):
                continue
            every.append(found[1])
            if "/specs/" in path:
                defined.append(found[1])
    return sorted(set(defined)), sorted(set(every))


def camel(name):
    return "".join(w[:1].upper() + w[1:] for w in re.split(r"[-_]", name))


def plain_names():
    """The definitions of specs/ that have one word."""
    names = set()
    for path in files("crates/*/specs/**/*.antt"):
        for line in open(path, encoding="utf-8").read().split("\n"):
            found = SIGNATURE.match(line)
            if found and not line.startswith(" "):
                names.add(found[1])
    return names


def lemma(name, known):
    """A dash stays between two names; a plain word is added by an underscore."""
    words = [OLDER.get(w, w) for w in name.split("-")]
    parts, i = [], 0
    while i < len(words):
        for j in range(len(words), i, -1):
            if "_".join(words[i:j]) in known:
                break
        whole = "_".join(words[i:j])
        parts.append((whole, whole in known))
        i = j
    text = parts[0][0]
    for (_, a), (word, b) in zip(parts, parts[1:]):
        text += ("-" if a and b else "_") + word
    return text


def spelling():
    defined, every = declared()
    aliases = {n for n in every if re.fullmatch(r"[a-z]+-trip|hex-back", n)}
    laws = {n for p in files("crates/*/specs/*.antt") if re.search(r"/(Laws|Pairs|Lowest|Writes|Lasts|Appends|\w*Lemmas)\.antt$", p)
            for l in open(p, encoding="utf-8").read().split("\n") for f in [SIGNATURE.match(l)] if f for n in [f[1]]}
    words = {n.replace("-", "_") for n in defined if n not in laws} | plain_names() | LIBRARY
    turned = {}
    for name in every:
        if name in aliases or name[:1].isupper():
            turned[name] = camel(name)
        elif name in defined and name not in laws:
            turned[name] = name.replace("-", "_")
        else:
            turned[name] = lemma(name, words)
    return {a: b for a, b in turned.items() if a != b}


def rename_crates():
    for old, new in CRATES.items():
        if not os.path.isdir("crates/" + old):
            continue
        os.rename("crates/" + old, "crates/" + new)
        for path in files("crates/*/specs/**/*.antt", "crates/*/proofs/**/*.antt", "crates/*/src/**/*.rt", "crates.txt"):
            text = open(path, encoding="utf-8").read()
            out = re.sub(rf"\bRattle\.{old}\.", f"Rattle.{new}.", text)
            if path.endswith(".rt"):
                out = re.sub(rf"\buse {old}::", f"use {new}::", out)
            if path == "crates.txt":
                out = re.sub(rf"(?m)(?<![\w#]){old}\b(?!.*#)", new, out)
            if out != text:
                open(path, "w", encoding="utf-8").write(out)


def main():
    turned = spelling()
    texts = {p: open(p, encoding="utf-8").read() for p in ANTT + RT}
    used = set()
    for path in ANTT:
        for part in PARTS[".antt"].findall(texts[path]):
            if part[:1] != '"' and part[:2] != "--":
                used.update(WORD.findall(re.sub(r"(?m)^use [^{\n]*", "", part)))
    clash = [f"{a} and {b}" for a, b in turned.items() if b in used]
    clash += [f"{a} and {c}" for a, b in turned.items() for c, d in turned.items() if a < c and b.lower() == d.lower()]
    if clash:
        sys.exit("respell: these would become one name: " + "; ".join(clash))
    turn = lambda m: turned.get(m[0], m[0])
    for path, text in texts.items():
        kind = path[path.rindex("."):]
        out = "".join(p if p[:1] == '"' or p[:2] in ("--", "//") else WORD.sub(turn, p) for p in PARTS[kind].findall(text))
        if out != text:
            open(path, "w", encoding="utf-8").write(out)
    for path in PAGES:
        text = open(path, encoding="utf-8").read()
        out = re.sub(r"`([^`\n]+)`", lambda m: "`" + WORD.sub(turn, m[1]) + "`", text)
        if out != text:
            open(path, "w", encoding="utf-8").write(out)
    rename_crates()
    for a, b in turned.items():
        print(f"{a} -> {b}")


main()
