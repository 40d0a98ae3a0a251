#!/usr/bin/env python3
"""Spells the repository's own definitions and laws in snake case, after port.py: `normalOf` becomes `normal_of`.

usage: python3 tools/respell.py        at the top of the repository, once

A name that is declared in specs/ or proofs/ in camel case is written in snake case, its parts that a dash joins each alone. Where another name has the new
spelling already, and both stand in one crate's reach, that one gets `_lem`. Rust names, strings and the names that Rattle makes stay as they are.
"""
import collections
import os
import re

TOKEN = re.compile(r"[^\s(){}.;,@\"«»\[\]\\`]+")
DECLARED = re.compile(r"^(\s*)((?:(?:pub|abbrev|unfoldable|data|record|ruleset|syntax)\s+)*)([^\s(){}.;,@\"«»\[\]\\:=]+)((?:\s*[({][^)}]*[)}])*)\s*:(?:\s|$)")
CLAUSE = re.compile(r"^\s*(ghost|requires|ensures|//)")


def files(*folders):
    for top in folders:
        if os.path.isfile(top):
            yield top
        for folder, inner, names in os.walk(top):
            inner[:] = sorted(d for d in inner if d not in ("out", "target", ".git"))
            for name in sorted(names):
                yield os.path.join(folder, name)


def read(path):
    with open(path, encoding="utf-8") as it:
        return it.read()


def snake(name):
    """The name in snake case; a part that begins with a capital is a fact or a type, and keeps its spelling."""
    out = []
    for part in re.split(r"([-→])", name):
        if part and not part[0].isupper():
            part = re.sub(r"(?<=[a-z0-9'])([A-Z]+)", lambda m: "_" + m.group(1).lower(), part)
        out.append(part)
    return "".join(out)


def main():
    declared = collections.defaultdict(set)
    texts = {}
    for path in files("crates"):
        if path.endswith(".antt"):
            texts[path] = read(path)
            for line in texts[path].splitlines():
                m = DECLARED.match(line)
                if m and (m.group(2) or not m.group(1)):
                    declared[m.group(3)].add(path)
    turned = {n: snake(n) for n in declared if snake(n) != n}
    taken = {}
    for old, new in turned.items():
        if new in declared:
            names = "|".join(map(re.escape, (old, new)))
            both = re.compile(r"(?<![\w'-])(?:" + names + r")(?![\w'-])")
            if any(len(set(both.findall(text))) == 2 for text in texts.values()):
                taken[new] = new + "_lem"
    print(len(turned), "names;", len(taken), "gave way:", " ".join(sorted(taken)))

    def turn(text, laws):
        def one(m):
            it = m.group(0)
            if it in turned:
                return turned[it]
            if laws and it in taken and text[m.start() - 1 : m.start()] != "." and text[m.end() : m.end() + 1] != ".":
                return taken[it]
            return it

        return TOKEN.sub(one, text)

    for path in files("crates", "wrong", "docs", "README.md"):
        text = read(path) if path.endswith((".antt", ".rt", ".edit", ".md")) else None
        if text is None:
            continue
        if path.endswith(".antt"):
            new = turn(text, True)
        elif path.endswith(".rt"):
            new = turn(text, False)
        elif path.endswith(".edit"):
            new = turn(text, False)
        else:
            new = re.sub(r"`[^`\n]+`", lambda m: turn(m.group(0), False), text)
        if new != text:
            with open(path, "w", encoding="utf-8") as it:
                it.write(new)


main()
