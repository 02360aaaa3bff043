#!/usr/bin/env python3
"""Gives this repository's definitions and lemmas the spelling of today's Rattle: words in snake case, types in camel case.

usage: python3 tools/respell.py [TABLE]      at the top, once, after the kit's own port.py

TABLE (tools/names.txt) has a line for each name: the old and the new one. They are changed in specs/, in proofs/, in the clauses of src/
(outside strings and comments) and between backticks of comments and of docs/. A word of the library that was brought in under another word's name gets its own name. Functions of src/, strings, inputs and outputs keep their names.
"""
import glob
import os
import re
import sys

HERE = os.path.dirname(os.path.realpath(__file__))
TOKEN = re.compile(r"[^\s(){};,.@\"\[\]`|:]+")


def table(path):
    with open(path, encoding="utf-8") as f:
        return dict(line.split() for line in f if line.strip())


def plain(text, names):
    return TOKEN.sub(lambda m: names.get(m.group(0), m.group(0)), text)


def quoted(text, names):
    return re.sub(r"`[^`]*`", lambda m: plain(m.group(0), names), text)


# the library's own names for its words: All is another word of the library now
def own_words(text):
    if "AllByRecursion as All" not in text:
        return text
    lines = text.replace("AllByRecursion as All", "AllByRecursion").split("\n")
    return "\n".join(line if line.lstrip().startswith(("--", "//")) else plain(line, {"All": "AllByRecursion"}) for line in lines)


def antt(text, names):
    lines = []
    for line in text.split("\n"):
        code, dash, comment = line.partition("--") if line.lstrip().startswith("--") else (line, "", "")
        lines.append(plain(code, names) + dash + quoted(comment, names))
    return "\n".join(lines)


def source(text, names):
    # a string, a comment, or anything else
    parts = re.findall(r"\"(?:\\[\s\S]|[^\"\\])*\"|//[^\n]*|[^\"/]+|[\"/]", text)
    return "".join(p if p.startswith('"') else quoted(p, names) if p.startswith("//") else plain(p, names) for p in parts)


def main():
    names = table(sys.argv[1] if len(sys.argv) > 1 else os.path.join(HERE, "names.txt"))
    turns = [("crates/**/*.antt", antt), ("crates/**/*.rt", source), ("docs/[A-Z]*.md", quoted), ("README.md", quoted)]
    for pattern, turn in turns:
        for path in glob.glob(pattern, recursive=True):
            if "/out/" in path:
                continue
            with open(path, encoding="utf-8") as f:
                old = f.read()
            new = own_words(turn(old, names))
            if new != old:
                with open(path, "w", encoding="utf-8") as f:
                    f.write(new)


if __name__ == "__main__":
    main()
