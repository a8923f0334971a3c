#!/usr/bin/env python3
"""Brings this repository's own definitions and lemmas to the spelling of today's Rattle: snake case. Run once, at the top, right
after /opt/rattle/port/port.py. tools/respelled.tsv has each old name with its new one. A lemma that would have gained the name of
a function ends in _lem. Functions of src/, exported names, strings, inputs and outputs keep their names."""
import os
import re

names = dict(line.rstrip("\n").split("\t") for line in open("tools/respelled.tsv", encoding="utf-8"))
# the lemma `run_on` of run_for alone, where the definition `runOn` comes by the same name
LEMMA = "run_on"
TOKEN = re.compile(r"[^\s(){}\[\];.,\"`:!|\\]+")


def word(token, field, here):
    """A token's new spelling; after a dot it is a field, which has no _lem."""
    if token not in names or (token == LEMMA and not here):
        return token
    new = names[token]
    return re.sub(r"_lem$", "", new) if field else new


def respelled(text, here, only=None):
    """All tokens of a text, but for those that `only` refuses."""
    def one(m):
        t, before = m.group(0), text[m.start() - 1:m.start()]
        # a module's path has a dot too, and braces after it
        field = before == "." and "-" in t
        return t if only and not only(t) else word(t, field, here)
    return TOKEN.sub(one, text)


def camel(token):
    return "-" not in token and token != LEMMA


def comment(text, here):
    """In a comment words with a dash are English, but for those in backquotes."""
    parts = text.split("`")
    return "`".join(respelled(p, here, None if k % 2 else camel) for k, p in enumerate(parts))


def lines(text, mark, here, source):
    out = []
    for line in text.split("\n"):
        code, sep, rest = line, "", ""
        m = re.search(r"(^|\s)" + mark, line)
        if m:
            code, sep, rest = line[:m.start()], line[m.start():m.end()], line[m.end():]
        clause = not source or re.match(r"\s*(ghost use|requires|ensures|&&|×|\()", code)
        out.append(respelled(code, here, None if clause else camel) + sep + comment(rest, here))
    return "\n".join(out)


def write(path, turn):
    with open(path, encoding="utf-8") as f:
        old = f.read()
    new = turn(old)
    if new != old:
        with open(path, "w", encoding="utf-8") as f:
            f.write(new)


for folder, dirs, files in os.walk("crates"):
    dirs[:] = sorted(d for d in dirs if d != "out")
    for name in sorted(files):
        path = os.path.join(folder, name)
        here = path.startswith("crates/run_for/")
        if name.endswith(".antt"):
            write(path, lambda t: lines(t, "--", here, False))
        elif name.endswith(".rt"):
            write(path, lambda t: lines(t, "//", here, True))
        elif name.endswith(".edit"):
            write(path, lambda t: "\n".join(
                respelled(l, here, None if ".antt" in t else camel) if l.startswith(("old:", "new:")) else comment(l, here) for l in t.split("\n")))
pages = ["README.md", "second/README.md"] + ["docs/" + p for p in sorted(os.listdir("docs")) if p.endswith(".md")]
for path in pages + ["docs/requests/" + p for p in sorted(os.listdir("docs/requests"))]:
    write(path, lambda t: comment(t, False))
