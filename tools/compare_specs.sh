#!/bin/sh
# tools/compare_specs.sh [CHECKOUT [CRATE..]]: what the port changed in what is promised, beyond the spelling that scripts turned.
#
# The last commit that landed before the port (LANDED in docs/PORT.md) is checked out in a temporary folder, and turned there by port.py and
# tools/respell.py as the checkout was: so only what was changed by hand since then is left. Printed is the diff from that to CHECKOUT (left
# out: the one that this script is in), of all crates or of those named: of specs/, of must-fail/, of a program's input and output, and of src/
# with each function's body left out, so that clauses, signatures, types and constants are compared. What was moved from a file of specs/
# to the file of that name in proofs/ is compared as if it stood in specs/ still, below a line that says so. Ends with 0 if nothing
# differs, 1 if something does, 2 if it could not compare. Takes three to seven minutes; with PORTED=FOLDER the turned
# commit is kept in FOLDER, and taken from there the next time.
set -u
here=$(cd "$(dirname "$0")" && pwd)
top=${1:-$here/..}
[ $# -eq 0 ] || shift
fail() { echo "compare_specs: $*" >&2; exit 2; }
top=$(cd "$top" && pwd) || fail "no checkout is there"
[ -d "$top/crates" ] || fail "$top has no crates/"
landed=$(awk '$2 == "LANDED:" { print $1 }' "$top/docs/PORT.md")
[ -n "$landed" ] || fail "docs/PORT.md names no commit as LANDED"
room=$(mktemp -d) || fail "no temporary folder can be made"
trap 'rm -rf "$room"' EXIT
trap 'exit 2' HUP INT TERM
ported=${PORTED:-$room/ported}
if [ ! -e "$ported/turned" ]; then
    rm -rf "$ported"
    mkdir -p "$ported" && git clone -q --no-hardlinks "$top" "$ported/repository" || fail "the repository cannot be cloned"
    (
        cd "$ported/repository" &&
        git checkout -q "$landed" &&
        python3 /opt/rattle/port/port.py &&
        cp "$here/respell.py" "$here/respelled.tsv" tools/ &&
        python3 tools/respell.py &&
        for crate in crates/*/; do (cd "$crate" && rt fmt); done
    ) > "$ported/said" 2>&1 || { tail -5 "$ported/said" >&2; fail "the old commit could not be turned"; }
    true > "$ported/turned"
fi

cat > "$room/promised.py" <<'END'
"""promised.py FROM TO LANDED [CRATE..]: copies what a repository promises: of src/ all but the bodies of functions, and of proofs/
what has the name of a file of LANDED's specs/."""
import os
import re
import shutil
import sys

SKIP = re.compile(r"//[^\n]*|/\*.*?\*/|b?r(#*)\".*?\"\1|b?\"(?:\\.|[^\"\\])*\"|b?'(?:\\.[^']*|[^'\\])'", re.S)
CLAUSE = re.compile(r"\b(requires|ensures|decreases|ghost|where)\b\s*\*?\s*[\w']*\s*:?\s*$")


def blank(text):
    """The text with comments, strings and characters blanked."""
    return SKIP.sub(lambda m: re.sub(r"[^\n]", " ", m[0]), text)


def closed(text, i):
    """Where the brace that opens at i is closed."""
    depth = 0
    for j in range(i, len(text)):
        depth += (text[j] == "{") - (text[j] == "}")
        if depth == 0:
            return j
    return len(text) - 1


def bodiless(text):
    plain, out, at = blank(text), [], 0
    for m in re.finditer(r"\bfn\s+\w+", plain):
        if m.start() < at:
            continue
        i, depth, since = m.end(), 0, m.end()
        while i < len(plain):
            c = plain[i]
            depth += (c in "([") - (c in ")]")
            if c == ";" and depth == 0:
                break
            if c == "{" and depth == 0:
                j = closed(plain, i)
                if not CLAUSE.search(plain[since:i]):
                    out += [text[at:i], "{ .. }"]
                    at = i = j + 1
                    break
                i = since = j
            i += 1
    return "".join(out) + text[at:]


source, to, landed, crates = sys.argv[1], sys.argv[2], sys.argv[3], sys.argv[4:]
for crate in crates or sorted(os.listdir(os.path.join(source, "crates"))):
    for folder, dirs, files in os.walk(os.path.join(source, "crates", crate)):
        dirs[:] = [d for d in dirs if d not in ("out", "proofs")]
        for name in files:
            path = os.path.join(folder, name)
            copy = os.path.join(to, os.path.relpath(path, source))
            os.makedirs(os.path.dirname(copy), exist_ok=True)
            if name.endswith(".rt"):
                with open(path, encoding="utf-8") as f, open(copy, "w", encoding="utf-8") as g:
                    g.write(bodiless(f.read()))
            else:
                shutil.copy(path, copy)
    moved = os.path.join(source, "crates", crate, "proofs")
    for name in sorted(os.listdir(moved)) if os.path.isdir(moved) else []:
        spec = os.path.join("crates", crate, "specs", name)
        if name != "Lib.antt" and os.path.isfile(os.path.join(landed, spec)) and not os.path.samefile(source, landed):
            os.makedirs(os.path.join(to, "crates", crate, "specs"), exist_ok=True)
            with open(os.path.join(moved, name), encoding="utf-8") as f, open(os.path.join(to, spec), "a", encoding="utf-8") as g:
                g.write(f"-- moved to proofs/{name}:\n" + f.read())
END
mkdir "$room/landed" "$room/now"
python3 "$room/promised.py" "$ported/repository" "$room/landed" "$ported/repository" "$@" || fail "the old commit cannot be read"
python3 "$room/promised.py" "$top" "$room/now" "$ported/repository" "$@" || fail "the checkout cannot be read"
cd "$room" && git diff --no-index --no-prefix landed now
