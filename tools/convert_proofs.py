#!/usr/bin/env python3
"""Turns the proofs by hand (proofs/F/Proof.antt) of the crates that are named into invariants and answers. It was written for the
port to today's Rattle, and asks `rt check --generated --old-names` for each goal's, place's and step's new name, so the crates
below must be proved. What it cannot turn it says, and leaves as it stands.

usage: tools/convert_proofs.py CRATE.."""
import json
import os
import re
import subprocess
import sys
import tempfile

WORD = r"[^\s(){}\[\];.,\"]"


def flat(name):
    return name.replace("_", "-")


def names_of(crate):
    with tempfile.TemporaryDirectory() as d:
        r = subprocess.run(["rt", "check", "--generated", d, "--old-names"], cwd="crates/" + crate, capture_output=True, text=True)
        path = os.path.join(d, "names.json")
        if not os.path.exists(path):
            sys.exit(f"{crate}: no names: {(r.stdout + r.stderr)[-1500:]}")
        found = {}
        for k, v in json.load(open(path)).items():
            m = re.match(r"Rattle-" + crate + r"-proofs\.(.*)\.Lts$", k)
            if m:
                found[m.group(1)] = v
        return found


def blocks(text):
    """The file's top-level pieces: a comment, a signature or a clause begins one at a line with no indentation."""
    out = []
    for line in text.split("\n"):
        begins = line and not line.startswith((" ", ")"))
        if begins or not out:
            out.append([line])
        else:
            out[-1].append(line)
    return ["\n".join(b) for b in out]


def groups(text):
    """Blocks put together: a comment with what follows, and a signature with its `unfolding` line and its clauses."""
    out, lead = [], ""
    for b in blocks(text):
        b = b.rstrip("\n")
        if not b:
            continue
        if b.startswith("--"):
            lead += b + "\n"
            continue
        m = re.match(r"(?:(?:abbrev|pub|unfoldable) )*(" + WORD + r"+)\s*(?:\{[^}]*\}\s*)?:(?:\s|$)", b)
        if b.startswith("use "):
            out.append(["use", None, lead + b])
        elif b.startswith("module ") or (out and out[-1][0] == "module" and b.startswith(" ")):
            out.append(["module", None, lead + b])
        elif m:
            out.append(["sig", m.group(1), lead + b])
        elif out and out[-1][0] in ("sig", "module"):
            out[-1][2] += "\n" + lead + b
        else:
            out.append(["other", None, lead + b])
        lead = ""
    if lead:
        out.append(["other", None, lead])
    return out


PREFIXES = ("overflow-", "nonzero-", "bounds-", "slice-bounds-", "offset-bounds-", "prove-")


def find(old, table):
    """The entry [old, new] of a table whose old name is this one, however port.py has spelled it."""
    want = flat(old)
    for o, n in table:
        if flat(o) == want:
            return n
    for o, n in table:
        if flat(n) == want:
            return n
    for p in PREFIXES:
        if want.startswith(p):
            for o, n in table:
                if flat(o) == want[len(p):]:
                    return n
    return None


def convert(crate, function, info, folder):
    path = os.path.join(folder, "Proof.antt")
    text = open(path, encoding="utf-8").read()
    if ".Tie as tie" not in text:
        return f"{path}: is not by a tie"
    said = []
    gs = groups(text)
    loops = info["loops"]
    recursion = "+" in function
    # names of goals, in the order of the proof
    goals, order = {}, []
    for kind, name, body in gs:
        if kind == "sig":
            m = re.search(r": tie\.Need-(" + WORD + "+)", body)
            if m:
                goals[name] = find(m.group(1), info["needs"])
                order.append(name)
    missing = [n for n in order if goals[n] is None]
    taken = {v for v in goals.values() if v}
    left = [n for _, n in info["needs"] if n not in taken]
    if missing and len(missing) == len(left):
        for n, new in zip(missing, left):
            goals[n] = new
            said.append(f"{n} is taken for {new}, by its place")
    elif missing and len(order) == len(info["needs"]):
        for n, (_, new) in zip(order, info["needs"]):
            goals[n] = goals[n] or new
    for n in missing:
        if goals[n] is None:
            said.append(f"no goal for {n}; goals with no answer: {left}")
    places = {}
    for p in info["places"]:
        new = info["places_by_name"][info["places"].index(p)]
        places[flat(p[0])] = new
    fields = {}
    for p in info["places"]:
        o, n = p[2]
        if o:
            fields.setdefault(flat(o), n)
    for (o, n), _ in loops:
        fields.setdefault(flat(o), n)
    used = set()

    def fix(body, answer):
        # the places
        inv = "".join(r"(?: (?:invariant|decreases)-" + WORD + "+)?" for _ in range(2 * len(loops)))
        def place(m):
            key = flat(m.group(1))
            if key in places:
                used.add(places[key])
                return places[key]
            low = key[:1].upper() + key[1:]
            if low in places:
                it = places[low]
                it = it[:1].lower() + it[1:]
                used.add(it)
                return it
            said.append(f"tie.{m.group(1)} is no place")
            return m.group(0)
        body = re.sub(r"tie\.(?!Need-|close|spec)(" + WORD + "+)" + inv, place, body)
        # the fields
        def field(m):
            f = flat(re.sub(r"_lem$", "", m.group(2)))
            if f in fields:
                if re.fullmatch(re.escape(f) + r"(-\d+)?-1", fields[f]) and m.group(1) != "before":
                    return m.group(0)
                if m.group(1) in ("args", "now", "old", "new", "requires", "ensures", "loop", "result"):
                    return m.group(0)
                return m.group(1) + "." + fields[f]
            return m.group(0)
        for _ in range(2):
            body = re.sub(r"(?<![\w'-])([\w'₀-₉-]+)\.([\w'-]+)(?![\w'-])", field, body)
            body = re.sub(r"(?<=\.)([\w'₀-₉-]+)\.([\w'-]+)(?![\w'-])", field, body)
        body = re.sub(r"\.(well|type)-(formed|inv)(?![\w-])", r".\1_\2", body)
        def renamed(m):
            return goals.get(m.group(0)) or m.group(0)
        body = re.sub(r"(?<![^\s(,])(?!tie\.)" + WORD + r"+(?![^\s),;])", renamed, body)
        return body

    answers, invariants, uses, helpers = [], [], [], []
    for kind, name, body in gs:
        if kind == "use":
            if ".Statement.{" in body or ".Tie as tie" in body:
                continue
            uses.append(body)
            continue
        if kind == "sig" and re.search(r": tie\.(invariant|decreases)-", body):
            m = re.search(r"abbrev (\S+) : tie\.(invariant|decreases)-(\S+)", body)
            which, old = m.group(2), m.group(3)
            if recursion and which == "decreases":
                said.append(f"the measure {name} is by hand")
                answers.append(body)
                continue
            at = [k for k, ((o, n), _) in enumerate(loops) if flat(o) == flat(old)]
            if not at:
                said.append(f"no loop {old}")
                answers.append(body)
                continue
            (o, new), variables_here = loops[at[0]]
            changed = info["changed"][at[0]]
            clause = re.search(r"(?s)\n" + re.escape(name) + r"((?: \S+)*?) =(\s.*)", body)
            if not clause:
                said.append(f"{name} has no plain clause")
                answers.append(body)
                continue
            given = clause.group(1).split()
            now = [v for v, c in zip(variables_here, changed) if c]
            want = [("l.initial." + v if c else "l." + v) for v, c in zip(variables_here, changed)] + ["l." + v for v in now]
            if len(given) != len(want):
                said.append(f"{name} has {len(given)} parameters, and the loop {want}")
            term = clause.group(2)
            # a signed variable is a whole number there, and no more its bits
            term = re.sub(r"\bof_z w64 (?=[(\w])", "", term)
            for g, w in sorted(zip(given, want), key=lambda x: -len(x[0])):
                if g != "_":
                    term = re.sub(r"(?<![\w'₀-₉.-])" + re.escape(g) + r"(?![\w'₀-₉-])", "\0" + w + "\0", term)
            term = term.replace("\0", "")
            invariants.append(f"abbrev pub {which}-{new} : goal.{which}-{new}\n{which}-{new} l ={term}")
            continue
        if kind == "sig" and name in goals:
            new = goals[name]
            plain = re.sub(r"\s+", " ", body[body.index("\n") + 1:] if "\n" in body else "")
            if re.fullmatch(re.escape(name) + r" c( κs)? = search rules ?", plain):
                continue
            if not new:
                answers.append("-- LEFT\n" + body)
                continue
            body = fix(body, True)
            body = re.sub(r"(?m)^(pub )?" + re.escape(new) + r" : tie\.Need-.*$", f"pub {new} : goal.{new}", body, count=1)
            body = re.sub(r"(?m)^" + re.escape(new) + r" (c|_)( κs| _)?(?= )", new + r" \1", body)
            answers.append(body)
            continue
        if kind == "sig" and re.search(r"(?m)^" + re.escape(name or "") + r" =\s*tie\.close", body):
            continue
        if kind == "sig" and "tie.close" in body:
            continue
        body = fix(body, False)
        if re.search(r"(?m)^(\S+) = \1$", body):
            continue
        answers.append(body)
    out = "\n".join(uses) + "\n" if uses else ""
    lead = "\n".join(re.findall(r"(?m)^--.*$", text.split("\nuse ")[0])) if text.startswith("--") else ""
    base = f"Rattle.{crate}.proofs.{function}"
    body = "\n\n".join(a.strip("\n") for a in answers)
    need_answers = bool(answers)
    if need_answers:
        t = out + f"use {base}.Goals as goal\n"
        if used:
            t += f"use {base}.Goals." + "{" + ", ".join(sorted(used)) + "}\n"
        open(os.path.join(folder, "Answers.antt"), "w", encoding="utf-8").write(t + "\n" + body + "\n")
    if invariants:
        t = out + f"use {base}.Given as goal\n"
        open(os.path.join(folder, "Invariants.antt"), "w", encoding="utf-8").write(t + "\n" + "\n\n".join(invariants) + "\n")
    os.remove(path)
    return "\n".join(f"{path}: {s}" for s in said)


for crate in sys.argv[1:]:
    names = names_of(crate)
    for folder, dirs, files in os.walk(f"crates/{crate}/proofs"):
        if "Proof.antt" in files:
            function = os.path.relpath(folder, f"crates/{crate}/proofs").replace(os.sep, ".")
            if function not in names:
                print(f"{folder}: no names for {function}")
                continue
            said = convert(crate, function, names[function], folder)
            if said:
                print(said)
