#!/usr/bin/env python3
"""Respells the repository's own names, once, after the kit's port.py.

Words and lemmas get snake case and types camel case, and the crate `either`, whose
name the kit has taken, becomes `either_stage`. A dash stays where it joins the word
that a lemma is about to what it is applied to, as in length-leaving, and in the names
that the checker makes (goals, invariants, steps). Names of src/, strings, inputs and
outputs stay. Run at the top of the checkout.
"""
import collections
import glob
import os
import re
import subprocess
import sys

TOKEN = r"[^\s(){};,.:λ\[\]\"@⌜⌝/]+"
# names of parameters and of imports, which the declarations do not show
LOCAL = ["lower-markers", "upper-markers", "work-places", "digit-of", "strengthOf", "greatestOf"]
# lemmas about a word, which keep the dash behind it
KEPT = ["length-leaving", "length-entering", "length-markers", "length-passed", "length-replies",
        "length-joined", "length-written"]


def sources():
    return sorted(glob.glob("crates/*/specs/*.antt")) + sorted(
        glob.glob("crates/*/proofs/**/*.antt", recursive=True))


def declared():
    names = collections.OrderedDict()
    pattern = re.compile(
        r"^(\s*)((?:abbrev|unfoldable|pub|record|data|opaque)\s+)*(" + TOKEN + r")\s*(\(.*\)|\{.*\})?\s*:(.*)$")
    for path in sources():
        for line in open(path):
            if line.lstrip().startswith("--"):
                continue
            found = pattern.match(line)
            if found and "goal." not in found.group(5):
                names.setdefault(found.group(3), path)
    return names


def respelled(name):
    if name in KEPT:
        return name
    if name[0].isupper():
        return "".join(part[:1].upper() + part[1:] for part in name.split("-"))
    if name.startswith("getD-"):
        return "get_or-" + snake(name[len("getD-"):])
    return snake(name)


def snake(name):
    name = re.sub(r"(?<=[a-z0-9])([A-Z])(?=[a-z])", lambda m: "_" + m.group(1).lower(), name)
    return name.replace("-", "_")


def table():
    known = declared()
    new = {}
    for name in list(known) + LOCAL:
        if re.search(r"[^\W\d_≤≡]-[\w]|[a-z][A-Z]|[\d]-[a-z]", name):
            to = respelled(name)
            if to != name:
                new[name] = to
    return known, new


def clauses(text):
    """The stretches of a .rt file that are in antt: ghost items, clauses and attributes."""
    start = re.compile(r"ghost use [^;]*;|#!?\[tactic\(.*?\)\]|\b(?:requires|ensures|ghost|law|measures|also_owns|also_shares)\b[^{};]*\{")
    at = 0
    while True:
        found = start.search(text, at)
        if not found:
            return
        begin, end = found.start(), found.end()
        if found.group().endswith("{"):
            depth = 1
            while depth:
                depth += {"{": 1, "}": -1}.get(text[end], 0)
                end += 1
        yield begin, end
        at = end


def respell(text, new):
    return re.sub(TOKEN, lambda m: new.get(m.group(), m.group()), text)


def main():
    known, new = table()
    taken = collections.defaultdict(list)
    for name in known:
        taken[new.get(name, name)].append(name)
    for to, olds in taken.items():
        if len(olds) > 1:
            print("falls together:", to, olds, [known[o] for o in olds])
    for path in sources():
        text = open(path).read()
        imported = set(re.findall(TOKEN, " ".join(
            line for line in text.split("\n") if line.startswith("use "))))
        tokens = set(re.findall(TOKEN, text))
        for name in tokens & set(new):
            if new[name] in tokens and new[name] != name:
                print("already there:", path, name, "->", new[name])
    for path in sorted(glob.glob("crates/*/src/*.rt")):
        text = open(path).read()
        items = set(re.findall(r"\b(?:fn|struct|enum|trait|const|mod|let|let mut) (\w+)", text))
        params = set(re.findall(r"\b(\w+): [&\w\[(]", text))
        words = set()
        for begin, end in clauses(text):
            words |= set(re.findall(TOKEN, text[begin:end]))
        for name in sorted(words & set(new)):
            if new[name] in items or new[name] in params:
                print("named in the source too:", path, new[name])
    if "--list" in sys.argv:
        for name, to in new.items():
            print(name, "->", to)
    if "--look" in sys.argv:
        return
    for path in sources():
        text = open(path).read()
        write(path, respell(text, new))
    for path in sorted(glob.glob("crates/*/src/*.rt")):
        text = open(path).read()
        out, at = [], 0
        for begin, end in clauses(text):
            out += [text[at:begin], respell(text[begin:end], new)]
            at = end
        write(path, "".join(out) + text[at:])
    for path in sorted(glob.glob("crates/*/must-fail/*.edit")):
        text = open(path).read()
        if "specs/" in text or "proofs/" in text or re.search(r"requires|ensures|ghost", text):
            write(path, respell(text, new))
    if os.path.isdir("crates/either"):
        subprocess.check_call(["git", "mv", "crates/either", "crates/either_stage"])
        for path in sources() + sorted(glob.glob("crates/*/src/*.rt")):
            text = open(path).read()
            text = text.replace("Rattle.either.", "Rattle.either_stage.")
            text = re.sub(r"\beither::", "either_stage::", text)
            write(path, text)
        lines = open("crates.txt").read().split("\n")
        write("crates.txt", "\n".join(
            line if line.startswith("#") else re.sub(r"\beither\b", "either_stage", line) for line in lines))


def write(path, text):
    if open(path).read() != text:
        open(path, "w").write(text)


main()
