#!/usr/bin/env python3
"""Spells this repository's own definitions and lemmas in snake case, as 'list-sound' to 'list_sound'.

usage: respell.py [TOP]     at the top of a checkout in which the toolchain's script for older repositories has run

Turned is each name with a dash that a file of specs/ or proofs/ declares (a function's own Proof.antt aside, whose
names Rattle makes) or binds, wherever it stands: in antt code, in the clauses of src/, in must-fail edits, and in the
code spans of pages and comments. A type goes to camel case. Names of the library keep theirs.
Two names of one file that would fall together are an error, and nothing is written; in a function's own proof file
such a pair is a name and the folder of the function called so.
"""
import collections
import glob
import os
import re
import sys

WORD = re.compile(r'[^\s(){}.;,@"«»`]+')
DECLARED = re.compile(r"(?m)^ *(?:pub |abbrev |unfoldable |data |record )*(\S+)(?: \{[^{}\n]*\})* :")
USE = re.compile(r"use ([\w.]+)\.\{([^}]*)\}")
BOUND = re.compile(r"(?:λ|\blet|\{|\() *((?:[^\s(){}.;,:=]+ )*[^\s(){}.;,:=]+) *(?:\.|:|=)")
DASHED = re.compile(r"[^\W\d_][\w'₀-₉]*(?:-[\w'₀-₉]+)+")
OURS = {"rules", "laws", "words", "problem", "tables", "knuth", "init", "links", "search", "calls", "door", "timed",
        "decimal", "replay", "night", "text", "cover"}


def read(path):
    with open(path, encoding="utf-8") as f:
        return f.read()


def of_a_function(path):
    return re.search(r"/proofs/.+/Proof\.antt$", path)


def of_the_library(text):
    """The dashed names that a file takes from the library."""
    names = set()
    for at, items in USE.findall(text):
        parts = at.split(".")
        if parts[0] != "Rattle" or parts[1] not in OURS:
            names.update(i.split(" as ")[0].strip() for i in items.split(",") if "-" in i)
    return names


def new(name):
    if "-" in name and name[0].isupper() and not re.match(r"[PT]\d*-", name):
        return "".join(p[:1].upper() + p[1:] for p in name.split("-"))
    if re.match(r"[PT]\d*-", name):
        name = name[0].lower() + name[1:]
    return name.replace("-", "_")


def declared(files):
    names = set()
    for path in files:
        if of_a_function(path):
            continue
        code = re.sub(r"--[^\n]*", "", read(path))
        names.update(n for n in DECLARED.findall(code) if DASHED.fullmatch(n))
        for group in BOUND.findall(code):
            names.update(n for n in group.split() if DASHED.fullmatch(n))
    return names


def local(code):
    """The lemmas that a function's own proof file declares, beside the answers that Rattle names."""
    found = re.findall(r"(?m)^(?:pub )?(\S+) : (?!tie\.)(?!\{M : Type 1\})", code)
    return {n for n in found if DASHED.fullmatch(n)}


def turn_words(text, names, kept):
    return WORD.sub(lambda m: new(m[0]) if m[0] in names and m[0] not in kept else m[0], text)


def turn_spans(text, names):
    return re.sub(r"`[^`\n]+`", lambda m: turn_words(m[0], names, ()), text)


def turn_antt(text, names, kept):
    out = []
    for line in text.split("\n"):
        at = re.search(r"(?<!\S)--( |$)|(?<!\S)-- ----", line)
        code, note = (line[: at.start()], line[at.start():]) if at else (line, "")
        out.append(turn_words(code, names, kept) + turn_spans(note, names))
    return "\n".join(out)


def turn_rt(text, names, kept):
    out = []
    for line in text.split("\n"):
        code, slashes, note = line.partition("//")
        out.append(turn_words(code, names, kept) + slashes + turn_spans(note, names))
    return "\n".join(out)


def turn_edit(text, names):
    return "\n".join(turn_words(l, names, ()) if re.match(r"(old|new):", l) else turn_spans(l, names)
                     for l in text.split("\n"))


def pages(top):
    return glob.glob(f"{top}/*.md") + glob.glob(f"{top}/docs/**/*.md", recursive=True)


def main():
    top = sys.argv[1] if len(sys.argv) > 1 else "."
    antt = [p for p in glob.glob(f"{top}/crates/*/**/*.antt", recursive=True) if "/out/" not in p]
    names = declared(antt)
    done, clash = {}, []
    for path in antt:
        text = read(path)
        kept = of_the_library(text)
        code = re.sub(r"(?<!\S)--( [^\n]*|$)", "", text, flags=re.M)
        turned = names | local(code) if of_a_function(path) else names
        met = collections.defaultdict(set)
        for w in WORD.findall(code):
            met[new(w) if w in turned and w not in kept else w].add(w)
        if not of_a_function(path):
            clash += [f"{path}: {', '.join(sorted(ws))}" for ws in met.values() if len(ws) > 1]
        done[path] = turn_antt(text, turned, kept)
    for path in glob.glob(f"{top}/crates/*/src/**/*.rt", recursive=True):
        text = read(path)
        done[path] = turn_rt(text, names, of_the_library(text))
    for path in glob.glob(f"{top}/crates/*/must-fail/*.edit"):
        done[path] = turn_edit(read(path), names)
    # What the toolchain's script has turned already, a page still names by its old spelling.
    ready = {n for p in antt for n in DECLARED.findall(read(p)) if "_" in n}
    spelled = {w for p in pages(top) for w in re.findall(r"[\w'-]+", read(p)) if new(w) in ready}
    for path in pages(top):
        done[path] = turn_spans(read(path), names | spelled)
    if clash:
        print("\n".join(clash))
        raise SystemExit(1)
    for path, text in done.items():
        if text != read(path):
            with open(path, "w", encoding="utf-8") as f:
                f.write(text)
    print(len(names), "names")


if __name__ == "__main__":
    main()
