#!/usr/bin/env python3
"""Brings the repository's own definitions and lemmas to the spelling of today's Rattle. Run once, behind the kit's port.py.

usage: python3 tools/port/respell.py [--list]      at the top of the repository

A name of ours in camelCase is written in snake_case; a name whose words a dash joined has underscores, but for a dash beside a
type (`Sized-length`). Names of src/ keep theirs. What would fall together with another name in use is listed and has a name of
its own in OTHERS. --list only prints the map.
"""
import os
import re
import sys

WORD = re.compile(r"[^\W\d][\w'-]*", re.UNICODE)
DECLARED = re.compile(r"\s*(?:(?:pub|abbrev|unfoldable|pattern)\s+)*(?:(?:data|record|ruleset)\s+(?:pub\s+)?)?(?:pub\s+)?([^\W\d][\w'-]*)\s*(?::\s|:$|=)", re.UNICODE)

# Names that would fall together with a definition in use, and what stands for each: a lemma gets `_lem`.
OTHERS = {
    "all_words": "words_of_all",
    "field_in": "field_in_lem",
    "field_room": "field_room_lem",
    "is_true": "is_true_lem",
    "line_read": "line_read_lem",
    "of_number": "code_of_number",
    "rows_told": "rows_told_lem",
    "run_on": "run_on_lem",
    "same_kept": "same_kept_lem",
    "under_of": "under_of_lem",
    # std's words
    "bit-and": "bit_and_lem",
    "bit-or": "bit_or_lem",
    "bit-xor": "bit_xor_lem",
    "put-mid": "put_mid_lem",
    # another has the name
    "flat-room": "flat_wide",
    "so-far": "read_so_far",
}


# Constructors and parameters, which no line of their own declares.
BOUND = """
by-held by-parent c-is c-same card-told condition-false condition-unknown e-is event-told few-tests flat-room flat-was h-is h-same home-not-open
in-run lens-was m-is namedLeaf none-joining none-there not-due of-missing old-is order-at p-is paper-is plan-is rest-2 rules-are so-far sum-2 t-is
trigger-not-met zero-i
""".split()

# Names of ours that are std's too, and stay as std spells them.
STD = {"sub-zero", "zero-sub"}


def files(*ends):
    for folder, dirs, names in os.walk("crates"):
        dirs[:] = sorted(d for d in dirs if d not in ("out", "target"))
        for name in sorted(names):
            if name.endswith(ends):
                yield os.path.join(folder, name)


def is_function_proof(path):
    """A file in the folder of a function's proof, whose names follow the code."""
    parts = path.split(os.sep)
    return parts[2] == "proofs" and parts[-1] in ("Proof.antt", "Answers.antt", "Invariants.antt")


def comment_free(text):
    return re.sub(r"--(?![\w]).*", "", text)


def snake(part):
    return re.sub(r"(?<=[a-z0-9])([A-Z])", lambda m: "_" + m.group(1).lower(), part)


def respelled(name):
    parts = name.split("-")
    if any(p[:1].isupper() for p in parts):
        out = parts[0] if parts[0][:1].isupper() else snake(parts[0])
        for before, p in zip(parts, parts[1:]):
            joint = "-" if before[:1].isupper() or p[:1].isupper() else "_"
            out += joint + (p if p[:1].isupper() else snake(p))
        return out
    return snake("_".join(parts))


def names():
    declared = {}
    words = set()
    for path in files(".antt"):
        with open(path, encoding="utf-8") as f:
            text = f.read()
        if is_function_proof(path):
            continue
        words.update(WORD.findall(comment_free(text)))
        for n, line in enumerate(text.splitlines(), 1):
            m = DECLARED.match(line)
            if m:
                declared.setdefault(m.group(1), f"{path}:{n}")
    for name in BOUND:
        declared.setdefault(name, "bound")
    source = set()
    for path in files(".rt"):
        with open(path, encoding="utf-8") as f:
            source.update(WORD.findall(re.sub(r"//.*", "", f.read())))
    return declared, words, source


def main():
    declared, words, source = names()
    turned, fall = {}, []
    definitions = {respelled(name) for name in declared if "-" not in name}
    for name in sorted(set(declared) - STD):
        new = OTHERS.get(name) or respelled(name)
        if "-" in name and new in definitions:
            new += "_lem"
        if new != name:
            turned[name] = new
    by_new = {}
    for old, new in turned.items():
        by_new.setdefault(new, []).append(old)
    for new, olds in sorted(by_new.items()):
        if len(olds) > 1 or (new in words and new not in turned):
            fall.append((new, olds, "word" if new in words else "", "source" if new in source else ""))
    if "--list" in sys.argv:
        for old, new in turned.items():
            print(old, new, declared[old])
    for it in fall:
        print("falls together:", *it)
    print(f"{len(turned)} names, {len(fall)} fall together")
    if "--list" in sys.argv:
        return
    for path in files(".antt", ".rt", ".edit"):
        with open(path, encoding="utf-8") as f:
            text = f.read()
        new = WORD.sub(lambda m: turned.get(m.group(0), m.group(0)), text)
        if new != text:
            with open(path, "w", encoding="utf-8") as f:
                f.write(new)
    # the names that port.py respelled, which papers still have as they were
    with open(os.path.join(os.path.dirname(os.path.realpath(__file__)), "names.txt"), encoding="utf-8") as f:
        for name in f.read().split():
            turned.setdefault(name, OTHERS.get(respelled(name)) or respelled(name))
    for path in papers():
        with open(path, encoding="utf-8") as f:
            text = f.read()
        new = in_quotes(text, turned)
        if new != text:
            with open(path, "w", encoding="utf-8") as f:
                f.write(new)


def papers():
    yield "README.md"
    for folder, dirs, names in os.walk("docs"):
        for name in sorted(names):
            yield os.path.join(folder, name)
    yield "tools/edges.txt"
    yield "tools/hinges.txt"


def in_quotes(text, turned):
    """In a paper a camelCase name is ours wherever it stands, and one with a dash only in quotes or an indented or fenced block."""
    camel = {o: n for o, n in turned.items() if "-" not in o}
    out, fenced = [], False
    for line in text.split("\n"):
        if line.startswith("```"):
            fenced = not fenced
        if fenced:
            line = WORD.sub(lambda m: turned.get(m.group(0), m.group(0)), line)
        else:
            line = re.sub(r"`[^`]*`", lambda q: WORD.sub(lambda m: turned.get(m.group(0), m.group(0)), q.group(0)), line)
            line = WORD.sub(lambda m: camel.get(m.group(0), m.group(0)), line)
        out.append(line)
    return "\n".join(out)


main()
