#!/usr/bin/env python3
"""Reads the must-fail edits: does each apply, and where does its text differ from that before the port by more than spelling?

usage: python3 tools/port/edits.py [BEFORE]      at the top of the repository; BEFORE is a checkout of it as it stood before the port

An edit applies where the text of each `old:` stands exactly once in its file, after the pairs before it. With BEFORE, a text is
compared with its own before the port, each brought to one spelling: the signs and names that the port respelled, and blanks.
"""
import os
import re
import sys

WORD = re.compile(r"[^\W\d][\w'-]*", re.UNICODE)


def edits(top):
    for folder, dirs, names in os.walk(os.path.join(top, "crates")):
        dirs[:] = sorted(d for d in dirs if d not in ("out", "target"))
        if os.path.basename(folder) == "must-fail":
            for name in sorted(names):
                yield os.path.relpath(os.path.join(folder, name), top)


def read(path):
    with open(path, encoding="utf-8") as f:
        return f.read()


def parse(text):
    """The words of the first line, the file, and the pairs."""
    words, file, pairs, old = "", "", [], None
    for n, line in enumerate(text.split("\n")):
        if line.startswith("# ") and n == 0:
            words = line[2:]
        elif line.startswith("file: "):
            file = line[len("file: "):].strip()
        elif line.startswith("old: "):
            old = line[len("old: "):]
        elif line.startswith("new:"):
            new = line[len("new:"):]
            pairs.append((file, old, new[1:] if new.startswith(" ") else new))
            old = None
        elif line:
            pairs.append((file, None, line))
    if old is not None:
        pairs.append((file, old, None))
    return words, pairs


def applied(crate, pairs):
    """Says why the pairs do not apply to the crate's files, or nothing."""
    texts, was = {}, {}
    for file, old, new in pairs:
        if old is None or new is None:
            return f"a line is not read, or has no partner: {new or old}"
        path = os.path.join(crate, file)
        if file not in texts:
            if not os.path.isfile(path):
                return f"no file {file}"
            texts[file] = was[file] = read(path)
        found = texts[file].count(old)
        if found != 1:
            return f"{file} has it {found} times: {old}"
        texts[file] = texts[file].replace(old, new)
    if not pairs or texts == was:
        return "it changes nothing"
    return ""


# What the port spells otherwise: an older spelling, and today's.
SIGNS = [
    (r"ensures (\w+ )?\{ λ r\. ⌜ (.*) ⌝ \}", r"ensures \1{ \2 }"),
    (r"⌜ (.*?) ⌝", r"\1"),
    (r"\bnow \((\w+) \.entry\)", r"\1.now"),
    (r"\bnow \((\w+) \.exit\)", r"\1.new"),
    (r"\.old\b", ".now"),
    (r"\b[rs] ≡", "result ≡"),
    (r"\beqb (\S+|\([^()]*\)) (\w+|\([^()]*\))", r"\1 == \2"),
    (r"[()]", ""),
    (r"\s+\.", "."),
    (r"≡[rs]$|≡ [rs]\b", "≡ result"),
]


def snake(m):
    name = m.group(0)
    if name[:1].isupper():
        return name
    return re.sub(r"(?<=[a-z0-9])([A-Z])", lambda c: "_" + c.group(1).lower(), name.replace("-", "_"))


def plain(text):
    for old, new in SIGNS:
        text = re.sub(old, new, text)
    return re.sub(r"\s+", "", WORD.sub(snake, text))


def main():
    before = sys.argv[1] if len(sys.argv) > 1 else ""
    here = list(edits("."))
    bad = 0
    for path in here:
        crate = path.split("/must-fail/")[0]
        words, pairs = parse(read(path))
        why = applied(crate, pairs)
        if why:
            bad += 1
            print(f"{path}: {why}")
    if before:
        there = list(edits(before))
        for path in sorted(set(here) ^ set(there)):
            print(f"{path}: only {'here' if path in here else 'before the port'}")
        for path in sorted(set(here) & set(there)):
            one, other = parse(read(os.path.join(before, path))), parse(read(path))
            if one[0] != other[0]:
                print(f"{path}: its first line was: {one[0]}")
            texts = [[(plain(o or ""), plain(n or "")) for _, o, n in it[1]] for it in (one, other)]
            if texts[0] != texts[1]:
                print(f"{path}: {other[0]}")
                for label, it in (("before", one), ("today ", other)):
                    for file, old, new in it[1]:
                        print(f"    {label} {file} old: {old}\n    {label} {' ' * len(file)} new: {new}")
    print(f"{len(here)} edits, {bad} do not apply")


main()
