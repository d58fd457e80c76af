#!/usr/bin/env python3
"""Writes the terms that a check names as the only ones it found for a `_` (older kits took them silently).

usage: rt check | python3 ../../tools/port/guesses.py      in the crate's folder; prints how many it wrote
"""
import re
import sys

NOTE = re.compile(r"^(\./\S+?):(\d+):(\d+): note: `(.*?)` fits `_`\. This is a guess", re.M)


def readable(term):
    """`(λ x' x''. B.Read x'')` as `(λ u n. B.Read n)`; `(λ x. B.Refused x)` as `B.Refused`."""
    m = re.fullmatch(r"\(λ ((?:x'*(?:-\d+)? ?)+)\. (.*)\)", term, re.S)
    if not m:
        return term
    binders, body = m.group(1).split(), m.group(2)
    if len(binders) == 1 and body.endswith(" " + binders[0]):
        head = body[: -len(binders[0]) - 1]
        if not re.search(r"\s", head):
            return head
    new = ["k"] if len(binders) == 1 else ["u", "n", "m"][: len(binders)]
    if len(new) != len(binders) or any(re.search(rf"(?<![\w'.]){n}(?![\w'])", body) for n in new):
        return term
    for old, n in sorted(zip(binders, new), key=lambda p: -len(p[0])):
        body = re.sub(rf"(?<![\w'.]){re.escape(old)}(?![\w'])", "\0" + n, body)
    return f"(λ {' '.join(new)}. {body})".replace("\0", "")


def main():
    said = sys.stdin.read()
    places = {}
    for path, line, column, term in NOTE.findall(said):
        places.setdefault(path, {})[(int(line), int(column))] = readable(term)
    count = 0
    for path, found in places.items():
        with open(path, encoding="utf-8") as f:
            lines = f.read().split("\n")
        for (n, k), term in sorted(found.items(), reverse=True):
            text = lines[n - 1]
            if text[k - 1:k] == "_":
                lines[n - 1] = text[: k - 1] + term + text[k:]
                count += 1
            else:
                print(f"left: {path}:{n}:{k}: no `_` there: {text[k - 1:k + 20]}")
        with open(path, "w", encoding="utf-8") as f:
            f.write("\n".join(lines))
    print(f"{count} written")


main()
