#!/usr/bin/env python3
"""Turns a crate's walked proofs (proofs/F/Proof.antt) into invariants and answers.

usage: python3 tools/port/convert.py CRATE..       at the top of the repository, with the crates below proved

A Proof.antt of the older form names an invariant, a measure, and an answer for each need of the code. The names of today come
from `rt check --generated DIR --old-names`. What was not turned is printed as `left:`, and its Proof.antt stands.
"""
import json
import os
import re
import subprocess
import sys
import tempfile

NAME = r"[^\W\d][\w'₀-]*"
WORD = re.compile(r"[^\W\d][\w'₀-]*", re.UNICODE)


def plain(name):
    return name.replace("_", "-")


def parse(text):
    """Header comment, use lines, and blocks (name, type, parameters, body)."""
    header, uses, blocks = [], [], []
    lines = text.split("\n")
    k = 0
    while k < len(lines) and (lines[k].startswith("--") or not lines[k].strip()):
        if lines[k].strip():
            header.append(lines[k])
        k += 1
    while k < len(lines) and (lines[k].startswith(("use ", "pub use ", "  ")) or lines[k].startswith("}") or not lines[k].strip()):
        if lines[k].strip():
            if lines[k].startswith(("use ", "pub use ")):
                uses.append(lines[k])
            else:
                uses[-1] += "\n" + lines[k]
        k += 1
    rest = "\n".join(lines[k:])
    for block in re.split(r"\n\s*\n", rest):
        block = block.strip("\n")
        if block.strip():
            blocks.append(block)
    return header, uses, blocks


def turn_body(body, names):
    """The body of an invariant with its parameters by name."""
    def one(m):
        w = m.group(0)
        before = body[: m.start()]
        after = body[m.end():]
        if before.endswith("."):
            return w
        if re.match(r"\s*=(?!=)", after):
            return w
        return names.get(w, w)

    return WORD.sub(one, body)


def used_names(uses, body):
    """The use lines whose names the body has."""
    words = set(re.findall(r"[^\W\d][\w'₀-]*", body))
    out = []
    for u in uses:
        m = re.match(r"(pub )?use ([^{]*)\.\{(.*)\}\s*$", u, re.S)
        if not m:
            alias = re.search(r"as (\S+)$", u) or re.search(r"\.(\w+)$", u)
            if alias and alias.group(1) in words:
                out.append(u)
            continue
        items = [x.strip() for x in m.group(3).replace("\n", " ").split(",") if x.strip()]
        kept = []
        for it in items:
            it = it.split(" as ")[-1].strip() if " as " in it else it
            if "◌" in it:
                op = it.replace("◌", " ").split()
                if all(o in body for o in op) or it in body:
                    kept.append(it)
            elif it in words or it in body:
                kept.append(it)
        if kept:
            out.append(f"use {m.group(2)}.{{{', '.join(kept)}}}")
    return out


def signature(block):
    """(name, type line, parameters, body), or None."""
    m = re.match(r"(?:abbrev |pub )*(%s) : (.*?)\n(?:unfolding (.*?)\n)?\1((?: %s)*) =(.*)\Z" % (NAME, r"[^\s=]+"), block, re.S)
    if not m:
        return None
    return m.group(1), " ".join(m.group(2).split()), m.group(3), m.group(4).split(), m.group(5).strip("\n").rstrip()


def steps(body, entry):
    """The names of steps behind `c.` as they are today."""
    new = {plain(p[2][0]): p[2][1] for p in entry["places"] if p[2][0]}
    body = body.replace("c.before.requires", "c.requires")
    return re.sub(r"\bc\.(%s)\b" % NAME, lambda m: "c." + new.get(plain(m.group(1)), m.group(1)), body)


def turn(crate, folder, text, entry):
    path = f"crates/{crate}/proofs/{folder}"
    header, uses, blocks = parse(text)
    uses = [u for u in uses if ".Statement." not in u and not u.endswith(".Tie as tie")]
    loops = {plain(old): (new, vs) for ((old, new), vs) in entry["loops"]}
    changed = dict(zip([plain(l[0][0]) for l in entry["loops"]], entry["changed"]))
    needs = {}
    for old, new in entry["needs"]:
        needs.setdefault(plain(old), new)
    invariants, answers, left = [], [], []
    for block in blocks:
        if re.match(r"pub \S+[-_]spec :", block):
            continue
        got = signature(block)
        if not got:
            left.append(block)
            continue
        name, kind, unfolding, params, body = got
        m = re.match(r"tie\.(invariant|decreases)-(\S+)$", kind)
        if m:
            loop = plain(m.group(2))
            if loop not in loops:
                left.append(block)
                continue
            new, vs = loops[loop]
            flags = changed[loop]
            places = [f"l.initial.{v}" if c else f"l.{v}" for v, c in zip(vs, flags)] + [f"l.{v}" for v, c in zip(vs, flags) if c]
            if len(places) != len(params):
                params = [p for p in params if not re.fullmatch(r"t\d+", p)]
            if len(places) != len(params):
                left.append(block + f"\n  -- {len(places)} names: {places}, {len(params)} parameters")
                continue
            names = {p: at for p, at in zip(params, places) if p != "_"}
            turned = turn_body(body, names)
            if turned.startswith("\n"):
                pass
            invariants.append(f"abbrev pub {m.group(1)}-{new} : goal.{m.group(1)}-{new}\n" + (f"unfolding {unfolding}\n" if unfolding else "") + f"{m.group(1)}-{new} l ={turned}")
            continue
        m = re.match(r"tie\.Need-(\S+)", kind)
        if m:
            old = plain(m.group(1))
            new = needs.get(old) or needs.get(plain(name)) or needs.get(re.sub(r"^(overflow|nonzero)-", "", old))
            if not new:
                left.append(block + "\n  -- no such goal")
                continue
            if body.strip() == "search rules" and not unfolding:
                continue
            if new in entry.get("settled", []):
                continue
            body = steps(body, entry)
            args = " ".join(p for p in params if p != "κs")
            answers.append((new, f"pub {new} : goal.{new}\n" + (f"unfolding {unfolding}\n" if unfolding else "") + f"{new} {args} ={body}"))
            continue
        left.append(block)
    head = [h for h in header if h.strip() != "-- Assumes nothing."]
    head = [re.sub(r"\s*Assumes nothing\.\s*$", "", h) for h in head]
    base = f"Rattle.{crate}.proofs.{folder.replace('/', '.')}"
    written = []
    if invariants:
        body = "\n\n".join(invariants)
        out = "\n".join(head + used_names(uses, body) + [f"use {base}.Given as goal"]) + "\n\n" + body + "\n"
        written.append(("Invariants.antt", out))
    seen, kept = set(), []
    for new, a in answers:
        if new not in seen:
            seen.add(new)
            kept.append(a)
    if kept:
        body = "\n\n".join(kept)
        out = "\n".join(([] if invariants else head) + used_names(uses, body) + [f"use {base}.Goals as goal"]) + "\n\n" + body + "\n"
        written.append(("Answers.antt", out))
    return written, left


def generated(crate):
    with tempfile.TemporaryDirectory() as into:
        r = subprocess.run(["rt", "check", "--generated", into, "--old-names"], cwd=f"crates/{crate}", capture_output=True, text=True)
        try:
            with open(os.path.join(into, "names.json")) as f:
                return json.load(f)
        except OSError:
            print(r.stdout[-2000:], r.stderr[-2000:])
            raise SystemExit(f"{crate}: no names")


def attribute(crate):
    for root in ("lib.rt", "main.rt"):
        path = f"crates/{crate}/src/{root}"
        if os.path.exists(path):
            with open(path) as f:
                text = f.read()
            if "#![tactic" not in text:
                lines = text.split("\n")
                k = 0
                while lines[k].startswith("//"):
                    k += 1
                lines[k:k] = ["#![tactic(auto)]", ""]
                with open(path, "w") as f:
                    f.write("\n".join(lines))


def main():
    for crate in sys.argv[1:]:
        attribute(crate)
        names = generated(crate)
        for root, dirs, files in os.walk(f"crates/{crate}/proofs"):
            if "Proof.antt" not in files:
                continue
            folder = os.path.relpath(root, f"crates/{crate}/proofs")
            key = f"Rattle-{crate}-proofs.{folder.replace('/', '.')}.Lts"
            if key not in names:
                print(f"left: {crate}/{folder}: no names for {key}")
                continue
            path = os.path.join(root, "Proof.antt")
            if root.rsplit("/", 1)[-1].startswith("+"):
                print(f"left: {crate}/{folder}: a cycle")
                continue
            with open(path) as f:
                text = f.read()
            written, left = turn(crate, folder, text, names[key])
            for l in left:
                print(f"left: {crate}/{folder}: " + l.replace("\n", "\n      "))
            for name, out in written:
                with open(os.path.join(root, name), "w") as f:
                    f.write(out)
            os.remove(path)


main()
