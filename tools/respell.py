#!/usr/bin/env python3
"""Brings the repository's own definitions and lemmas to the spelling of today's Rattle: words in snake case, types and modules in camel case.

usage: tools/respell.py      at the top of the repository, once, after port.py and before any edit by hand

- The crate `log` has the name of a library of the kit: it becomes `alloc_log`, the allocation log.
- `freeIn` and `told-free` become `free_in` and `told_free`. A lemma that would get its definition's name ends in `_lem`.
- A name that a file imports from the kit, or that Rattle makes (a goal, a step, a field of one), stays.
"""

import collections
import os
import re
import subprocess
import sys

TOKEN = re.compile(r"[^\s(){}.;,@\"«»\[\]\\`|]+")
MADE = re.compile(r"(tie|goal)\.")
HEAD = re.compile(r"^(\s*)((?:pub |unfoldable |abbrev |private |data |record |ruleset )*)((?:[^\s(){}.;,:=]+ )+)((?:[({].*[)}] ?)?):(?: (.*))?$")
# Names that would be a tactic's, or a name of the kit that the same file imports.
APART = {"first_of": "first_from", "bit-and": "bit_and_lem", "bit-or": "bit_or_lem"}


def texts():
    for folder, dirs, files in os.walk("crates"):
        dirs[:] = sorted(d for d in dirs if d != "out")
        for f in sorted(files):
            if f.endswith((".rt", ".antt")):
                yield os.path.join(folder, f)


def read(path):
    with open(path, encoding="utf-8") as f:
        return f.read()


def rename_log():
    if os.path.isdir("crates/log"):
        subprocess.run(["git", "mv", "crates/log", "crates/alloc_log"], check=True)
    lines = []
    for l in read("crates.txt").splitlines():
        if not l.startswith("#"):
            l = re.sub(r"(?<![\w])log(?![\w])", "alloc_log", l)
        lines.append(l)
    with open("crates.txt", "w", encoding="utf-8") as f:
        f.write("\n".join(lines) + "\n")
    for p in texts():
        t = read(p)
        u = t.replace("Rattle.log.", "Rattle.alloc_log.")
        if p.endswith(".rt"):
            u = re.sub(r"(?<![\w:])log::", "alloc_log::", u)
        if u != t:
            with open(p, "w", encoding="utf-8") as f:
                f.write(u)


def heads(text):
    """The names that a file declares, each with whether it is a field of a record."""
    record = None
    for l in text.splitlines():
        if not l.strip() or l.lstrip().startswith(("--", "use ", "let ", "(", "{")):
            continue
        indent = len(l) - len(l.lstrip())
        if record is not None and indent <= record:
            record = None
        m = HEAD.match(l)
        if not m:
            continue
        if m.group(5) and MADE.match(m.group(5)):
            continue
        for n in m.group(3).split():
            yield n, record is not None
        if re.search(r"(^|\s)record\s", m.group(2)):
            record = indent


def snake(n):
    if n[0].islower():
        n = re.sub(r"(?<=[a-z0-9?'])([A-Z])", lambda m: "_" + m.group(1).lower(), n)
    return n.replace("-", "_") if re.fullmatch(r"[A-Za-z0-9_'?-]+", n) else n


def table(files, landed):
    own, fields = set(), set()
    for p in files:
        if p.endswith(".antt"):
            for n, is_field in heads(read(p)):
                own.add(n)
                if is_field:
                    fields.add(n)
    camel = {n for n in own if n[0].islower() and re.search("[a-z0-9?'][A-Z]", n)}
    dash = {n for n in own if "-" in n and n not in camel and snake(n) != n}
    to = {n: snake(n) for n in camel}
    taken = set(to.values())
    for n in sorted(own - camel - dash):
        # port.py wrote a lemma's dash as _, and a definition would now have that name
        if n in taken and n.replace("_", "-") in landed:
            to[n] = n + "_lem"
    taken |= {n for n in own - camel - dash if n not in to}
    for n in sorted(dash):
        m = snake(n)
        to[n] = m + "_lem" if m in taken else m
    for n in APART:
        if n in own:
            to[n] = APART[n]
    return own, fields, to


USE = re.compile(r"^(?P<head>(?:pub )?(?:ghost )?use )(?P<mod>[\w.'-]+)(?:\.\{(?P<items>[^}]*)\})?(?: as (?P<as>\S+?))?;?$", re.M | re.S)


def respelled(path, text, crates, own, fields, to):
    if path.endswith(".rt"):
        # code has names with _ of its own
        to = {n: m for n, m in to.items() if "_" not in n or n in APART}
    theirs, aliases = set(), set()
    for m in USE.finditer(text):
        parts = m.group("mod").split(".")
        ours = parts[0] == "Rattle" and parts[1] in crates
        if m.group("items") is not None:
            for it in m.group("items").replace("\n", " ").split(","):
                name = it.strip().split(" as ")[0].strip()
                if not ours:
                    theirs.add(name)
        elif ours:
            made = parts[2:3] == ["proofs"] and parts[-1] in ("Tie", "Goals", "Given", "Lts")
            if not made:
                aliases.add(m.group("as") or parts[-1])
    if path.endswith(".antt"):
        for l in text.splitlines():
            m = HEAD.match(l)
            if m and m.group(5) and MADE.match(m.group(5)):
                theirs.update(m.group(3).split())
    out = []
    for l in text.splitlines(keepends=True):
        mark = "//" if path.endswith(".rt") else "--"
        at = re.search(r"(^|(?<=\s))" + mark, l)
        code, note = (l[: at.start()], l[at.start() :]) if at else (l, "")
        # the path of a module is no name of an item
        m = re.match(r"(\s*(?:pub )?(?:ghost )?use [\w.'-]+?)(\.\{| as |;?$)", code)
        path_of, code = (code[: m.end(1)], code[m.end(1) :]) if m else ("", code)
        out.append(path_of + turned(code, theirs, aliases, fields, to, False))
        out.append(turned(note, set(), set(), fields, to, True))
    return "".join(out)


def turned(s, theirs, aliases, fields, to, note):
    def one(m):
        n = m.group(0)
        if n not in to or n in theirs:
            return n
        before = s[: m.start()]
        if note:
            quoted = before.endswith("`") or before.count("`") % 2 == 1
            return to[n] if quoted or "-" not in n else n
        if before.endswith("."):
            prefix = re.search(r"([^\s(){};,@\"\[\]]+)\.$", before)
            head = prefix.group(1).split(".")[0] if prefix else ""
            if n in fields or head in aliases or head == "Rattle":
                return to[n]
            return n
        return to[n]

    return TOKEN.sub(one, s)


def main():
    landed = set()
    commit = sys.argv[1] if len(sys.argv) > 1 else "0ff748aa6f9c6fb13df96a924ebea4cb609738a7"
    said = subprocess.run(["git", "grep", "-hoE", r"[A-Za-z][A-Za-z0-9_'?-]*", commit, "--", "crates/*.antt"], stdout=subprocess.PIPE, text=True, check=True).stdout
    landed.update(said.split())
    rename_log()
    files = list(texts())
    crates = set(os.listdir("crates"))
    own, fields, to = table(files, landed)
    changed = 0
    for p in files:
        t = read(p)
        u = respelled(p, t, crates, own, fields, to)
        if u != t:
            changed += 1
            with open(p, "w", encoding="utf-8") as f:
                f.write(u)
    meet = collections.defaultdict(set)
    for n in own:
        meet[to.get(n, n)].add(n)
    print(f"{len(to)} names respelled, {changed} files")
    for n, olds in sorted(meet.items()):
        if len(olds) > 1:
            print(f"fall together: {n}: {' '.join(sorted(olds))}")


if __name__ == "__main__":
    main()
