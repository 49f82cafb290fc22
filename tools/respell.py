#!/usr/bin/env python3
"""Brings the repository's own definitions, lemmas, fields and constructors to snake case, once.

usage: tools/respell.py [--dry] [TOP]

Names are gathered from the signatures in specs/*.antt and proofs/*.antt (not from proofs/F/, where most names are made by the check).
A name of a type, a module or a variable stays. Where two names would fall together in one file, LAW says which gets another name.
In comments and pages only names in camel case and names between backticks are respelled.
"""
import collections
import os
import re
import sys

KEYWORDS = {"let", "in", "elim", "record", "data", "where", "module", "use", "mod", "pub", "open", "unfolding", "|", "--", "abbrev", "unfoldable", "as", "package", "mutual", "rw"}
SIGNATURE = re.compile(r"^(\s*)((?:(?:pub|unfoldable|abbrev)\s+)*)([^\s:(){}\[\],;|λ.=]+(?:\s+[^\s:(){}\[\],;|λ.=]+)*)\s+:\s")
TOKEN = re.compile(r"[A-Za-zα-κμ-ω⊎₀-₉][A-Za-z0-9_'α-κμ-ω⊎₀-₉-]*")
FIXED = {
    "k-right": "k_is_right",
    "count-right": "count_is_right",
    "rowCount": "count_of_rows",
    "openOf": "opening_of",
    "sameAnswers": "answers_agree",
    "bit-or": "bit_or_law",
}


def snake(name):
    if not re.match(r"[a-zα-ω⊎]", name):
        return name
    name = name.replace("-", "_")
    return re.sub(r"([a-z0-9])([A-Z])", lambda m: m.group(1) + "_" + m.group(2).lower(), name)


def files(top, ends):
    for folder, dirs, names in os.walk(top):
        dirs[:] = sorted(d for d in dirs if d not in ("out", ".git", "target"))
        for name in sorted(names):
            if name.endswith(ends):
                yield os.path.join(folder, name)


def gather(top):
    """Each declared name with the files that declare it."""
    declared = collections.defaultdict(set)
    for path in files(os.path.join(top, "crates"), (".antt",)):
        parts = os.path.relpath(path, os.path.join(top, "crates")).split(os.sep)
        if len(parts) != 3 or parts[1] not in ("specs", "proofs"):
            continue
        with open(path) as f:
            for line in f:
                m = SIGNATURE.match(line)
                if m and m.group(3).split()[0] not in KEYWORDS:
                    for name in m.group(3).split():
                        declared[name].add("/".join(parts))
    return declared


def mapping(top, tell):
    declared = gather(top)
    tokens, library = {}, {}
    for path in files(os.path.join(top, "crates"), (".antt", ".rt")):
        with open(path) as f:
            text = f.read()
        code = re.sub(r"(--|//).*", "", text)
        tokens[path] = set(TOKEN.findall(code))
        library[path] = set()
        for m in re.finditer(r"use ([^\s{;]*)\.\{([^}]*)\}", code):
            crate = m.group(1).split(".")
            own = crate[0] == "Rattle" and len(crate) > 1 and os.path.isdir(os.path.join(top, "crates", crate[1]))
            if not own:
                library[path] |= set(TOKEN.findall(m.group(2)))
    to = {n: FIXED.get(n, snake(n)) for n in declared}
    groups = collections.defaultdict(list)
    for name, new in to.items():
        groups[new].append(name)
    for new, names in sorted(groups.items()):
        if len(names) < 2:
            continue
        meet = any(len(ts & set(names)) > 1 for ts in tokens.values())
        if not meet:
            continue
        keeps = sorted(names, key=lambda n: (not any("/specs/" in d for d in declared[n]), n != new, n))
        for name in keeps[1:]:
            to[name] = new + "_law"
            tell(f"fall together: {', '.join(keeps)}: {name} is now {to[name]}")
    news = collections.defaultdict(set)
    for name, new in to.items():
        news[new].add(name)
    for path, ts in tokens.items():
        for name in ts & set(to):
            new = to[name]
            if new != name and new in ts and (new not in to or to[new] == new):
                tell(f"meets a name that is there: {os.path.relpath(path, top)}: {name} to {new}")
    return {n: m for n, m in to.items() if n != m}, declared, library


def respell(text, to, comment):
    def one(m):
        name = m.group(0)
        return to.get(name, name)

    out = []
    for line in text.split("\n"):
        at = -1
        if comment:
            m = re.search(r"(^|\s)" + re.escape(comment) + r"(\s|$)", line)
            at = m.start() if m else -1
        code, said = (line, "") if at < 0 else (line[:at], line[at:])
        out.append(TOKEN.sub(one, code) + prose(said, to))
    return "\n".join(out)


def prose(text, to):
    text = re.sub(r"`[^`\n]*`", lambda m: TOKEN.sub(lambda t: to.get(t.group(0), t.group(0)), m.group(0)), text)
    return TOKEN.sub(lambda t: to.get(t.group(0), t.group(0)) if re.search("[a-z][A-Z]", t.group(0)) else t.group(0), text)


def main(words):
    dry = "--dry" in words
    words = [w for w in words if w != "--dry"]
    top = words[0] if words else os.path.join(os.path.dirname(os.path.abspath(__file__)), "..")
    to, declared, library = mapping(top, print)
    print(f"{len(to)} of {len(declared)} names")
    if dry:
        return
    owners = {n: {d.split("/")[-1] for d in ds} for n, ds in declared.items()}
    changed = 0
    for path in files(os.path.join(top, "crates"), (".antt", ".rt")):
        with open(path) as f:
            old = f.read()
        parts = os.path.relpath(path, os.path.join(top, "crates")).split(os.sep)
        bound = set(re.findall(r" as ([^\s,};]+)", old)) if path.endswith(".antt") and len(parts) > 3 else set()
        here = {n: m for n, m in to.items() if n not in library[path] and n not in bound}
        new = respell(old, here, "--" if path.endswith(".antt") else "//")
        new = re.sub(r"\b([A-Z]\w*)\.([a-z][\w'-]*)", lambda m: m.group(1) + "." + (to.get(m.group(2), m.group(2)) if m.group(2) in library[path] and m.group(1) + ".antt" in owners.get(m.group(2), set()) else m.group(2)), new)
        if new != old:
            changed += 1
            with open(path, "w") as f:
                f.write(new)
    names = set(to.values()) | set(declared)
    for path in files(top, (".md",)):
        with open(path) as f:
            old = f.read()

        def page(m):
            name = m.group(0)
            new = to.get(name) or snake(name)
            return new if new in names else name

        new = re.sub(r"`[^`\n]*`", lambda m: m.group(0) if "/" in m.group(0) else TOKEN.sub(page, m.group(0)), old)
        if new != old:
            changed += 1
            with open(path, "w") as f:
                f.write(new)
    print(f"{changed} files")


if __name__ == "__main__":
    main(sys.argv[1:])
