#!/usr/bin/env python3
"""Spells the repository's own definitions and lemmas as Rattle's libraries do: snake case, where port.py left the older spelling.

usage: tools/respell.py LANDED      at the top of the repository, once, right after port.py; LANDED is the commit before it

A name that a file of specs/ or proofs/ declares, and that begins with a small letter, loses its inner capitals and its dashes: listTo is list_to,
fill-front is fill_front. It turns in all of specs/ and proofs/, in the clauses and comments of src/, in must-fail/ and between backticks of README.md and
docs/. Types, modules, names of Rust, of libraries and of what the check generates stay. Where two names would fall together, the one that had a dash
keeps it; what is left even so stays, and a line says so. The pages still have the names of LANDED, which turn to what port.py and this make of them.
"""

import collections
import os
import re
import subprocess
import sys

WORD = re.compile(r'[^\s(){}.;,@"«»\[\]`]+')
DECLARED = re.compile(
    r'(?m)^ *(?:(?:pub|unfoldable|abbrev|computed) )*(?:record |data |ruleset )?([^\s(){}.;,@"«»:=]+)(?: \{[^{}\n]*\}| \([^()\n]*\))* (?::(?!:)|=)'
)
# Names of the check's goals and steps, and those by which it finds a proof, stand in the files of one function.
OF_FUNCTION = re.compile(r"/proofs/(?:[^/]+/)+[^/]+\.antt$")
LIBRARY_USE = re.compile(r"(?m)^(?:ghost )?(?:pub )?use (?!Rattle\.(?:%s)\.)[A-Za-z_.\d']+\.\{([^}]*)\}")


def snake(name):
    return camel(name).replace("-", "_")


def camel(name):
    return re.sub(r"(?<=[a-z0-9])([A-Z])(?=[a-z]|$|-|_)", lambda m: "_" + m[1].lower(), name)


def files(*endings):
    for top in ("crates",):
        for folder, dirs, names in os.walk(top):
            dirs[:] = sorted(d for d in dirs if d not in ("out", ".git"))
            for n in sorted(names):
                if n.endswith(endings):
                    yield os.path.join(folder, n)


def read(path):
    with open(path, encoding="utf-8") as f:
        return f.read()


def code(text):
    return re.sub(r"--[^\n]*", "", text)


def main():
    crates = sorted(os.listdir("crates"))
    texts = {p: read(p) for p in files(".antt")}
    rust = {p: read(p) for p in files(".rt")}
    library_use = re.compile(LIBRARY_USE.pattern % "|".join(crates), re.M)

    declared, library = collections.defaultdict(set), set()
    for p, t in texts.items():
        t = code(t)
        for m in library_use.finditer(t):
            for item in m[1].split(","):
                library.update(WORD.findall(item))
        if OF_FUNCTION.search(p):
            continue
        for m in DECLARED.finditer(t):
            declared[m[1]].add(p)
    for p, t in rust.items():
        for m in library_use.finditer(t):
            for item in m[1].split(","):
                library.update(WORD.findall(item))

    # the path of a use line names modules, a function's among them
    paths = re.compile(r"\buse [A-Za-z_.\d'+]+")
    tokens = {p: set(WORD.findall(re.sub(r"(?<=\S)\.[^\s(){}.;,@]+", "", paths.sub("use", code(t))))) for p, t in texts.items()}
    users = collections.defaultdict(set)
    for p, ts in tokens.items():
        for t in ts:
            users[t].add(p)
    # parameters and fields of Rust, which a clause would read
    rust_words = {}
    for p, t in rust.items():
        t = re.sub(r"//[^\n]*", "", t)
        rust_words[p] = set(re.findall(r"\b([a-z_][A-Za-z0-9_]*): ?(?!:)", t))
        for w in set(re.findall(r"[A-Za-z_][A-Za-z0-9_'-]*", t)):
            users[w].add(p)

    # what port.py made of each name of LANDED: the files declare the same names in the same order
    landed = {}
    for p, t in texts.items():
        shown = subprocess.run(["git", "show", f"{sys.argv[1]}:{p}"], capture_output=True, text=True)
        before = DECLARED.findall(code(shown.stdout)) if shown.returncode == 0 else []
        after = DECLARED.findall(code(t))
        if len(before) == len(after):
            landed.update((b, a) for b, a in zip(before, after) if b != a)
        elif before:
            print(f"look: {p}: {len(before)} names declared before, {len(after)} after")
    dashed = {a: b for b, a in landed.items() if "-" in b and b.replace("-", "_") == a}

    table, left = {}, []
    wanted = sorted(n for n in declared if n[:1].islower() and snake(n) != n)
    taken = {n: n for n in declared}

    def free(name, new):
        if new in taken and taken[new] != name:
            return False
        if new in library:
            return False
        for p in users[name]:
            if p in tokens and new in tokens[p] and new not in table:
                return False
            if p in rust_words and new in rust_words[p]:
                return False
        return True

    for name in sorted(wanted, key=lambda n: ("-" in n, n)):
        if name in library:
            left.append((name, "a library's name too"))
            continue
        for new in (snake(name), camel(name)):
            if "-" not in name and new in dashed and new not in table and taken.get(new) == new:
                table[new] = dashed[new]
                taken[dashed[new]] = new
                taken[new] = name
                table[name] = new
                break
            if new != name and free(name, new):
                table[name] = new
                taken[new] = name
                break
        else:
            left.append((name, "would fall together with another" if camel(name) == name or not free(name, camel(name)) else ""))

    def turn(text):
        return WORD.sub(lambda m: table.get(m[0], m[0]), text)

    def turn_antt(path, text):
        own = set(m[1] for m in DECLARED.finditer(code(text))) if OF_FUNCTION.search(path) else set()
        used = tokens[path]

        def word(m):
            w = m[0]
            if w not in table or w in own:
                return w
            # behind a dot stands a step or a field: a field of the repository's own records has no dash
            if m.start() and m.string[m.start() - 1] == "." and "-" in w and not re.search(r"\buse [\w.']*\.$", m.string[: m.start()]):
                return w
            return table[w]

        def comment(m):
            # in prose a name with dashes may be English
            return WORD.sub(lambda w: table[w[0]] if w[0] in table and w[0] not in own and ("-" not in w[0] or w[0] in used) else w[0], m[0])

        out, at = [], 0
        for m in re.finditer(r"--[^\n]*", text):
            out.append(WORD.sub(word, text[at : m.start()]))
            out.append(comment(m))
            at = m.end()
        out.append(WORD.sub(word, text[at:]))
        return "".join(out)

    def turn_rust(text):
        # clauses, ghost items and comments; a name with a capital inside or a dash is none of Rust's
        return re.sub(r"[A-Za-z_][A-Za-z0-9_'-]*", lambda m: table.get(m[0], m[0]) if re.search(r"[a-z0-9][A-Z]|-", m[0]) else m[0], text)

    n = 0
    for p, t in texts.items():
        new = turn_antt(p, t)
        if new != t:
            n += 1
            open(p, "w", encoding="utf-8").write(new)
    for p in list(rust) + list(files(".edit")):
        t = read(p)
        new = turn(t) if p.endswith(".edit") and "file: src/" not in t else turn_rust(t)
        if new != t:
            n += 1
            open(p, "w", encoding="utf-8").write(new)
    for p in ["README.md"] + sorted("docs/" + f for f in os.listdir("docs")):
        t = read(p)
        new = re.sub(r"`[^`\n]+`", lambda m: WORD.sub(lambda w: table.get(landed.get(w[0], w[0]), landed.get(w[0], w[0])), m[0]), t)
        if new != t:
            n += 1
            open(p, "w", encoding="utf-8").write(new)
    for name, why in left:
        print(f"left: {name}: {why}")
    print(f"{len(table)} names, {n} files")


if __name__ == "__main__":
    sys.exit(main())
