#!/usr/bin/env python3
"""Counts the places of docs/DESIGN-PASS.md in crates/*/src: `python3 tools/places.py [POINT]`, in the top folder of a checkout."""
import glob
import re
import sys
from collections import defaultdict

TYPES = r"\b(u8|u16|u32|u64|usize|i32|i64)\b"


def sources():
    for path in sorted(glob.glob("crates/*/src/*.rt")):
        if not path.endswith("preference.rt"):
            yield path.split("/")[1], re.sub(r"//[^\n]*", "", open(path).read())


def functions(text):
    """(name, signature, clauses, body) of each function, cut at the braces of its body."""
    for m in re.finditer(r"^( *)(?:pub )?(?:extern \"C\" )?fn (\w+)([^;{]*?)(?=\n\1 {4}(?:requires|ensures)|\n\1\{| \{)", text, re.M):
        rest = text[m.end():]
        end = re.search(r"^" + m[1] + r"\}", rest, re.M)
        whole = rest[:end.start()] if end else rest
        start = re.search(r"(^|\n)" + m[1] + r"\{\n| \{\n", whole)
        clauses, body = (whole[:start.start()], whole[start.end():]) if start else (whole, "")
        yield m[2], re.sub(r"\s+", " ", m[3]), clauses, body


def parameters(signature):
    inner = signature[signature.find("(") + 1:signature.rfind(")")]
    return [re.sub(r"\s", "", p) for p in re.split(r",(?![^\[<(]*[\])>])", inner) if ":" in p]


def point1():
    for crate, text in sources():
        for m in re.finditer(r"^(?:pub )?enum (\w+)", text, re.M):
            yield f"{crate}: enum {m[1]}"
        for m in re.finditer(r"struct (\w+)[^{;]*\{([^}]*)\}", text):
            if re.search(r"refusal: u32|: bool", m[2]):
                c = "C " if re.search(r"#\[repr\(C\)\][^{]*struct " + m[1] + r"\b", text) else ""
                yield f"{crate}: {c}struct {m[1]} with a refusal or a flag beside its values"
        for name, sig, _, _ in functions(text):
            if re.search(r"refusal", name) and sig.rstrip().endswith("-> u32") or re.search(r"refusal: u32", sig):
                yield f"{crate}: fn {name} with a refusal's number"


def point2():
    seen = defaultdict(list)
    for crate, text in sources():
        for name, sig, _, body in functions(text):
            if body.strip():
                key = re.sub(r"\b\d+\b", "N", re.sub(TYPES, "T", re.sub(r"\s+", " ", body)))
                key = re.sub(r"\b[A-Z_]{4,}\b", "N", key).replace(name, "F")
                seen[key].append(f"{crate}::{name}")
    for key, names in seen.items():
        if len(names) > 1 and len(key) > 20:
            yield " = ".join(names)


def point3():
    for crate, text in sources():
        for m in re.finditer(r"^ *while (.*) \{", text, re.M):
            yield f"{crate}: while {m[1]}"


def point4():
    for crate, text in sources():
        for m in re.finditer(r"^ *impl[^\n]* for \w+", text, re.M):
            yield f"{crate}: {m[0].strip()}"
        for name, sig, _, body in functions(text):
            if re.fullmatch(r"\s*[\w.]+( as \w+)\s*", body) or re.fullmatch(r"\s*if (\w+) < (\w+) \{[^{}]*\} else \{[^{}]*\}\s*", body):
                yield f"{crate}: fn {name} converts or compares by hand"


def point5():
    groups, facts = defaultdict(set), defaultdict(set)
    for crate, text in sources():
        for name, sig, clauses, _ in functions(text):
            ps = parameters(sig)
            for n in (2, 3):
                for i in range(len(ps) - n + 1):
                    groups[", ".join(ps[i:i + n])].add(f"{crate}::{name}")
            for m in re.finditer(r"requires\s*(?:\w+ )?\{(.*?)\}\n", clauses + "\n", re.S):
                for fact in re.split(r" × ", re.sub(r"\s+", " ", m[1]).strip()):
                    facts[fact].add(f"{crate}::{name}")
    for what, table in (("together", groups), ("repeated", facts)):
        for key, names in sorted(table.items(), key=lambda e: -len(e[1])):
            if len(names) > 2:
                yield f"{what} in {len(names)}: {key}"


def point6():
    for crate, text in sources():
        for name, sig, _, _ in functions(text):
            if re.search(r"(\w+: &(?:mut )?\[\w+\]), (?:count|n|columns|held): usize", sig):
                yield f"{crate}: fn {name}, a buffer with a length beside"
        for m in re.finditer(r"struct (\w+)[^{;]*\{([^}]*)\}", text):
            if len(re.findall(r": \[", m[2])) > 1:
                yield f"{crate}: struct {m[1]}, parallel arrays"


def point7():
    for crate, text in sources():
        for name, _, _, body in functions(text):
            if len(re.findall(r"\bif [\w.]+ == [\w:]+ \{\n\s*return \w+(?:::\w+)?\(", body)) > 1 or re.search(r"\bmatch \w+(?:\.\w+)? \{", body) and len(re.findall(r"=> \w+(?:::\w+)*\(", body)) > 1:
                yield f"{crate}: fn {name}"


for point in sys.argv[1:] or "1234567":
    places = list(globals()["point" + point]())
    print(f"point {point}: {len(places)}")
    for place in places:
        print("    " + place)
