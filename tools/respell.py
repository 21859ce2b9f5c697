#!/usr/bin/env python3
"""Brings this repository's own definitions and lemmas to the spelling of today's Rattle, after port.py.

usage: python3 tools/respell.py            at the top of the repository, once, right after port.py

Words in camel case become snake case (`keptBytes` is `kept_bytes`); a name of several plain words, joined by dashes, is joined by `_`
(`settled-from-3` is `settled_from_3`), and keeps a dash between the names of two definitions (`hash_value-append`). Types, facts and
modules stay in camel case, as do the symbols that FIPS 180-4 and RFC 8554 print (`Ch`, `ROTR`, `T1`, `Cksm`, `D_LEAF`). Functions of src/,
exported names, strings, inputs and outputs are not touched. It prints each new name, and stops where two names would fall together, but for
fields of records, which have names of their own.
"""

import os
import re
import sys

IDENT = r"[A-Za-z_\u0370-\u03ff\u2080-\u2089'\u2032][A-Za-z0-9_\u0370-\u03ff\u2080-\u2089'\u2032-]*"
TOKEN = re.compile(IDENT)
DECLARED = re.compile(r"^(\s*)((?:(?:pattern|unfoldable|abbrev|axiom|pub|data|record|ruleset) )*)(" + IDENT + r")((?: [({][^:]*?:[^)}]*[)}])*)(?: \{[^}]*\})? :(?:\s|$)")
CAMEL = re.compile(r"(?<=[a-z0-9])([A-Z])")
# Lemmas and local facts that have the snake case name of a word of specs/ already: they get `_lem`.
LEMMAS = set("starts_fit read_count key_fits in_order is_digit kind_fits no_read no_write goes_on laid_out number_at".split())
LIBRARY = set(
    "append length take drop suc zero nil cons get_or set replicate map add mul sub mod div pow min max true false not and or cond eqb leb ltb"
    " le lt eq reverse sum count".split()
)


def files(root):
    for folder, dirs, names in os.walk(os.path.join(root, "crates")):
        dirs[:] = sorted(d for d in dirs if d != "out")
        for name in sorted(names):
            if name.endswith((".antt", ".rt")):
                yield os.path.join(folder, name)


def is_proof(path):
    return os.path.basename(path) in ("Proof.antt", "Answers.antt", "Invariants.antt")


def snake_part(part):
    if not part or not part[0].islower():
        return part
    return CAMEL.sub(lambda m: "_" + m[1].lower(), part)


def snake(token):
    return "-".join(snake_part(p) for p in token.split("-"))


def read(path):
    with open(path, encoding="utf-8") as f:
        return f.read()


def declared(root):
    """The names that specs/ and the files of lemmas declare: all, those that stand in specs/, and fields."""
    names, words, fields, stated = set(), set(), set(), set()
    for path in files(root):
        if not path.endswith(".antt") or is_proof(path):
            continue
        in_record = False
        for line in read(path).split("\n"):
            if re.match(r"^\s*((pattern|unfoldable|abbrev|pub) )*record ", line):
                in_record = True
            elif line and not line.startswith(" "):
                in_record = False
            if line.lstrip().startswith(("--", "use ", "pub use ", "let ")):
                continue
            m = DECLARED.match(line)
            if m:
                names.add(m[3])
                if in_record and m[1]:
                    fields.add(m[3])
                    if "/specs/" in path:
                        stated.add(m[3])
                if "/specs/" in path or "abbrev" in m[2] or "unfoldable" in m[2]:
                    words.add(snake(m[3]))
    return names, words, fields, stated


def dashed(name, words):
    """A dash stays between the names of two definitions; else it is a `_`."""
    parts = name.split("-")
    out = parts[0]
    for before, part in zip(parts, parts[1:]):
        both = before.strip("'") in words and part.strip("'") in words
        out += ("-" if both else "_") + part
    return out


def new_names(root):
    names, words, fields, stated = declared(root)
    taken = {}
    for n in names:
        taken.setdefault(snake(n), set()).add(n)
    known = {w for w in words if "-" not in w} | LIBRARY
    in_specs = {w for w in words if "-" in w}
    table = {}
    for name in names:
        new = snake(name)
        if new in in_specs:
            new = new.replace("-", "_")
        elif "-" in new:
            new = dashed(new, known)
        if new != name and "-" in name and name not in stated and taken.get(new, set()) - {name}:
            new += "_lem"
        if new != name:
            table[name] = new
    return table, fields


def foreign(text):
    """Names that a file takes from libraries other than this repository's."""
    out = set()
    for m in re.finditer(r"(?m)^\s*(?:pub )?(?:ghost )?use ([^\s{;]+)\.\{([^}]*)\}", text):
        own = m[1].startswith("Rattle.") and not re.match(r"Rattle\.(std|core|std_\w+|io|libc|os)\.", m[1])
        if not own:
            out |= {t for item in m[2].split(",") for t in item.split(" as ")[0].split()}
    return out


def aliases(text):
    return set(re.findall(r"(?m)^\s*(?:pub )?use Rattle\.\S+ as (\S+)$", text))


def turned(path, text, table, fields):
    """The text with its names respelled, and the pairs that were."""
    if path.endswith(".antt"):
        text = lemmas_apart(path, text)
    skip, near, pairs = foreign(text), aliases(text), {}
    brought = {t for m in re.finditer(r"(?m)^\s*use Rattle[^{\n]*\{([^}]*)\}", text) for item in m[1].split(",") for t in item.split()}

    def one(m, at):
        token = m[0]
        before = text[max(0, at + m.start() - 400) : at + m.start()]
        after_dot = before.endswith(".") and not before.endswith("..")
        if token in skip:
            return token
        new = snake(token) if not after_dot or CAMEL.search(token) else token
        if token in table and (not is_proof(path) or "-" not in token or token in brought):
            alias = re.search(r"([A-Za-z_'-]+)\.$", before)
            if not after_dot or token in fields or (alias and alias[1] in near and not is_proof(path)) or re.search(r"use [^\n{]*\.$", before):
                new = table[token]
        if is_proof(path) and re.fullmatch(r"[a-z0-9_-]+-spec", token):
            new = token.replace("-", "_")
        if new != token:
            pairs[token] = new
        return new

    if path.endswith(".rt"):
        # Strings, byte strings and characters stay.
        parts = re.split(r'("(?:[^"\\]|\\.)*")', text)
        out = []
        for i, part in enumerate(parts):
            out.append(part if i % 2 else re.sub(TOKEN, lambda m: rt_name(m[0], table, pairs), part))
        return "".join(out), pairs
    # In a comment only words in camel case are names; elsewhere a dash is English.
    lines = []
    at = 0
    for line in text.split("\n"):
        if line.lstrip().startswith("--"):
            lines.append(TOKEN.sub(lambda t: table.get(t[0], t[0]) if CAMEL.search(t[0]) and t[0][0].islower() else t[0], line))
        else:
            lines.append(re.compile(TOKEN).sub(lambda t: one(t, at), line))
        at += len(line) + 1
    return "\n".join(lines), pairs


def lemmas_apart(path, text):
    """In a file that declares, brings or binds one of LEMMAS, its name gets `_lem`: parts of paths stay, and steps of generated records."""
    if path.endswith("honest_run/proofs/Signing.antt"):
        text = re.sub(r"(?<![\w.-])signature-size(?![\w-])", "signature_size_lem", text)
    for name in sorted(LEMMAS):
        camel = re.compile(r"(?<![A-Za-z0-9_'-])" + re.sub(r"_(\w)", lambda m: m[1].upper(), name) + r"(?![A-Za-z0-9_'-])")
        bound = re.search(rf"(?m)^\s*(?:(?:pub|abbrev|let) )*{name} [:=]|λ[^.]*\b{name}\b[^.]*\.", text)
        brought = re.search(rf"(?m)^use Rattle\.\w+\.proofs\.[^{{\n]*\{{[^}}]*\b{name}\b(?! as)", text)
        if not bound and not brought:
            continue
        if bound and not brought and not camel.search(text) and is_proof(path):
            continue
        field = r"(?<![\w'.-])" if name != "goes_on" else r"(?<![\w'-])"
        text = re.sub(field + name + r"(?![\w'.-])", name + "_lem", text)
    return text


def rt_name(token, table, pairs):
    new = table.get(token, token) if "-" not in token else token
    if "-" in token:
        new = table[token] if token in table else snake(token)
    elif CAMEL.search(token) and token[0].islower():
        new = snake(token)
    if new != token:
        pairs[token] = new
    return new


def fall_together(path, text, pairs):
    # Parts of paths are no names of the file; neither are the functions of a source file, which clauses do not name.
    there = {m[0] for m in TOKEN.finditer(text) if text[m.end() : m.end() + 1] != "." and text[m.start() - 1 : m.start()] != "."}
    if path.endswith(".rt"):
        there = set()
    out = []
    targets = {}
    for old, new in pairs.items():
        if new in there and new not in pairs:
            out.append(f"{path}: {old} -> {new}, which stands there already")
        if new in targets:
            out.append(f"{path}: {old} and {targets[new]} -> {new}")
        targets[new] = old
    return out


def pages(root, table):
    """README and docs/: names between backticks."""
    for folder in (root, os.path.join(root, "docs"), os.path.join(root, "docs", "changes")):
        for name in sorted(os.listdir(folder)):
            path = os.path.join(folder, name)
            if not name.endswith(".md") or name in ("PORT.md",):
                continue
            text = read(path)
            new = re.sub(r"`[^`\n]*`", lambda m: TOKEN.sub(lambda t: table.get(t[0], snake(t[0]) if t[0][0].islower() and "-" not in t[0] else t[0]), m[0]), text)
            if new != text:
                with open(path, "w", encoding="utf-8") as f:
                    f.write(new)


def main():
    root = os.getcwd()
    table, fields = new_names(root)
    back = {}
    for old, new in sorted(table.items()):
        back.setdefault(new, []).append(old)
    notes = [f"{' and '.join(olds)} -> {new}" for new, olds in back.items() if len(olds) > 1]
    work = []
    for path in files(root):
        text = read(path)
        new, pairs = turned(path, text, table, fields)
        notes += fall_together(os.path.relpath(path, root), lemmas_apart(path, text) if path.endswith(".antt") else text, pairs)
        if new != text:
            work.append((path, new))
    for note in notes:
        print("together: " + note)
    # A field may have the name of a word: it stands behind a dot or in a record.
    if [n for n in notes if not re.search(r"(give_up|signature_size|store_after)$", n)]:
        print(f"{len(notes)} places where names fall together: nothing was written")
        return 1
    for path, new in work:
        with open(path, "w", encoding="utf-8") as f:
            f.write(new)
    pages(root, table)
    for old, new in sorted(table.items()):
        print(f"{old} {new}")
    print(f"{len(work)} files")
    return 0


if __name__ == "__main__":
    sys.exit(main())
